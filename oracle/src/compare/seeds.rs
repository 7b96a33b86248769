//! Which scripts are compared.

use std::ops::RangeInclusive;

#[derive(Clone, Debug, PartialEq, Eq)]
pub enum Seeds {
    Range(RangeInclusive<u64>),
    List(Vec<u64>),
}

impl Seeds {
    /// `50` for the first fifty, `5..9` for five seeds, `1,5,9` for three.
    pub fn parse(text: &str) -> Result<Seeds, String> {
        if let Some((first, last)) = text.split_once("..") {
            return Ok(Seeds::Range(number(first)?..=number(last)?));
        }
        if text.contains(',') {
            let list: Result<Vec<u64>, String> = text.split(',').map(number).collect();
            return list.map(Seeds::List);
        }
        Ok(Seeds::Range(1..=number(text)?))
    }

    pub fn is_empty(&self) -> bool {
        match self {
            Seeds::Range(range) => range.is_empty(),
            Seeds::List(list) => list.is_empty(),
        }
    }

    pub fn iter(&self) -> Box<dyn Iterator<Item = u64> + '_> {
        match self {
            Seeds::Range(range) => Box::new(range.clone()),
            Seeds::List(list) => Box::new(list.iter().copied()),
        }
    }
}

pub fn number(text: &str) -> Result<u64, String> {
    text.parse()
        .map_err(|_| format!("`{text}` is not a number"))
}
