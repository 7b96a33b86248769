//! Rows in which a cost stands beside another.

use crate::table::{Aim, Row, Table, Verdict};

const HEAD: [&str; 5] = ["what", "ours", "beside it", "ratio", "aim"];

pub fn table(title: &'static str, rows: Vec<Row>) -> Table {
    Table::new(title, &HEAD, rows)
}

/// A row's cells, but for the aim.
pub struct Compared {
    pub what: String,
    pub ours: String,
    pub beside: String,
    /// What the ratio is of, after it.
    pub unit: &'static str,
}

impl Compared {
    pub fn row(self, ratio: f64, aim: Option<Aim>) -> Row {
        let verdict = aim.map_or(Verdict::NoAim, |aim| aim.judge(ratio));
        let aim = aim.map_or("-".into(), |aim| aim.to_string());
        let ratio = format!("{} {}", short(ratio), self.unit);
        Row {
            cells: vec![self.what, self.ours, self.beside, ratio, aim],
            verdict,
        }
    }
}

/// Where the peer is not installed.
pub fn not_measured(what: &str, package: &str, aim: Option<Aim>) -> Row {
    let aim = aim.map_or("-".into(), |aim| aim.to_string());
    let why = format!("not measured: install {package}");
    Row {
        cells: vec![what.into(), "-".into(), why, "-".into(), aim],
        verdict: Verdict::NotMeasured,
    }
}

/// A number with as many digits as matter.
pub fn short(number: f64) -> String {
    match number {
        _ if number >= 100.0 => format!("{number:.0}"),
        _ if number >= 10.0 => format!("{number:.1}"),
        _ => format!("{number:.2}"),
    }
}
