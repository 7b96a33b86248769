//! Keys that the edit line takes, told apart before they do anything.

use super::pad::STYLES;
use super::situation::Situation as S;
use super::Cover;
use crate::pad::line::EditLine;
use crate::pad::parameters::{line_feed, number};
use crate::pad::stroke::{Edit, Stroke, EDITS};
use crate::pad::{sets, Pad, CR};
use crate::variant::Variant;
use crate::watch::Sight;

impl Cover {
    pub fn line_key(&mut self, key: u8, sight: Sight) {
        let pad = sight.pad;
        self.pad.keys[usize::from(key)] += 1;
        match pad.stroke(key, Variant::None) {
            Stroke::Edit(edit) => self.edit(edit, key, pad),
            Stroke::Forward => self.forwarded(key, pad),
            Stroke::Text => self.line_text(key, pad),
        }
        self.echo(key, sight);
    }

    fn edit(&mut self, edit: Edit, key: u8, pad: &Pad) {
        let named = |&&(parameter, _): &&(u8, Edit)| {
            pad.parameters.known(parameter) && pad.parameters.get(parameter) == key
        };
        let Some((parameter, _)) = EDITS.iter().find(named) else {
            return;
        };
        self.pad.edited[usize::from(*parameter)] += 1;
        let forwarding = sets::forwarding(key, Variant::None);
        let forwards = pad.parameters.has(number::FORWARDING, forwarding);
        self.count_if(forwards, S::EditForwards);
        self.count_if(EDITS.iter().filter(named).count() > 1, S::EditTwice);
        self.count_if(pad.line.is_full(Variant::None), S::EditFull);
        let empty = pad.line.is_empty();
        self.count_if(empty && edit == Edit::CharacterDelete, S::EditEmpty);
        let spaces = pad.line.bytes().last() == Some(&b' ');
        self.count_if(spaces && edit == Edit::WordDelete, S::WordSpaces);
        if echoes(key, pad) {
            self.signalled(edit, pad);
        }
    }

    /// A line delete on a display shows nothing where the line is empty.
    fn signalled(&mut self, edit: Edit, pad: &Pad) {
        let style = match pad.parameters.get(number::SIGNALS) {
            8 => 3,
            style @ 0..=2 => usize::from(style),
            _ => STYLES.len() - 1,
        };
        match edit {
            Edit::CharacterDelete => self.pad.signals[0][style] += 1,
            Edit::LineDelete if !pad.line.is_empty() => self.pad.signals[1][style] += 1,
            _ => {}
        }
    }

    fn forwarded(&mut self, key: u8, pad: &Pad) {
        let bit = sets::forwarding(key, Variant::None);
        self.pad.forwarded[bit.trailing_zeros() as usize] += 1;
        self.count_if(pad.line.is_full(Variant::None), S::ForwardFull);
        self.count_if(pad.line.is_empty(), S::ForwardAlone);
        if key == CR || pad.line.bytes().contains(&CR) {
            let line_feed = pad.parameters.has(number::LINE_FEEDS, line_feed::ON_INPUT);
            self.count(if line_feed { S::SentCrLf } else { S::SentCrNul });
        }
    }

    fn line_text(&mut self, key: u8, pad: &Pad) {
        let editing = pad.parameters.get(number::EDITING) == 1;
        let is = |parameter| pad.parameters.get(parameter) == key && key != 0;
        let basic = is(number::CHARACTER_DELETE) || is(number::LINE_DELETE);
        let word = is(number::WORD_DELETE) && !pad.parameters.known(number::WORD_DELETE);
        let zero = EDITS.iter().any(|pair| pad.parameters.get(pair.0) == 0);
        self.count(S::LineText);
        let last = pad.line.bytes().len() + 1 == EditLine::CAPACITY;
        self.count_if(last, S::LineFilled);
        self.count_if(!editing && basic, S::EditOff);
        self.count_if(editing && key == 0 && zero, S::EditZero);
        self.count_if(editing && word, S::WordForeign);
    }

    fn echo(&mut self, key: u8, sight: Sight) {
        let pad = sight.pad;
        if pad.parameters.get(number::ECHO) == 0 {
            return self.count(S::EchoOff);
        }
        let silent = silencing(key, pad);
        if silent.is_power_of_two() {
            self.pad.silenced[silent.trailing_zeros() as usize] += 1;
        }
        let edits = pad.edit(key, Variant::None).is_some();
        if silent != 0 || edits {
            return;
        }
        self.count(S::Echoed);
        let guarded = sight.screen.guarded(sight.screen.at());
        self.count_if(guarded && (32..=126).contains(&key), S::EchoDropped);
        let line_feed = pad.parameters.has(number::LINE_FEEDS, line_feed::IN_ECHO);
        self.count_if(key == CR && line_feed, S::EchoedCrLf);
        self.count_if(key == CR && !line_feed, S::EchoedCr);
    }
}

/// The set bits of parameter 20 that silence the key.
fn silencing(key: u8, pad: &Pad) -> u8 {
    let editing = match pad.edit(key, Variant::None) {
        Some(_) => sets::EDITING,
        None => 0,
    };
    pad.parameters.get(number::ECHO_MASK) & (sets::silencing(key) | editing)
}

fn echoes(key: u8, pad: &Pad) -> bool {
    pad.parameters.get(number::ECHO) == 1 && silencing(key, pad) == 0
}
