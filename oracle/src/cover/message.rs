//! Messages of option 30, told apart before they are obeyed.

use super::situation::Situation as S;
use super::Cover;
use crate::pad::message::code;
use crate::pad::parameters::{admits, number, Parameters};
use crate::telnet::{Held, IAC};
use crate::variant::Variant;
use crate::watch::Sight;

impl Cover {
    /// A message that ends while the option is on.
    pub fn pad_message(&mut self, message: &[u8], sight: Sight) {
        let parameters = &sight.pad.parameters;
        self.count_if(sight.det, S::PadDet);
        let Some((&code, pairs)) = message.split_first() else {
            return self.count(S::PadNoCode);
        };
        let odd = pairs.len() % 2 == 1;
        match code {
            code::SET | code::RESPONSE_SET if odd => {
                self.count(S::PadOdd);
                self.count_if(pairs.len() > 1, S::PadOddLong);
            }
            code::SET | code::RESPONSE_SET => self.pad_set(code, pairs, parameters),
            code::SEND if odd => self.count(S::SendOdd),
            code::SEND => self.pad_send(pairs, parameters),
            code::IS | code::RESPONSE_IS => self.count(S::PadOurs),
            _ => self.count(S::PadUnknown),
        }
    }

    fn pad_set(&mut self, code: u8, pairs: &[u8], parameters: &Parameters) {
        self.count(match code {
            code::SET => S::PadSet,
            _ => S::PadResponseSet,
        });
        self.count_if(pairs.is_empty(), S::PadNone);
        self.count_if(pairs.len() + 1 > Held::MOST, S::PadLong);
        self.count_if(pairs.contains(&IAC), S::PadDoubled);
        let (mut now, mut named) = (parameters.clone(), Vec::new());
        for pair in pairs.chunks_exact(2) {
            let (number, value) = (pair[0], pair[1]);
            self.pair(number, value, parameters, &now);
            self.count_if(named.contains(&number) && now.known(number), S::PairTwice);
            named.push(number);
            now.set(number, value, Variant::None);
        }
    }

    /// One pair, with the parameters before the message and as they now are.
    fn pair(&mut self, number: u8, value: u8, before: &Parameters, now: &Parameters) {
        if !now.known(number) {
            return self.count(match number {
                number::WORD_DELETE..=132 => S::PairForeign,
                _ => S::PairLacked,
            });
        }
        self.count_if(!before.known(number), S::PairExtended);
        let place = usize::from(number);
        if !admits(number, value, Variant::None) {
            self.pad.bad[place] += 1;
        } else if now.get(number) != value {
            self.pad.set[place] += 1;
        }
    }

    fn pad_send(&mut self, pairs: &[u8], parameters: &Parameters) {
        self.count(S::Send);
        self.count_if(!pairs.is_empty(), S::SendPairs);
        let told: Vec<(u8, u8)> = parameters.told(Variant::None).collect();
        let extended = told.iter().any(|pair| pair.0 == number::WORD_DELETE);
        self.count_if(extended, S::ToldExtended);
        self.count_if(!extended, S::ToldBare);
        self.count_if(told.iter().any(|pair| pair.1 == IAC), S::Told255);
    }
}
