//! The second story: a log-in with option 30, which sends a line at a time.

use host::refusal::Refusal;

use crate::desk::Desk;
use crate::teller::{expect, Done, Teller};
use crate::telnet::{subnegotiation, turn_on, PAD};

const WIDTH: usize = 40;
const HEIGHT: usize = 5;

const WELCOME: &[u8] = b" PHARMACY, WARD 7\r\n\r\n Name: ";
const PASSWORD: &[u8] = b" Password: ";

const SET: u8 = 0;

const BS: u8 = 8;
const CR: u8 = 13;

/// Parameters of option 30, each with its value.
const EDITED: [[u8; 2]; 6] = [
    [2, 1],   // echo
    [3, 2],   // a line goes out at CR
    [13, 5],  // LF after CR counts from the host, and is added in echo
    [15, 1],  // editing
    [16, BS], // takes the last character back
    [19, 2],  // and wipes it off the screen
];
const UNSEEN: [[u8; 2]; 1] = [[2, 0]];

struct Login<'a> {
    desk: Desk,
    teller: &'a mut Teller,
    /// How many keys were pressed since the last were counted, and how many of
    /// them sent something.
    keys: usize,
    packets: usize,
}

pub fn tell(teller: &mut Teller) -> Done {
    let mut login = Login {
        desk: Desk::open(WIDTH, HEIGHT)?,
        teller,
        keys: 0,
        packets: 0,
    };
    login.ask()?;
    login.slip()?;
    login.correct()?;
    login.send()?;
    login.password()
}

fn set(pairs: &[[u8; 2]]) -> Vec<u8> {
    subnegotiation(PAD, &[&[SET], pairs.as_flattened()].concat())
}

impl Login<'_> {
    fn ask(&mut self) -> Done {
        self.say("8. The host turns option 30 on: typing is echoed and edited here, and sent at")?;
        self.say("   return. Then it asks for a name.")?;
        let bytes = [&turn_on(PAD), &set(&EDITED), WELCOME].concat();
        let reply = self.desk.host(&bytes)?;
        expect("reply", &*format!("{reply:x?}"), "[ff, fb, 1e]")?;
        self.show()
    }

    fn slip(&mut self) -> Done {
        self.say("9. The operator types the name, and slips. Nothing is sent.")?;
        self.waits(b"mariw", "mariw")?;
        self.show()
    }

    fn correct(&mut self) -> Done {
        self.say("10. Backspace takes the w off the line and off the screen; then the rest.")?;
        self.waits(&[BS], "mari")?;
        self.waits(b"e.ott", "marie.ott")?;
        self.show()
    }

    fn send(&mut self) -> Done {
        self.say("11. Return. The host reads the name as it was meant, all at once:")?;
        let sent = self.key(CR)?;
        self.teller.bytes(&sent)?;
        expect("sent", &*text(&sent), "marie.ott\r\0")?;
        self.counted(12, sent.len())?;
        self.teller.pause()
    }

    fn password(&mut self) -> Done {
        self.say(
            "12. The host turns echo off and asks for the password. It is typed unseen, with",
        )?;
        self.say("    a slip and backspace as before, then return.")?;
        self.desk.host(&[&set(&UNSEEN), PASSWORD].concat())?;
        let before = self.desk.chars.clone();
        self.waits(b"tulio\x08p-9", "tulip-9")?;
        let sent = self.key(CR)?;
        expect("sent", &*text(&sent), "tulip-9\r\0")?;
        if self.desk.chars != before {
            return Err("the password shows on the screen".into());
        }
        self.teller.screen(&self.desk)?;
        self.counted(10, sent.len())?;
        self.teller.pause()
    }

    fn say(&mut self, line: &str) -> Done {
        self.teller.say(line)
    }

    /// What a key sends.
    fn key(&mut self, key: u8) -> Result<Vec<u8>, Refusal> {
        let sent = self.desk.key(key.into())?;
        self.keys += 1;
        self.packets += usize::from(!sent.is_empty());
        Ok(sent)
    }

    /// Keys that send nothing, and what waits in the line after them.
    fn waits(&mut self, keys: &[u8], line: &str) -> Done {
        for key in keys {
            expect("sent", self.key(*key)?.len(), 0)?;
        }
        expect("line", &*text(self.desk.session.line()), line)
    }

    /// Tells what option 30 has saved, and counts anew.
    fn counted(&mut self, keys: usize, bytes: usize) -> Done {
        expect("keys", self.keys, keys)?;
        expect("packets", self.packets, 1)?;
        (self.keys, self.packets) = (0, 0);
        self.say(&format!(
            "  {keys} keys in 1 packet of {bytes} bytes; key by key they would be {keys} packets"
        ))
    }

    fn show(&mut self) -> Done {
        self.teller.screen(&self.desk)?;
        let line = text(self.desk.session.line());
        self.say(&format!("  waiting in the edit line: \"{line}\""))?;
        self.teller.pause()
    }
}

fn text(bytes: &[u8]) -> String {
    bytes.iter().copied().map(char::from).collect()
}
