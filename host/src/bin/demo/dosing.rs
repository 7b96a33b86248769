//! The first story: a dosing form painted, filled in, sent and corrected.

use std::error::Error;

use crate::desk::Desk;
use crate::form::{self, FIELDS, NUMBER, WEIGHT};
use crate::teller::{expect, Done, Teller};

const BACK: u32 = 8;
const TAB: u32 = 9;
const SEND: u32 = 13;
const DELETE: u32 = 127;

struct Dosing<'a> {
    desk: Desk,
    teller: &'a mut Teller,
    /// The protected cells as the host has painted them.
    painted: Vec<(usize, u8, u8)>,
}

pub fn tell(teller: &mut Teller) -> Done {
    let mut dosing = Dosing {
        desk: Desk::open(form::WIDTH, form::HEIGHT)?,
        teller,
        painted: Vec::new(),
    };
    dosing.paint()?;
    dosing.type_weight()?;
    dosing.delete()?;
    dosing.on_the_number()?;
    dosing.fill_in()?;
    let texts = dosing.send()?;
    dosing.correct(&texts)
}

impl Dosing<'_> {
    fn paint(&mut self) -> Done {
        self.say("1. The host paints the form and protects all of it but what is in brackets.")?;
        self.desk.host(&form::negotiate())?;
        let agreed = format!("{:x?}", self.desk.session.agreed_maps());
        expect("agreed", &*agreed, "[7e, 1f, 3f, d0, 79]")?;
        self.desk.host(&form::paint())?;
        self.teller.screen(&self.desk)?;
        self.painted = self.desk.protected();
        let protected = self.painted.len();
        let open = self.desk.chars.len() - protected;
        self.say(&format!(
            "  {protected} cells are protected, {open} are open"
        ))?;
        let lengths = FIELDS.iter().map(|(field, _)| usize::from(field.length));
        expect("open cells", open, lengths.sum())?;
        self.teller.pause()
    }

    fn type_weight(&mut self) -> Done {
        self.say("2. The operator types the weight, and slips: a letter, and a 0 too many.")?;
        self.refused("x", 'x'.into(), 7)?;
        self.taken("700.5")?;
        expect("weight", self.desk.text(&WEIGHT), "700.5 ".into())?;
        self.show()
    }

    fn delete(&mut self) -> Done {
        self.say("3. Three cells back, and the delete key. The weight closes up; the patient's")?;
        self.say("   number, on the same line, stays where it is.")?;
        for key in [BACK, BACK, BACK, DELETE] {
            self.desk.key(key)?;
        }
        expect("weight", self.desk.text(&WEIGHT), "70.5  ".into())?;
        self.show()
    }

    fn on_the_number(&mut self) -> Done {
        self.say("4. The host puts the cursor on the patient's number. No key changes it.")?;
        self.desk.host(&form::move_cursor(NUMBER.x, NUMBER.y))?;
        self.refused("9", '9'.into(), 6)?;
        self.refused("delete", DELETE, 6)?;
        self.show()
    }

    fn fill_in(&mut self) -> Done {
        self.say("5. The operator tabs to the other fields and fills them in.")?;
        for text in ["350", "8", "Ann"] {
            self.desk.key(TAB)?;
            self.taken(text)?;
        }
        self.show()
    }

    /// What the host has read, field by field.
    fn send(&mut self) -> Result<Vec<String>, Box<dyn Error>> {
        self.say("6. The send key. The host reads the fields, and nothing that is protected:")?;
        let reply = self.desk.key(SEND)?;
        self.teller.bytes(&reply)?;
        let texts = form::texts(&reply);
        for ((field, _), text) in FIELDS.iter().zip(&texts) {
            self.say(&format!("  {:8} \"{text}\"", field.name))?;
        }
        let all = texts.join("|");
        expect("fields sent", &*all, "70.5  |350   |8 |Ann             ")?;
        self.teller.pause()?;
        Ok(texts)
    }

    fn correct(&mut self, texts: &[String]) -> Done {
        self.say("7. Later the host paints the form with what it has read. The operator corrects")?;
        self.say("   the dose; then the host asks for what was touched, and reads that alone.")?;
        self.desk.host(&form::paint_with(texts))?;
        self.desk.key(TAB)?;
        self.taken("400")?;
        self.show_checked()?;
        let all = self.desk.host(&form::ask_for_all())?;
        let touched = self.desk.host(&form::ask_for_touched())?;
        self.teller.bytes(&touched)?;
        expect("field sent", &*form::texts(&touched).join("|"), "400   ")?;
        let (sent, whole) = (touched.len(), all.len());
        self.say(&format!(
            "  {sent} bytes; asked for all fields, the terminal would send {whole}"
        ))?;
        expect("bytes", sent, 14)?;
        let again = self.desk.host(&form::ask_for_touched())?;
        expect("bytes when asked again", again.len(), 0)?;
        self.teller.pause()
    }

    fn say(&mut self, line: &str) -> Done {
        self.teller.say(line)
    }

    /// Keys that must be taken.
    fn taken(&mut self, text: &str) -> Done {
        for key in text.chars() {
            self.desk.key(key.into())?;
        }
        self.say(&format!("  keys {text}: taken"))
    }

    /// A key that must be refused with this number and leave the screen alone.
    fn refused(&mut self, name: &str, key: u32, number: u8) -> Done {
        let before = self.desk.chars.clone();
        let Err(refusal) = self.desk.key(key) else {
            return Err(format!("key {name}: taken, expected refusal {number}").into());
        };
        expect("refusal", refusal.number(), number)?;
        if self.desk.chars != before {
            return Err(format!("key {name}: refused, but the screen has changed").into());
        }
        self.say(&format!("  key {name}: {refusal}"))
    }

    fn show(&mut self) -> Done {
        self.show_checked()?;
        self.teller.pause()
    }

    /// Shows the screen and checks every protected cell.
    fn show_checked(&mut self) -> Done {
        self.teller.screen(&self.desk)?;
        if self.desk.protected() != self.painted {
            return Err("a protected cell has changed".into());
        }
        let (number, protected) = (self.desk.text(&NUMBER), self.painted.len());
        let checked = "protected cells are as the host painted them";
        self.say(&format!(
            "  checked: patient {number}; all {protected} {checked}"
        ))
    }
}
