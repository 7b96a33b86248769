//! All that a call is lent, and calls by both of the crate's doors.

use host::raw;
use host::terminal::{at, reply_room, Session, SEPTEMBER, SESSION_LENGTH, SESSION_VERSION};

use Call::{Host, Key};

/// What the lent reply bytes are before a call, and what the counts are.
pub const LENT: u8 = 0xa5;
const COUNT: usize = 77;

#[derive(Clone, Copy, Debug)]
pub enum Call<'a> {
    Host(&'a [u8]),
    Key(u32),
}

/// The number that a call returns, and its two counts.
pub type Answer = (u8, usize, usize);

/// All that a call can be given, and all that it can change but the counts.
#[derive(Clone, Debug, PartialEq, Eq)]
pub struct Lent {
    pub session: Vec<u8>,
    pub chars: Vec<u8>,
    pub attrs: Vec<u8>,
    pub marks: Vec<u8>,
    pub reply: Vec<u8>,
}

/// The bytes of the session that open leaves: what is not 0 in it is the
/// version, the size, the start of parameters 130 and 131, and September's
/// edition.
pub fn fresh(width: u8, height: u8, edition: usize) -> Vec<u8> {
    let mut session = vec![0; SESSION_LENGTH];
    session[..3].copy_from_slice(&[SESSION_VERSION, width, height]);
    session[at::PARAMETERS + 25..][..2].copy_from_slice(&[19, 17]);
    session[at::EDITION] = u8::from(edition == SEPTEMBER);
    session
}

impl Lent {
    /// As open leaves all in September's edition, with the least reply room.
    pub fn open(width: u8, height: u8) -> Lent {
        let (columns, lines) = (usize::from(width), usize::from(height));
        Lent {
            session: fresh(width, height, SEPTEMBER),
            chars: vec![b' '; columns * lines],
            attrs: vec![0; columns * lines],
            marks: vec![0; columns * lines],
            reply: vec![LENT; reply_room(columns, lines)],
        }
    }

    pub fn changed(mut self, change: fn(&mut Lent)) -> Lent {
        change(&mut self);
        self
    }

    /// The call by its slices, and by a [`Session`] where the bytes are one:
    /// both have to come to the same.
    pub fn call(&mut self, call: Call) -> Answer {
        let mut twin = self.clone();
        let answer = self.raw_call(call);
        match twin.safe_call(call) {
            Some(safe) => assert_eq!((safe, &twin), (answer, &*self), "{call:?}"),
            None => assert_eq!(answer.0, 255, "{call:?}"),
        }
        answer
    }

    fn raw_call(&mut self, call: Call) -> Answer {
        let (mut taken, mut written) = (COUNT, COUNT);
        let (session, chars, attrs) = (&mut self.session, &mut self.chars, &mut self.attrs);
        let (marks, reply) = (&mut self.marks, &mut self.reply);
        let (t, w) = (&mut taken, &mut written);
        let number = match call {
            Host(input) => raw::host(session, input, chars, attrs, marks, reply, t, w),
            Key(key) => raw::key(session, key, chars, attrs, marks, reply, t, w),
        };
        (number, taken, written)
    }

    fn safe_call(&mut self, call: Call) -> Option<Answer> {
        let mut session = Session::from_bytes(self.session.clone().try_into().ok()?)?;
        let (chars, attrs) = (&mut self.chars, &mut self.attrs);
        let (marks, reply) = (&mut self.marks, &mut self.reply);
        let result = match call {
            Host(input) => session.host_bytes(input, chars, attrs, marks, reply),
            Key(key) => session.key(key, chars, attrs, marks, reply),
        };
        self.session = session.as_bytes().to_vec();
        Some(match result {
            Ok(counts) => (0, counts.taken, counts.written),
            Err(refusal) => (refusal.number(), 0, 0),
        })
    }

    /// Tries a call that must be refused with this number.
    pub fn refuses(mut self, number: u8, call: Call) {
        let before = self.clone();
        let answer = self.call(call);
        assert_eq!(answer, (number, 0, 0), "{call:?} on {before:?}");
        assert_eq!(self, before, "{call:?}, refused with {number}");
    }

    /// A call that must be done and take all; the reply that it draws.
    pub fn draws(&mut self, call: Call) -> Vec<u8> {
        let all = match call {
            Host(input) => input.len(),
            Key(_) => 1,
        };
        let (number, taken, written) = self.call(call);
        assert_eq!((number, taken), (0, all), "{call:?}");
        let drawn = self.reply[..written].to_vec();
        self.reply.fill(LENT);
        drawn
    }

    /// The session that the bytes must be.
    pub fn session(&self) -> Session {
        let bytes = self.session.clone().try_into().expect("the length stays");
        Session::from_bytes(bytes).expect("a call leaves a session")
    }
}

/// Hands on the host's bytes in one call, in two however they are cut, and one
/// by one: all has to come to the same. What it comes to, and the replies.
pub fn cut_anywhere(lent: &Lent, stream: &[u8]) -> (Lent, Vec<u8>) {
    let whole = in_pieces(lent, &[stream]);
    for cut in 0..stream.len() {
        let pieces = [&stream[..cut], &stream[cut..]];
        assert_eq!(in_pieces(lent, &pieces), whole, "cut at {cut}");
    }
    let bytes: Vec<_> = stream.chunks(1).collect();
    assert_eq!(in_pieces(lent, &bytes), whole);
    whole
}

fn in_pieces(lent: &Lent, pieces: &[&[u8]]) -> (Lent, Vec<u8>) {
    let mut lent = lent.clone();
    let mut replies = Vec::new();
    for piece in pieces {
        replies.extend(lent.draws(Host(piece)));
        lent.session = lent.session().as_bytes().to_vec();
    }
    (lent, replies)
}
