//! (c) One key, beside one pass over what it is lent.

use std::hint::black_box;

use crate::compared::short;
use crate::ours::Ours;
use crate::screens::{Screen, EMPTY_LINE, FORM, FULL_LINE, HARD};
use crate::size::{self, LARGE, SMALL};
use crate::table::{Aim, Row, Table};
use crate::timing::{beside, Costs, Job};

pub const SEND: &str = "send (13)";

pub const KEYS: [(u32, &str); 6] = [
    (b'a' as u32, "a character"),
    (8, "back (8)"),
    (9, "tab (9)"),
    (13, SEND),
    (127, "delete (127)"),
    (128, "function (128)"),
];

/// Keys that the edit line takes, and the line.
pub const LINE_KEYS: [(u32, &str, Screen); 2] = [
    (b'a' as u32, "a character", EMPTY_LINE),
    (13, "a forwarding key (13)", FULL_LINE),
];

const AIM: Aim = Aim::AtMost(3.0);

/// Neither on a screen nor in a key's reply.
const ABSENT: u8 = 254;

/// What one key costs on one screen, in both sizes.
struct Cost {
    screen: &'static str,
    small: f64,
    small_passes: f64,
    large: f64,
    large_passes: f64,
    growth: f64,
}

pub fn table() -> Table {
    let mut rows = Vec::new();
    for (key, name) in KEYS {
        let form = cost(key, &FORM).expect("the form takes every key");
        let hard = HARD.iter().filter_map(|screen| cost(key, screen));
        let hardest = hard.max_by(|a, b| a.passes().total_cmp(&b.passes()));
        rows.push(form.row(name));
        rows.extend(hardest.map(|cost| cost.row(name)));
    }
    let (small, large) = (SMALL.to_string(), LARGE.to_string());
    let growth = format!("growth (C: {})", short(size::growth()));
    let head = [
        "key",
        "screen",
        &small,
        "passes",
        &large,
        "passes",
        &growth,
        "aim, passes",
    ];
    Table::new("(c) One key", &head, rows)
}

/// None where the key is refused there.
fn cost(key: u32, screen: &Screen) -> Option<Cost> {
    let (mut small, mut large) = ((screen.make)(SMALL), (screen.make)(LARGE));
    small.clone().key(key)?;
    let (small_lent, large_lent) = (small.clone(), large.clone());
    let costs = beside(&mut [
        press(key, &mut small),
        pass(&small_lent),
        press(key, &mut large),
        pass(&large_lent),
    ]);
    Some(Cost::of(screen.name, &costs))
}

/// The same key again and again, from the same session.
fn press(key: u32, ours: &mut Ours) -> Job<'_> {
    let session = ours.session.clone();
    Job::new(1, move || {
        ours.session = session.clone();
        black_box(ours.key(key)).expect("it was taken before");
    })
}

/// One pass over the buffers that a key is lent: a test for each byte, which
/// could end it.
fn pass(lent: &Ours) -> Job<'_> {
    Job::new(1, move || {
        let lent = black_box(lent);
        let buffers = [&lent.chars, &lent.attrs, &lent.marks, &lent.reply];
        let absent = |buffer: &&Vec<u8>| buffer.iter().all(|byte| *byte != ABSENT);
        assert!(black_box(buffers.iter().all(absent)));
    })
}

impl Cost {
    fn of(screen: &'static str, costs: &Costs) -> Cost {
        Cost {
            screen,
            small: costs.of(0),
            small_passes: costs.ratio(0, 1),
            large: costs.of(2),
            large_passes: costs.ratio(2, 3),
            growth: costs.ratio(2, 0),
        }
    }

    /// In the size where they are more.
    fn passes(&self) -> f64 {
        self.small_passes.max(self.large_passes)
    }

    fn row(self, key: &str) -> Row {
        Row {
            cells: vec![
                key.into(),
                self.screen.into(),
                format!("{:.0} ns", self.small),
                short(self.small_passes),
                format!("{:.0} ns", self.large),
                short(self.large_passes),
                short(self.growth),
                AIM.to_string(),
            ],
            verdict: AIM.judge(self.passes()),
        }
    }
}
