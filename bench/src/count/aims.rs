//! The aims for the counts, and which are met.

use super::commands::Command;
use super::counts::{shown, Both, Counts};
use super::each_command;
use super::host_bytes;
use super::inputs::{Input, FORMS, GUARDED, ONE_A_LINE, SHORT_GUARDED, SHORT_LINES, TEXT};
use super::keys;
use super::printable;
use super::reader;
use super::screens::FORM;
use super::sides::{CORE_FAST, LIBTELNET, MEMCHR, OURS};
use super::slow::Slow;
use crate::keys::{KEYS, SEND};
use crate::size::SMALL;
use crate::table::{Aim, Row, Table, Verdict};

const LONG: usize = 65536;

pub fn table(counts: &Both) -> Table {
    let mut rows = vec![printable(counts)];
    rows.extend(host_bytes(counts));
    rows.extend(no_slower(counts));
    rows.extend(keys(counts));
    rows.extend(commands(counts));
    rows.extend(reader(counts));
    let head = ["what", "before", "now", "aim"];
    Table::new("(e) Aims for the counts", &head, rows)
}

fn row(what: String, [before, now]: [Option<f64>; 2], aim: Aim) -> Row {
    Row {
        cells: vec![what, shown(before), shown(now), aim.to_string()],
        verdict: now.map_or(Verdict::NotMeasured, |now| aim.judge(now)),
    }
}

/// The same of the base and of this build.
fn each(counts: &Both, number: impl Fn(&Counts) -> Option<f64>) -> [Option<f64>; 2] {
    [number(&counts.base), number(&counts.now)]
}

fn printable(counts: &Both) -> Row {
    let what = "the tests of characters and marks, a cell";
    row(
        what.into(),
        each(counts, printable::a_cell),
        Aim::AtMost(0.5),
    )
}

fn of_input(counts: &Both, input: &Input, length: usize) -> [Option<f64>; 2] {
    each(counts, |counts| {
        counts.of(&host_bytes::name(input, OURS, length))
    })
}

fn host_bytes(counts: &Both) -> Vec<Row> {
    let at_most = |input: &Input, length, most| {
        let what = format!("{} in calls of {length}, a byte", input.name);
        row(what, of_input(counts, input, length), Aim::AtMost(most))
    };
    let core = counts.now.of(&host_bytes::name(&FORMS, CORE_FAST, LONG));
    let ahead = of_input(counts, &FORMS, LONG).map(|ours| Some(core? / ours?));
    let what = "forms: the Rust core for speed, times ours";
    vec![
        at_most(&TEXT, LONG, 7.0),
        at_most(&TEXT, 64, 30.0),
        at_most(&FORMS, LONG, 40.0),
        row(what.into(), ahead, Aim::AtLeast(1.5)),
    ]
}

/// In long calls: in short ones the call itself weighs more than its bytes.
fn no_slower(counts: &Both) -> Vec<Row> {
    let row = |input: Input| {
        let [before, now] = of_input(counts, &input, LONG);
        let what = format!("{} in calls of {LONG}, a byte", input.name);
        let judge = |(before, now)| Aim::AtMost(before).judge(now);
        Row {
            cells: vec![
                what,
                shown(before),
                shown(now),
                "no more than before".into(),
            ],
            verdict: before.zip(now).map_or(Verdict::NotMeasured, judge),
        }
    };
    let inputs = [SHORT_LINES, ONE_A_LINE, GUARDED, SHORT_GUARDED];
    inputs.into_iter().map(row).collect()
}

fn keys(counts: &Both) -> Vec<Row> {
    let key = |what: &str, key, slow: &dyn Fn(&Counts) -> Option<Slow>| {
        let numbers = each(counts, |counts| Some(slow(counts)?.count));
        let screen = slow(&counts.now).map_or("", |slow| slow.screen);
        let most = if key == SEND { 30_000.0 } else { 4_000.0 };
        let what = format!("{key}, {SMALL}, {what}{screen}");
        row(what, numbers, Aim::AtMost(most))
    };
    let any = |(_, name)| {
        let slowest = |counts: &Counts| keys::slowest(counts, name, SMALL);
        key("the slowest of ten screens: ", name, &slowest)
    };
    let mut rows: Vec<Row> = KEYS.into_iter().map(any).collect();
    let on_form = |counts: &Counts| keys::on(counts, SEND, SMALL, &FORM);
    rows.push(key("", SEND, &on_form));
    rows
}

fn commands(counts: &Both) -> [Row; 2] {
    let of = |what: &str, some: fn(&Command) -> bool| {
        let slowest = |counts: &Counts| each_command::slowest(counts, some);
        let numbers = each(counts, |counts| Some(slowest(counts)?.a_cell()));
        let named = slowest(&counts.now).map_or(String::new(), |slowest| slowest.to_string());
        row(
            format!("{what}, a cell ({named})"),
            numbers,
            Aim::AtMost(4.0),
        )
    };
    [
        of("the slowest command", |_| true),
        of("the slowest but those that transmit", |command| {
            !command.transmits()
        }),
    ]
}

fn reader(counts: &Both) -> [Row; 2] {
    let memchr = reader::beside(&counts.now, &TEXT, MEMCHR);
    let libtelnet = reader::beside(&counts.now, &FORMS, LIBTELNET);
    let text = each(counts, |counts| {
        Some(reader::ours(counts, &TEXT)? / memchr?)
    });
    let forms = each(counts, |counts| {
        Some(libtelnet? / reader::ours(counts, &FORMS)?)
    });
    [
        row(
            "the reader alone on text, times memchr".into(),
            text,
            Aim::AtMost(4.0),
        ),
        row(
            "the reader alone on forms: libtelnet, times ours".into(),
            forms,
            Aim::AtLeast(3.0),
        ),
    ]
}
