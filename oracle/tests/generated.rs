//! Generated scripts: never a bad line, nothing left out, and no wrong
//! variant that passes for the right program.

use oracle::command::error;
use oracle::cover::Cover;
use oracle::facilities::governing;
use oracle::generate;
use oracle::replay::Replay;
use oracle::script::Line;
use oracle::variant::{self, Variant};
use oracle::watch::{Event, Sight, Unwatched, Watch};

/// Seeds whose scripts leave nothing out.
const FULL_SEEDS: [u64; 3] = [1, 2, 3];
const FULL_CALLS: usize = 100_000;

const SCRIPTS: u64 = 50;
const CALLS: usize = 1_000;

fn answers(variant: Variant, script: &[Line]) -> Vec<String> {
    let mut replay = Replay::new(variant);
    let answer = |line| {
        let mut text = String::new();
        replay.answer(line, &mut Unwatched, &mut text);
        text
    };
    script.iter().map(answer).collect()
}

/// Whether the variant answers some line otherwise.
fn differs(variant: Variant, script: &[Line], right: &[String]) -> bool {
    let mut replay = Replay::new(variant);
    let mut text = String::new();
    script.iter().zip(right).any(|(line, right)| {
        text.clear();
        replay.answer(line, &mut Unwatched, &mut text);
        text != *right
    })
}

#[test]
fn a_script_has_no_bad_line() {
    for seed in 0..40 {
        for line in generate::script(seed, 500) {
            let text = line.to_string();
            assert_eq!(Line::parse(text.as_bytes()), Some(line), "{text}");
        }
    }
}

#[test]
fn a_script_depends_on_its_seed_alone() {
    assert_eq!(generate::script(7, 200), generate::script(7, 200));
    assert_ne!(generate::script(7, 200), generate::script(8, 200));
}

#[test]
fn a_script_has_about_the_calls_asked_for() {
    for seed in 0..20 {
        let script = generate::script(seed, 1_000);
        let calls = script.iter().filter(|line| line.is_call()).count();
        assert!((1_000..1_040).contains(&calls), "{calls}");
    }
}

#[test]
fn most_calls_are_taken() {
    let script = generate::script(5, 5_000);
    let mut replay = Replay::new(Variant::None);
    let outcomes = script
        .iter()
        .filter_map(|line| replay.run(line, &mut Unwatched));
    let (taken, refused): (Vec<_>, Vec<_>) = outcomes.partition(|call| call.refusal.is_none());
    assert!(taken.len() > 3 * refused.len());
}

/// Governed commands: executed, and for want of a facility not.
#[derive(Default)]
struct Governed(u64, u64);

impl Watch for Governed {
    fn saw(&mut self, event: Event, _: Sight) {
        match event {
            Event::Executed(code, _) => {
                self.0 += u64::from(governing(code, Variant::None).is_some());
            }
            Event::Error(_, error::NOT_AGREED, _) => self.1 += 1,
            _ => {}
        }
    }
}

#[test]
fn most_governed_commands_find_their_facility_agreed() {
    let (mut governed, mut replay) = (Governed::default(), Replay::new(Variant::None));
    for line in generate::script(5, 20_000) {
        replay.run(&line, &mut governed);
    }
    let Governed(executed, missed) = governed;
    assert!(executed > missed, "{executed} {missed}");
    assert!(missed > executed / 10, "{executed} {missed}");
}

#[test]
fn full_seeds_leave_nothing_out() {
    for seed in FULL_SEEDS {
        let (mut cover, mut replay) = (Cover::new(), Replay::new(Variant::None));
        for line in generate::script(seed, FULL_CALLS) {
            cover.run(&mut replay, &line);
        }
        assert_eq!(cover.missing(), Vec::<String>::new(), "seed {seed}");
    }
}

/// With room enough, how host bytes are cut into calls is all one.
#[test]
fn cutting_a_stream_changes_nothing() {
    for seed in 0..20 {
        let (mut whole, mut cut) = (Replay::new(Variant::None), Replay::new(Variant::None));
        for line in generate::script(seed, 300) {
            let least = whole.terminal.session.size.room();
            if let Line::Host(bytes, _) = line {
                for &byte in &bytes {
                    cut.run(&Line::Host(vec![byte], least), &mut Unwatched);
                }
                let room = least * (bytes.len() + 1);
                whole.run(&Line::Host(bytes, room), &mut Unwatched);
            } else {
                whole.run(&line, &mut Unwatched);
                cut.run(&line, &mut Unwatched);
            }
            assert_eq!(whole.terminal.session, cut.terminal.session);
            assert_eq!((&whole.chars, &whole.attrs), (&cut.chars, &cut.attrs));
            assert_eq!(whole.marks, cut.marks);
        }
    }
}

#[test]
fn every_variant_is_caught() {
    let mut uncaught = variant::ALL.to_vec();
    for seed in 1..=SCRIPTS {
        let script = generate::script(seed, CALLS);
        let right = answers(Variant::None, &script);
        uncaught.retain(|(variant, _, _)| !differs(*variant, &script, &right));
    }
    let names: Vec<&str> = uncaught.iter().map(|(_, name, _)| *name).collect();
    assert_eq!(names, Vec::<&str>::new());
}

/// For tuning the generator: how many of the scripts catch each variant.
#[test]
#[ignore = "prints a table"]
fn how_often_each_variant_is_caught() {
    let mut counts = vec![0; variant::ALL.len()];
    for seed in 1..=SCRIPTS {
        let script = generate::script(seed, CALLS);
        let right = answers(Variant::None, &script);
        for (count, (variant, _, _)) in counts.iter_mut().zip(variant::ALL) {
            *count += u32::from(differs(*variant, &script, &right));
        }
    }
    for (count, (_, name, _)) in counts.iter().zip(variant::ALL) {
        println!("{count:3} {name}");
    }
}
