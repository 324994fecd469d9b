//! Wrong stores, executed: paper 01, "Wrong stores that come close", and such as
//! misread paper 02. The same generator and the same checks as for the compiled
//! program. Each wrong store is caught, by every clause that is listed for it;
//! the plain machine passes. And wrong message checkers, by the cases of the
//! comparison. `cargo test --release --test wrong -- --nocapture` shows the table.

mod common;

use common::{seed, variable};
use model::calls::MODEL;
use model::cases::Case;
use model::machine::calls::Right;
use model::machine::program::Program;
use model::machine::transfers::Transfers;
use model::misread::MISREAD;
use model::runs::check::{broken, sees_all, unequal, Clause};
use model::runs::drawn::draw;
use model::runs::observer::Found;
use model::runs::player::Run;
use model::runs::script::{replay, Entry, Turn};
use model::runs::shrink::{script_text, shrink};
use model::runs::wrong::{Wrong, WRONG};

/// Runs after which a clause counts as not broken.
const RUNS: u64 = 6_000;

/// A script that is longer when shrunk is no help to a reader.
const SHORT: usize = 100;

/// Cases of the comparison after which a wrong checker counts as not caught.
const CASES: u64 = 100_000;

type Machine = Program<Transfers, Right>;

fn machine() -> Machine {
    Program::new(Right)
}

#[test]
fn the_plain_machine_passes() {
    let seed = seed();
    let runs = variable("TOVRIDSA_RUNS", 200);
    for number in 0..runs {
        let run = draw(seed, number, &mut machine());
        assert!(sees_all(&run.turns), "run {number} hides a record");
        if let Some(found) = broken(&run.turns).first() {
            panic!("seed {seed}, run {number}: {found:?}");
        }
    }
}

#[test]
fn each_wrong_store_is_caught() {
    let seed = seed();
    println!("seed {seed}");
    for wrong in WRONG {
        println!("{}", wrong.name);
        for &clause in wrong.breaks {
            let (number, script, found) = catch(seed, wrong, clause);
            let words = found.words.replace('\n', ", ");
            println!(
                "    {clause}: run {number}, line {}, shrunk to {} lines: {words}",
                found.number,
                script.len()
            );
            assert!(script.len() <= SHORT, "{}", text(wrong, &script, clause));
        }
        let others = others(seed, wrong);
        println!("    caught in the first 200 runs by: {}", others.join(", "));
    }
}

#[test]
fn each_wrong_checker_is_caught() {
    let seed = seed();
    println!("seed {seed}");
    for (words, calls) in MISREAD {
        let differs = |number: &u64| {
            let case = Case::draw(seed, *number);
            calls.answers(&case) != MODEL.answers(&case)
        };
        let first = (0..CASES).find(differs);
        let first = first.unwrap_or_else(|| panic!("{CASES} cases do not show: {words}"));
        println!("{words}: case {first}");
    }
}

/// The first run in which a wrong store breaks a clause, where, and the run's
/// script made short.
fn catch(seed: u64, wrong: &Wrong, clause: Clause) -> (u64, Vec<Entry>, Found) {
    for number in 0..RUNS {
        let run = play(seed, number, wrong, clause);
        if let Some(found) = breach(&run.turns, clause) {
            let mut fails = |script: &[Entry]| {
                let turns = replay(script, (wrong.open)().as_mut());
                breach(&turns, clause).is_some()
            };
            let script = shrink(&run.entries, &mut fails);
            return (number, script, found);
        }
    }
    panic!(
        "{RUNS} runs do not show that {:?} breaks {clause}",
        wrong.name
    );
}

/// A run. For the equality the plain machine leads; for a clause the wrong
/// store's own answers do, which go on after the first that is not equal.
fn play(seed: u64, number: u64, wrong: &Wrong, clause: Clause) -> Run {
    if clause != Clause::Equality {
        return draw(seed, number, (wrong.open)().as_mut());
    }
    let run = draw(seed, number, &mut machine());
    Run {
        turns: replay(&run.entries, (wrong.open)().as_mut()),
        ..run
    }
}

fn breach(turns: &[Turn], clause: Clause) -> Option<Found> {
    match clause {
        Clause::Equality => unequal(turns, &mut machine()),
        _ => broken(turns)
            .into_iter()
            .find(|found| found.clause == clause),
    }
}

/// All clauses that the first runs break.
fn others(seed: u64, wrong: &Wrong) -> Vec<String> {
    let mut clauses = Vec::new();
    for number in 0..200 {
        let run = draw(seed, number, (wrong.open)().as_mut());
        clauses.extend(unequal(&run.turns, &mut machine()).map(|found| found.clause));
        clauses.extend(broken(&run.turns).iter().map(|found| found.clause));
    }
    clauses.sort_unstable();
    clauses.dedup();
    clauses.iter().map(ToString::to_string).collect()
}

/// A shrunk script, as it would be printed.
fn text(wrong: &Wrong, script: &[Entry], clause: Clause) -> String {
    let turns = replay(script, (wrong.open)().as_mut());
    let found = breach(&turns, clause).expect("the script still fails");
    script_text(&turns, found.number, &found.words)
}

/// The shrinker's work on one wrong store, for a reader: it is a script of
/// lines with comments, and it fails no longer if any of its lines is gone.
#[test]
fn a_shrunk_script_has_no_line_to_spare() {
    let wrong = &WRONG[1];
    let (_, script, _) = catch(seed(), wrong, Clause::Order);
    println!("{}", text(wrong, &script, Clause::Order));
    for place in 0..script.len() {
        let mut shorter = script.clone();
        shorter.remove(place);
        let turns = replay(&shorter, (wrong.open)().as_mut());
        assert!(breach(&turns, Clause::Order).is_none(), "line {place}");
    }
}
