//! Runs in which messages are damaged or forged on their way, on a store beside
//! the model over counts and cells. Forged messages are counted, and the margins
//! asked for in between, and what they must reach is asserted. TOVRIDSA_SEED,
//! TOVRIDSA_STEPS and TOVRIDSA_FROM as for the other runs; here a quarter of the
//! steps is played.

use std::collections::BTreeMap;

use model::conformance::kinds::kind;
use model::machine::command::Command;
use model::runs::beside::Beside;
use model::runs::damaged::draw_damaged;
use model::runs::player::Run;

use crate::common::{seed, variable};

const STEPS: u64 = 200_000;

/// What forged messages and margins must come to, and how often at least.
const REACHED: &[(&str, u64)] = &[
    ("serve: accepted", 500),
    ("serve: no 2", 50),
    ("serve: no 3", 50),
    ("serve: no 4", 50),
    ("serve: no 5", 50),
    ("serve: no 6", 200),
    ("serve: no 7", 100),
    ("serve: no 13", 100),
    ("hear: accepted", 500),
    ("hear: late", 200),
    ("hear: no 2", 50),
    ("hear: no 3", 50),
    ("hear: no 4", 50),
    ("hear: no 5", 50),
    ("hear: no 6", 200),
    ("hear: no 7", 100),
    ("hear: no 12", 50),
    ("serve: no 6: the server's own row is ahead", 5),
    ("serve: no 6: a row of the same count has another cell", 5),
    ("serve: no 6: a later row has a smaller cell", 5),
    ("serve: no 6: an earlier row has a larger cell", 5),
    ("serve: no 6: an equal tag with another value", 5),
    ("serve: accepted: a row is behind", 5),
    ("serve: accepted: a row is ahead", 5),
    ("hear: no 6: a row is behind", 5),
    ("hear: no 6: a row of the same count has another cell", 5),
    ("hear: no 6: a later row has a smaller cell", 5),
    ("hear: no 6: an equal tag with another value", 5),
    ("hear: accepted: a row is ahead", 5),
    ("hear: no 12: a stamp at its end", 1),
    ("margin: below 0", 500),
    ("margin: 0", 20),
    ("margin: no 1", 10),
    ("margin: no 9", 100),
];

/// Draws runs and compares store and model on each, in the form in which it is
/// given to both.
pub fn agree(beside: &Beside, form: fn(Run) -> Run) {
    let seed = seed();
    let from = variable("TOVRIDSA_FROM", 0);
    let least = variable("TOVRIDSA_STEPS", STEPS) / 4;
    println!("seed {seed}, {least} steps from run {from} on");
    let mut counts: BTreeMap<String, u64> = BTreeMap::new();
    let (mut number, mut steps) = (from, 0);
    while steps < least {
        let mut count = |words: String| {
            let answered = words.splitn(3, ": ").take(2).collect::<Vec<_>>().join(": ");
            *counts.entry(answered).or_default() += 1;
            *counts.entry(words).or_default() += 1;
        };
        let mut model = (beside.model)();
        let run = form(draw_damaged(seed, number, model.as_mut(), &mut count));
        beside
            .compare(&run.entries, &run.turns, number)
            .unwrap_or_else(|report| panic!("seed {seed}, damaged run {number}: {report}"));
        for turn in &run.turns {
            let is_margin = matches!(turn.command, Command::Margin { .. });
            if is_margin && turn.answer() != "bounds" {
                *counts.entry(kind("margin", turn.answer())).or_default() += 1;
            }
        }
        steps += run.steps;
        number += 1;
    }
    println!("{} runs, {steps} steps", number - from);
    for (words, times) in &counts {
        println!("{times:>9}  {words}");
    }
    if least < STEPS / 4 {
        println!("fewer than {STEPS} steps: the counts are not asserted");
        return;
    }
    for &(words, least) in REACHED {
        let times = counts.get(words).copied().unwrap_or(0);
        assert!(times >= least, "{times} times is too seldom: {words}");
    }
}
