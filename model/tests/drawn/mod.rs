//! Runs that are drawn at random, on a store beside the plain machine. They are
//! counted, and what they must reach is asserted.
//!
//! TOVRIDSA_SEED chooses another seed, TOVRIDSA_STEPS another number of steps,
//! TOVRIDSA_FROM the number of the first run. With fewer than 200,000 steps the
//! counts are printed and not asserted.

use model::runs::beside::Beside;
use model::runs::check::{broken, sees_all};
use model::runs::drawn::draw;
use model::runs::observer::Found;
use model::runs::player::Run;
use model::runs::reach::REACHED;
use model::runs::script::Turn;
use model::runs::still::changed;
use model::runs::tally::Tally;

use crate::common::{seed, variable};

const STEPS: u64 = 200_000;

/// What is checked on the store's answers alone: the clauses of demand 3, and
/// that no record changes by itself.
pub fn check(turns: &[Turn]) -> Option<Found> {
    broken(turns).into_iter().next().or_else(|| changed(turns))
}

/// Draws runs and compares store and machine on each, in the form in which it
/// is given to both.
pub fn agree(beside: &Beside, form: fn(Run) -> Run) {
    let seed = seed();
    let from = variable("TOVRIDSA_FROM", 0);
    let least = variable("TOVRIDSA_STEPS", STEPS);
    println!("seed {seed}, {least} steps from run {from} on");
    let mut tally = Tally::default();
    let (mut number, mut steps) = (from, 0);
    while steps < least {
        let run = form(draw(seed, number, (beside.model)().as_mut()));
        let turns = beside
            .compare(&run.entries, &run.turns, number)
            .unwrap_or_else(|report| panic!("seed {seed}, run {number}: {report}"));
        assert!(sees_all(&turns), "run {number} hides a record");
        tally.next_run();
        turns.iter().for_each(|turn| tally.see(turn));
        steps += run.steps;
        number += 1;
    }
    println!("{} runs, {steps} steps", number - from);
    tally.lines().iter().for_each(|line| println!("{line}"));
    println!("{:>9}  pairs of n and f", tally.pairs.len());
    if least < STEPS {
        println!("fewer than {STEPS} steps: the counts are not asserted");
        return;
    }
    assert_eq!(tally.pairs.len(), 72, "pairs of n and f");
    for &(words, least) in REACHED {
        let times = tally.count(words);
        assert!(times >= least, "{times} times is too seldom: {words}");
    }
}
