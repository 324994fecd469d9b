//! The model beside the proved library on a million random cases a run: the
//! message check, a server's weight, a map's quorum and the seats of a block.
//!
//! TOVRIDSA_SEED chooses another seed, TOVRIDSA_RUNS another number of cases,
//! TOVRIDSA_FROM the number of the first case. With fewer than a million cases
//! the counts are printed, but whether each is reached often enough is not
//! asserted. `cargo test --release -- --nocapture` shows the table of counts.

mod common;
mod counts;

use common::{seed, variable};
use counts::{place_words, Counts};
use model::answers::open;
use model::calls::{Answers, MODEL, PROVED};
use model::cases::Case;
use model::machine::command::hex;

const RUNS: u64 = 1_000_000;

/// How often each number, place and edge has to be reached.
const OFTEN: u64 = 1_000;

#[test]
fn model_and_library_agree() {
    let seed = seed();
    let from = variable("TOVRIDSA_FROM", 0);
    let runs = variable("TOVRIDSA_RUNS", RUNS);
    println!("seed {seed}, {runs} cases from number {from}");
    let mut counts = Counts::new();
    for number in from..from + runs {
        let case = Case::draw(seed, number);
        let model = MODEL.answers(&case);
        let library = PROVED.answers(&case);
        if model != library {
            panic!("{}", difference(seed, number, &case, &model, &library));
        }
        counts.add(&case, &model);
    }
    for (words, times) in counts.lines() {
        println!("{times:>9}  {words}");
    }
    if runs < RUNS {
        println!("fewer than {RUNS} cases: the counts are not asserted");
        return;
    }
    for (words, times) in counts.lines() {
        assert!(times >= OFTEN, "{times} times is too seldom: {words}");
    }
}

/// What a reader needs to look into a difference, and to see it again.
fn difference(seed: u64, number: u64, case: &Case, model: &Answers, library: &Answers) -> String {
    let mut lines = vec![
        format!("seed {seed}, case {number}: n {}, f {}", case.n, case.f),
        format!("starts: {:?}", case.starts),
        format!("message: {}", hex(&case.message)),
        match open(case.n, case.f, &case.starts, &case.message) {
            Ok(_) => "the model takes it".to_string(),
            Err(fault) => format!("the model refuses it: {}", place_words(fault.place)),
        },
    ];
    let calls = [
        "check".to_string(),
        format!("weight of server {}", case.server),
        format!("quorum of map {:#x}", case.map),
        format!("seats of block {}", hex(&case.block)),
    ];
    for ((call, model), library) in calls.iter().zip(model).zip(library) {
        let mark = if model == library {
            "equal"
        } else {
            "DIFFERENT"
        };
        lines.push(format!("{call}: model {model}, library {library}: {mark}"));
    }
    lines.push(format!(
        "again: TOVRIDSA_SEED={seed} TOVRIDSA_FROM={number} TOVRIDSA_RUNS=1"
    ));
    lines.join("\n")
}
