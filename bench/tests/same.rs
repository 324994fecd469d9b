//! The plain C does the same work as the model: on 200,000 random cases, lawful, damaged and out of bounds, with start weights level, uneven and
//! unlawful, it gives the same four answers. And the messages that are timed are what their comments say.

use bench::implementation::PLAIN;
use bench::{messages, plain};
use model::calls::MODEL;
use model::cases::Case;
use model::weights::level;

const SEED: u64 = 20_241_115;
const CASES: u64 = 200_000;

/// Differences that are shown; more are only counted.
const SHOWN: usize = 20;

#[test]
fn the_c_answers_as_the_model_does() {
    let mut differences = Vec::new();
    for number in 0..CASES {
        let case = Case::draw(SEED, number);
        if PLAIN.answers(&case) != MODEL.answers(&case) {
            differences.push(case);
        }
    }
    for case in differences.iter().take(SHOWN) {
        println!(
            "n {}, f {}, starts {:?}, server {}, map {:#x}",
            case.n, case.f, case.starts, case.server, case.map
        );
        println!("message {}", hex(&case.message));
        println!("block {}", hex(&case.block));
        println!(
            "check, weight, quorum, seats by the C {:?}, by the model {:?}",
            PLAIN.answers(case),
            MODEL.answers(case)
        );
    }
    assert_eq!(differences.len(), 0, "so many of {CASES} cases differ");
}

fn hex(bytes: &[u8]) -> String {
    bytes
        .iter()
        .map(|byte| format!("{byte:02X}"))
        .collect::<Vec<_>>()
        .join(" ")
}

#[test]
fn the_timed_messages_are_as_described() {
    let weights = |n, f, bytes: &[u8]| {
        (0..n)
            .map(|server| plain::weight(n, f, &level(n), server, bytes))
            .collect::<Vec<_>>()
    };

    assert_eq!(
        weights(5, 1, &messages::SHARE),
        [800, 1000, 1200, 1000, 1000]
    );

    let middle = messages::middle();
    assert_eq!(middle.len(), 111);
    assert_eq!(weights(5, 1, &middle), [930, 1090, 1040, 900, 1040]);

    let longest = messages::longest();
    assert_eq!(longest.len(), 1111);
    let mut expected = [999; 16];
    expected[0] = 1015;
    assert_eq!(weights(16, 7, &longest), expected);

    assert_eq!(plain::check(5, 1, &level(5), &messages::cut()), -1_000_002);
}
