//! Desks of houses that do not start level: who is a quorum, and how much is
//! missing until then.

use super::one::One;
use crate::conformance::line::{lists, sheet, Line, Row};
use crate::format::Message;
use crate::machine::command::House;

/// A desk of each list: a write, for which the strongest servers answer, one by
/// one, until each phase has ended.
pub fn operations() -> Vec<Line> {
    let mut lines = Vec::new();
    for house in lists() {
        let starts = house.starts();
        let total: u64 = starts.iter().sum();
        let mut order: Vec<usize> = (0..starts.len()).collect();
        order.sort_by_key(|&server| std::cmp::Reverse(starts[server]));
        let mut one = One::of(house, 7);
        one.record();
        one.write(&[0x2A], 0);
        for round in [1, 2] {
            let mut answered = 0;
            for &server in &order {
                if 2 * answered <= total {
                    one.margin();
                    one.hear(&one.reply(server as u8, round));
                    answered += starts[server];
                }
            }
            one.record();
        }
        one.result();
        // It has ended: there is nothing to ask for and nothing to drop.
        one.ask(0);
        one.abandon();
        lines.extend(one.lines);
    }
    lines
}

/// One strong server of five. With any other it is a quorum, and without it only
/// all four others are.
pub fn strong() -> Vec<Line> {
    let mut one = One::of(House::with_starts(5, 1, vec![2_200, 700, 700, 700, 700]), 7);
    one.read(0);
    for server in [4, 2, 1] {
        one.hear(&one.reply(server, 1));
        one.margin();
    }
    one.write(&[0x2A], 0);
    one.record();
    one.hear(&one.reply(3, 1));
    one.margin();
    one.read(9);
    one.hear(&one.reply(0, 2));
    one.margin();
    one.hear(&one.reply(3, 2));
    one.result();
    one.lines
}

/// Half of a weight that is even is no quorum, and of one that is odd the larger
/// part is: before and after a gift of 1.
pub fn halves() -> Vec<Line> {
    let mut lines = Vec::new();
    let given: &[Row] = &[(0, 1, &[(1, 1)])];
    for starts in [[150, 150], [151, 150], [152, 150], [151, 151]] {
        let mut one = One::of(House::with_starts(2, 0, starts.to_vec()), 7);
        one.read(0);
        one.hear(&one.reply(0, 1));
        one.margin();
        one.record();
        one.abandon();
        one.read(0);
        one.hear(&Message {
            ledger: sheet(given),
            ..one.reply(1, 2)
        });
        one.hear(&Message {
            ledger: sheet(given),
            ..one.reply(0, 3)
        });
        one.margin();
        one.record();
        lines.extend(one.lines);
    }
    lines
}

/// A reply by which a weight is at the floor is light by the list, and no other
/// number comes before.
pub fn light() -> Vec<Line> {
    let mut one = One::of(House::with_starts(5, 1, vec![2_200, 700, 700, 700, 700]), 7);
    one.read(0);
    for (giver, amount) in [(1, 75), (0, 1_575), (0, 1_574)] {
        one.hear(&Message {
            ledger: sheet(&[(giver, 1, &[(2, amount)])]),
            ..one.reply(giver as u8, 1)
        });
        one.margin();
        one.record();
    }
    one.lines
}
