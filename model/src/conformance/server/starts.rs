//! Servers that do not start level: what a fresh one holds and tells, and that
//! the weights of messages rest on the list.

use super::one::One;
use crate::conformance::line::{lists, request, share, sheet, Line};
use crate::format::Message;
use crate::machine::command::House;
use crate::runs::player::ROOMY;

/// A fresh server of each list: its record has the list, its share has no sheet,
/// and a message without one is never light.
pub fn fresh() -> Vec<Line> {
    let mut lines = Vec::new();
    for house in lists() {
        let last = house.n - 1;
        let mut one = One::of(house, last);
        one.record();
        one.share(ROOMY);
        one.serve(&request(last as u8, 7, 1));
        lines.extend(one.lines);
    }
    lines
}

/// One strong server of five, and a sheet by which server 1 has given some of its
/// 700: 626 is the least. The same sheet passes in a level house, and one that is
/// light there passes here.
pub fn light() -> Vec<Line> {
    let strong = House::with_starts(5, 1, vec![2_200, 700, 700, 700, 700]);
    let given = |giver, amount| Message {
        ledger: sheet(&[(giver, 1, &[(2, amount)])]),
        ..share(giver as u8)
    };
    let mut lines = Vec::new();
    for house in [strong, House::level(5, 1)] {
        let mut one = One::of(house, 3);
        one.serve(&given(1, 75));
        one.serve(&given(1, 74));
        one.serve(&given(0, 1_575));
        one.serve(&given(0, 1_574));
        one.record();
        // By what it has heard of and by what it started with.
        one.transfer(0, 375);
        one.transfer(0, 374);
        one.transfer(0, 75);
        one.transfer(0, 74);
        one.transfer(1, 1);
        one.record();
        lines.extend(one.lines);
    }
    lines
}

/// The least weights there are, of which nothing can be spared; and 16,000 in
/// all, of which one server gives what it can spare, and after it has come back
/// once more.
pub fn ends() -> Vec<Line> {
    let mut one = One::of(House::with_starts(2, 0, vec![1, 1]), 0);
    one.transfer(1, 1);
    one.record();
    let mut lines = one.lines;
    let mut one = One::of(House::with_starts(2, 0, vec![11_999, 4_001]), 0);
    one.transfer(1, 7_999);
    one.transfer(1, 7_998);
    one.transfer(1, 1);
    one.serve(&Message {
        ledger: sheet(&[(0, 1, &[(1, 7_998)]), (1, 1, &[(0, 7_998)])]),
        ..share(1)
    });
    one.transfer(1, 7_999);
    one.transfer(1, 7_998);
    one.record();
    lines.extend(one.lines);
    lines
}
