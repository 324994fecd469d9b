//! Sheets that join with a server's own and sheets that clash (6), each cause by
//! itself.

use super::one::One;
use crate::conformance::line::{register, request, share, sheet, Line, Row};
use crate::format::Message;
use crate::runs::player::ROOMY;

/// A share of server 0 with these rows.
fn told(rows: &[Row]) -> Message<'static> {
    Message {
        ledger: sheet(rows),
        ..share(0)
    }
}

/// Rows that are ahead, behind and equal, of the server and of another.
pub fn rows() -> Vec<Line> {
    let mut one = One::new(5, 1, 2);
    one.transfer(0, 100);
    // Its own row: ahead; ahead by a sheet that tells of nothing else; of the
    // same count with a larger, a smaller and another cell; the same.
    one.serve(&told(&[(2, 2, &[(0, 101)])]));
    one.serve(&told(&[(2, 2, &[(0, 100)])]));
    one.serve(&told(&[
        (2, 65_535, &[(0, 65_535), (1, 1)]),
        (0, 65_535, &[(2, 65_535)]),
    ]));
    one.serve(&told(&[(2, 1, &[(0, 101)])]));
    one.serve(&told(&[(2, 1, &[(0, 99)])]));
    one.serve(&told(&[(2, 1, &[(1, 100)])]));
    one.serve(&told(&[(2, 1, &[(0, 100), (1, 1)])]));
    one.serve(&told(&[(2, 1, &[(0, 100)])]));
    one.record();
    // Its own row behind: with a larger cell, with another cell, as it was, with
    // a smaller cell, and not there at all.
    one.transfer(1, 5);
    one.serve(&told(&[(2, 1, &[(0, 101)])]));
    one.serve(&told(&[(2, 1, &[(3, 1)])]));
    one.serve(&told(&[(2, 1, &[(0, 100)])]));
    one.serve(&told(&[(2, 1, &[(0, 99), (1, 5)])]));
    one.serve(&told(&[]));
    one.record();
    one.lines.extend(others_row());
    one.lines
}

/// The same of a row that is another's.
fn others_row() -> Vec<Line> {
    let mut one = One::new(5, 1, 2);
    one.serve(&told(&[(1, 1, &[(3, 50)])]));
    // Of the same count: a larger, a smaller, another and one more cell.
    one.serve(&told(&[(1, 1, &[(3, 51)])]));
    one.serve(&told(&[(1, 1, &[(3, 49)])]));
    one.serve(&told(&[(1, 1, &[(4, 50)])]));
    one.serve(&told(&[(1, 1, &[(3, 50), (4, 1)])]));
    one.serve(&told(&[(1, 1, &[(3, 50)])]));
    // Later: a smaller cell, one that is gone, the same, and larger.
    one.serve(&told(&[(1, 2, &[(3, 49), (4, 10)])]));
    one.serve(&told(&[(1, 2, &[(4, 60)])]));
    one.record();
    one.serve(&told(&[(1, 2, &[(3, 50)])]));
    one.serve(&told(&[(1, 4, &[(3, 50), (4, 9)])]));
    one.record();
    // Earlier: a larger cell, another cell, a smaller, and none.
    one.serve(&told(&[(1, 3, &[(3, 51)])]));
    one.serve(&told(&[(1, 3, &[(3, 50), (0, 1)])]));
    one.serve(&told(&[(1, 3, &[(3, 1), (4, 9)])]));
    one.serve(&told(&[]));
    // One row fits and a later one does not: nothing of it is taken.
    one.serve(&told(&[(0, 1, &[(2, 30)]), (1, 4, &[(3, 50), (4, 8)])]));
    one.serve(&told(&[
        (1, 5, &[(3, 50), (4, 10)]),
        (3, 1, &[(0, 1)]),
        (2, 1, &[(0, 1)]),
    ]));
    one.record();
    one.lines
}

/// Unions in which rows and register come from both sides.
pub fn unions() -> Vec<Line> {
    let mut one = One::new(5, 1, 2);
    one.transfer(4, 3);
    one.serve(&Message {
        register: register(5, 5, &[0x55]),
        ledger: sheet(&[(0, 2, &[(1, 20)]), (1, 1, &[(0, 10)])]),
        ..share(0)
    });
    // An older register with a later row and an older row.
    one.serve(&Message {
        register: register(4, 9, &[0x44]),
        ledger: sheet(&[(0, 1, &[(1, 7)]), (1, 3, &[(0, 30)])]),
        note: Some(77),
        ..request(2, 9, 1)
    });
    one.record();
    // A later register with older rows only.
    one.serve(&Message {
        register: register(6, 1, &[]),
        ledger: sheet(&[(1, 2, &[(0, 10)])]),
        ..request(2, 65_535, u32::MAX)
    });
    one.record();
    come_by_shares(&mut one);
    one.lines
}

/// What comes by shares, to a server that gave 3 to server 4.
fn come_by_shares(one: &mut One) {
    // Weight that came by a message can be given: 374 − 3 + 100 and no more.
    one.serve(&Message {
        ledger: sheet(&[(3, 1, &[(2, 100)])]),
        ..share(3)
    });
    one.transfer(0, 472);
    one.transfer(0, 471);
    one.transfer(0, 1);
    one.record();
    // A share of the server's own, one that is for everybody, and one of a
    // server that tells of another's rows only.
    one.share(ROOMY);
    one.serve(&Message {
        ledger: sheet(&[(2, 1, &[(4, 3)])]),
        ..share(2)
    });
    one.serve(&Message {
        ledger: sheet(&[(2, 3, &[(0, 471), (4, 3)]), (3, 1, &[(2, 100)])]),
        ..share(2)
    });
    one.serve(&Message {
        ledger: sheet(&[(3, 2, &[(2, 100), (1, 2)])]),
        ..share(4)
    });
    one.record();
}
