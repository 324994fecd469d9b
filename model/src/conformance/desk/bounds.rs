//! The numbers 1 and 15: lines before a house, houses out of bounds and with
//! lists that are not lawful, and numbers that no desk has.

use super::one::One;
use crate::conformance::line::{bad_lists, reply, Line, BAD_HOUSES};
use crate::machine::command::{Command, House};
use crate::machine::desk::Task;
use crate::runs::player::ROOMY;
use crate::write::write;

/// Each call of a desk of this number.
fn calls(desk: u64) -> [Line; 8] {
    let begin = |task| Command::Begin {
        desk,
        task,
        note: 0,
    };
    [
        begin(Task::Read),
        begin(Task::Write([0xA0].into())),
        Command::Ask {
            desk,
            server: 0,
            room: ROOMY,
        },
        Command::Hear {
            desk,
            message: write(&reply(0, 7, 1)),
        },
        Command::Result { desk },
        Command::Margin { desk },
        Command::Drop { desk },
        Command::RecordDesk { desk },
    ]
}

/// All is refused until a house is opened.
pub fn before_a_house() -> Vec<Line> {
    let mut lines: Vec<Line> = calls(7).into();
    lines.push(Command::level(5, 3));
    lines.push(Command::House {
        house: House::with_starts(2, 0, vec![300, 100]),
    });
    lines.extend(calls(7));
    lines.extend(calls(0));
    lines
}

/// A house that is refused leaves the one before as it was.
pub fn houses() -> Vec<Line> {
    let mut one = One::new(5, 1, 7);
    one.write(&[0xA5], 9);
    one.record();
    for (n, f) in BAD_HOUSES {
        one.lines.push(Command::level(n, f));
    }
    for house in bad_lists() {
        one.lines.push(Command::House { house });
    }
    // 1 comes before 15.
    for (n, f) in [(0, 0), (17, 3), (5, 3)] {
        let house = House::with_starts(n, f, vec![300, 100]);
        one.lines.push(Command::House { house });
    }
    one.record();
    one.ask(0);
    // One that is accepted forgets it.
    one.lines.push(Command::level(5, 1));
    one.record();
    one.lines
}

/// Desks outside 1 to 65,535, also such as are within when they are cut.
pub fn nobody() -> Vec<Line> {
    let mut one = One::new(3, 1, 7);
    one.record();
    for desk in [
        0,
        65_536,
        65_536 + 7,
        (1 << 32) + 7,
        (1 << 63) + 7,
        u64::MAX,
    ] {
        one.lines.extend(calls(desk));
    }
    // 1 comes before the numbers of a message and of a value.
    one.lines.push(Command::Hear {
        desk: 0,
        message: vec![0],
    });
    one.lines.push(Command::Begin {
        desk: 0,
        task: Task::Write([0; 65].into()),
        note: 0,
    });
    one.record();
    one.lines.extend(ends());
    one.lines
}

/// The lowest and the highest desk.
fn ends() -> Vec<Line> {
    let mut lines = Vec::new();
    for desk in [1, u16::MAX] {
        let mut one = One::new(1, 0, desk);
        one.write(&[], 0);
        one.hear(&one.reply(0, 1));
        one.ask(0);
        one.hear(&one.reply(0, 2));
        one.result();
        one.record();
        lines.extend(one.lines);
    }
    lines
}
