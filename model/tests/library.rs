//! The library for C hosts in the same long random runs as the program `cases`,
//! by its functions for servers and desks: every answer, every byte and, after
//! every line, the whole record of the party that it names are the model's; a
//! call that is refused or late leaves records and buffers as they were; and
//! hear is called by value and on a record that is lent. The clauses of demand
//! 3 are checked on what the library answered.
//!
//! TOVRIDSA_SEED, TOVRIDSA_STEPS and TOVRIDSA_FROM as for the other runs; no
//! program is needed.
//! `cargo test --release --test library -- --nocapture` shows the counts.

mod common;
mod drawn;
mod forged;

use std::fs::read_to_string;
use std::path::Path;

use model::answers::refusal;
use model::machine::calls::Right;
use model::machine::command::Command;
use model::machine::program::Program;
use model::machine::transfers::Transfers;
use model::proved::records::{Desk, DeskAnswer, Server, ServerAnswer};
use model::proved::{desks, servers};
use model::runs::beside::Beside;
use model::runs::library::{answered, Library};
use model::runs::script::replay;
use model::runs::spent::spent;
use model::runs::still::changed;
use model::runs::store::Store;
use model::weights::{level, Ledger};

type PlainMachine = Program<Transfers, Right>;
type CountsAndCells = Program<Ledger, Right>;

#[test]
fn library_and_machine_agree() {
    let beside = Beside {
        model: || Box::new(PlainMachine::new(Right)),
        answered: |turns, _| answered(turns),
        check: drawn::check,
    };
    drawn::agree(&beside, |run| {
        run.with_records(&mut PlainMachine::new(Right))
    });
}

#[test]
fn library_and_model_agree_on_damaged_messages() {
    let beside = Beside {
        model: || Box::new(CountsAndCells::new(Right)),
        answered: |turns, _| answered(turns),
        check: changed,
    };
    forged::agree(&beside, |run| {
        run.with_records(&mut CountsAndCells::new(Right))
    });
}

/// The long run to the end of a server's count, beside the model over counts
/// and cells.
#[test]
fn a_server_that_gave_65535_times_is_spent() {
    let expected = replay(&spent(), &mut CountsAndCells::new(Right));
    let turns = answered(&expected);
    for (expected, turn) in expected.iter().zip(&turns) {
        let line = (turn.number, &turn.text);
        assert_eq!(expected.answer, turn.answer, "{line:?}");
    }
    let spent = turns.iter().filter(|turn| turn.answer() == "no 12");
    assert_eq!(spent.count(), 2);
    println!("{} lines", turns.len());
}

/// Paper 01 as a script, answered as the program does.
#[test]
fn the_library_answers_the_papers_script() {
    let folder = Path::new(env!("CARGO_MANIFEST_DIR")).join("../crates/cases");
    let file = |name| read_to_string(folder.join(name)).expect("the file can be read");
    let (script, stored) = (file("stdin"), file("stdout"));
    let mut library = Library::default();
    let mut expected = stored.lines();
    let mut lines = 0;
    for line in script.lines() {
        if let Some(answer) = library.answer(line, &Command::Text(line.to_string())) {
            assert_eq!(Some(answer.as_str()), expected.next(), "{line}");
            lines += 1;
        }
    }
    assert_eq!(expected.next(), None, "answers to no line");
    println!("{lines} lines");
}

/// The numbers that a house and its parties cannot have, whatever the list, and a
/// record that no call accepts.
#[test]
fn a_refused_open_hands_back_a_record_that_no_call_accepts() {
    let bad_house = refusal(1);
    let huge = u64::MAX;
    for (n, f, server, desk) in [
        (0, 0, 0, 1),
        (17, 0, 0, 1),
        (1, 1, 0, 1),
        (16, 8, 0, 1),
        (5, huge, 0, 1),
        (huge, 0, 0, 1),
        (3, 1, 3, 0),
        (3, 1, 1 << 32, 65_536),
        (3, 1, huge, huge),
    ] {
        for starts in [level(n), vec![], vec![300, 100], vec![huge; 3]] {
            let opened = servers::open(n, f, server, &starts);
            assert_eq!((opened.answer, opened.server), (bad_house, Server::NONE));
            let opened = desks::open(n, f, desk, &starts);
            assert_eq!((opened.answer, opened.desk), (bad_house, Desk::NONE));
        }
    }

    let server = Server::NONE;
    let refused = ServerAnswer {
        answer: bad_house,
        server,
    };
    assert_eq!(servers::transfer(server, 1, 1), refused);
    assert_eq!(servers::share(server, &mut [], 0), bad_house);
    let served = servers::serve(server, &[], &mut [], 7);
    assert_eq!((served.answer, served.end), (bad_house, 7));
    assert_eq!(served.server, server);

    let desk = Desk::NONE;
    let refused = DeskAnswer {
        answer: bad_house,
        desk,
    };
    assert_eq!(desks::begin_read(desk, 0), refused);
    assert_eq!(desks::begin_write(desk, 0, &[]), refused);
    assert_eq!(desks::ask(desk, 0, &mut [], 0), bad_house);
    assert_eq!(desks::hear(desk, &[]), refused);
    let mut lent = desk;
    assert_eq!(desks::hear_lent(&mut lent, &[]), bad_house);
    assert_eq!(lent, desk);
    assert_eq!(desks::result(desk).answer, bad_house);
    assert_eq!(desks::margin(desk), bad_house);
    assert_eq!(desks::drop(desk), refused);
}

/// A margin is that of the servers that the record says have answered, by the
/// record's own cells, whatever they are: also above 0, which no call leaves
/// behind. 1 comes before 9.
#[test]
fn margins_of_records() {
    let mut desk = desks::open(5, 1, 7, &level(5)).desk;
    assert_eq!(desks::margin(desk), refusal(9));
    desk = desks::begin_read(desk, 0).desk;
    assert_eq!(desks::margin(desk), -5_000);
    let ledger = &mut desk.replica.ledger;
    (ledger.counts[0], ledger.cells[0][2]) = (1, 374);
    (ledger.counts[1], ledger.cells[1][2]) = (1, 374);
    for (answered, margin) in [
        (0, -5_000),
        (0b0_0001, -3_748),
        (0b0_0101, -252),
        (0b1_0100, 496),
        (0b1_1111, 5_000),
        (0b10_0000, refusal(1)),
    ] {
        desk.operation.answered = answered;
        assert_eq!(desks::margin(desk), margin, "{answered:b}");
    }
    desk.operation.answered = 0b0_0101;
    let ended = desks::drop(desk).desk;
    assert_eq!(desks::margin(ended), refusal(9));
    // One more than server 0 can spare: the record is light.
    desk.replica.ledger.cells[0][2] = 375;
    assert_eq!(desks::margin(desk), refusal(1));
    desk.operation.mode = 2;
    assert_eq!(desks::margin(desk), refusal(1));
}
