//! The stored test files of `conformance`: their lines are those that are drawn,
//! their answers those of the compiled program `cases` and of the model, and all
//! that they are meant to reach is in them. `-- --nocapture` shows the counts.
//! TOVRIDSA_CASES names another program.

use std::collections::{BTreeMap, BTreeSet};
use std::fs::read_to_string;
use std::path::Path;

use model::answers::open;
use model::conformance::kinds::kind;
use model::conformance::line::text;
use model::conformance::reach::{DESK, MESSAGES, SERVER};
use model::conformance::{as_text, files, spent, File};
use model::machine::calls::Right;
use model::machine::command::{Command, House};
use model::machine::parse::parse;
use model::machine::program::Program;
use model::place::Place;
use model::runs::pace::pairs;
use model::runs::process::converse;
use model::weights::Ledger;

/// All stored files together.
const MOST_BYTES: usize = 1_000_000;

/// How many messages are refused at each place at least.
const EACH_PLACE: u64 = 4;

/// A stored file and its answers.
struct Stored {
    lines: Vec<String>,
    answers: Vec<String>,
}

fn stored_text(name: &str) -> String {
    let folder = Path::new(env!("CARGO_MANIFEST_DIR")).join("../conformance");
    let path = folder.join(name);
    read_to_string(&path).unwrap_or_else(|error| panic!("{}: {error}", path.display()))
}

impl Stored {
    fn read(name: &str) -> Stored {
        let lines = |end| {
            let text = stored_text(&format!("{name}.{end}"));
            assert!(text.ends_with('\n'), "the last line has an end");
            text.lines().map(str::to_string).collect::<Vec<_>>()
        };
        let stored = Stored {
            lines: lines("in"),
            answers: lines("out"),
        };
        assert_eq!(stored.lines.len(), stored.answers.len(), "{name}");
        stored
    }

    /// Each line as the command that it is, with its answer.
    fn turns(&self) -> impl Iterator<Item = (Command<Vec<u8>>, &str)> {
        let commands = self.lines.iter().map(|line| match parse(line) {
            Ok(Some(command)) => command,
            _ => panic!("it cannot be read: {line}"),
        });
        commands.zip(self.answers.iter().map(String::as_str))
    }

    /// How often each kind of line and answer is there.
    fn counts(&self) -> BTreeMap<String, u64> {
        let mut counts = BTreeMap::new();
        for (line, answer) in self.lines.iter().zip(&self.answers) {
            *counts.entry(kind(line, answer)).or_default() += 1;
        }
        counts
    }

    /// The clusters that are opened.
    fn houses(&self) -> BTreeSet<(u64, u64)> {
        let opened = self.opened().into_iter();
        opened.map(|house| (house.n, house.f)).collect()
    }

    /// The same with their lists.
    fn opened(&self) -> Vec<House> {
        let opened = self.turns().filter_map(|turn| match turn {
            (Command::House { house }, "ok") => Some(house),
            _ => None,
        });
        opened.collect()
    }
}

/// The model's answers.
fn model_answers(lines: &[String]) -> Vec<String> {
    let mut model = Program::<Ledger, _>::new(Right);
    let mut answer = |line: &String| model.answer(line, &Command::Text(line.clone()));
    let answers = lines
        .iter()
        .map(|line| answer(line).expect("it has a word"));
    answers.map(|answer| answer.to_string()).collect()
}

fn assert_same(name: &str, lines: &[String], one: &[String], two: &[String]) {
    for (place, line) in lines.iter().enumerate() {
        let (one, two) = (one.get(place), two.get(place));
        assert_eq!(one, two, "{name}, line {}: {line}", place + 1);
    }
    assert_eq!(one.len(), two.len(), "{name}");
}

#[test]
fn the_lines_are_those_that_are_drawn() {
    for file in files() {
        let stored = stored_text(&format!("{}.in", file.name));
        let same = stored == file.text();
        assert!(
            same,
            "{}: `cargo run --release --example conformance` writes it",
            file.name
        );
    }
}

#[test]
fn program_and_model_give_the_stored_answers() {
    for name in ["messages", "server", "desk"] {
        let Stored { lines, answers } = Stored::read(name);
        assert_same(name, &lines, &answers, &model_answers(&lines));
        let program = converse(stored_text(&format!("{name}.in")));
        assert_same(name, &lines, &answers, &program);
    }
}

/// Without the lines of `margin` the others get the same answers.
#[test]
fn margins_change_nothing() {
    let Stored { lines, answers } = Stored::read("desk");
    let turns = lines.into_iter().zip(answers);
    let (lines, answers): (Vec<String>, Vec<String>) = turns
        .filter(|(line, _)| !line.starts_with("margin "))
        .unzip();
    assert_same("desk", &lines, &answers, &converse(as_text(&lines)));
}

#[test]
fn the_lines_are_plainly_written() {
    for name in ["messages", "server", "desk"] {
        let stored = Stored::read(name);
        for ((command, answer), line) in stored.turns().zip(&stored.lines) {
            assert_eq!(&text(&command), line, "{name}");
            let own = ["what", "bounds", "crashed", "spoiled"];
            assert!(!own.contains(&answer), "{name}: {line}");
        }
    }
}

#[test]
fn a_file_is_for_one_party() {
    for (command, _) in Stored::read("messages").turns() {
        assert!(matches!(command, Command::Message { .. }));
    }
    one_party("server", |command, n| {
        assert!(!matches!(command, Command::Crash { .. }), "none crashes");
        let server = command.server().expect("it is a server's line");
        Some(server).filter(|server| *server < n)
    });
    one_party("desk", |command, _| {
        let desk = command.desk().expect("it is a desk's line");
        Some(desk).filter(|desk| (1..=65_535).contains(desk))
    });
}

/// From one house to the next the party that the lines name, if there is one of
/// that number in a cluster of n, is the same.
fn one_party(name: &str, named: fn(&Command<Vec<u8>>, u64) -> Option<u64>) {
    let (mut open, mut own) = (0, None);
    for (command, answer) in Stored::read(name).turns() {
        match (&command, answer) {
            (Command::House { house }, "ok") => (open, own) = (house.n, None),
            (Command::House { .. }, _) => {}
            _ => {
                let party = named(&command, open);
                own = own.or(party);
                let same = party.is_none() || party == own;
                assert!(same, "{name}: {}", text(&command));
            }
        }
    }
}

#[test]
fn all_is_reached() {
    for (name, least) in [("messages", MESSAGES), ("server", SERVER), ("desk", DESK)] {
        let stored = Stored::read(name);
        let counts = stored.counts();
        println!("{name}: {} lines", stored.lines.len());
        for (words, times) in &counts {
            println!("{times:>9}  {words}");
        }
        for &(words, least) in least {
            let times = counts.get(words).copied().unwrap_or(0);
            assert!(
                times >= least,
                "{name}: {times} times is too seldom: {words}"
            );
        }
        let listed = |words: &String| least.iter().any(|(listed, _)| listed == words);
        assert!(counts.keys().all(listed), "{name}: all kinds are listed");
    }
    let all: BTreeSet<(u64, u64)> = pairs().into_iter().collect();
    assert_eq!(Stored::read("server").houses(), all);
    let sizes: BTreeSet<u64> = Stored::read("desk")
        .houses()
        .iter()
        .map(|(n, _)| *n)
        .collect();
    assert_eq!(sizes, (1..=16).collect());
}

/// How many houses of each file start level and how many do not.
#[test]
fn houses_are_level_and_uneven() {
    for name in ["server", "desk"] {
        let opened = Stored::read(name).opened();
        let listed = opened.iter().filter(|house| house.starts.is_some());
        let (uneven, all) = (listed.count(), opened.len());
        println!("{name}: {uneven} of {all} houses have a list");
        assert!(uneven >= 30 && all - uneven >= 30, "{name}");
    }
}

#[test]
fn messages_are_refused_at_every_place() {
    let mut places: BTreeMap<Place, u64> = Place::ALL.iter().map(|place| (*place, 0)).collect();
    let mut accepted = BTreeSet::new();
    for (command, _) in Stored::read("messages").turns() {
        let Command::Message { house, bytes } = command else {
            panic!("it is no message");
        };
        match open(house.n, house.f, &house.starts(), &bytes) {
            Ok((_, message)) => {
                accepted.insert((house.n, house.f, message.kind as u8));
            }
            Err(fault) => *places.entry(fault.place).or_default() += 1,
        }
    }
    for (place, times) in &places {
        let number = place.number();
        println!("{times:>9}  {number} {place:?}: {}", place.words());
        assert!(
            *times >= EACH_PLACE,
            "{times} times is too seldom: {place:?}"
        );
    }
    assert_eq!(
        accepted.len(),
        3 * pairs().len(),
        "each kind in each cluster"
    );
}

#[test]
fn the_files_are_small() {
    let mut bytes = 0;
    for name in ["messages", "server", "desk"] {
        for end in ["in", "out"] {
            let text = stored_text(&format!("{name}.{end}"));
            println!(
                "{:>9}  {name}.{end}: {} lines",
                text.len(),
                text.lines().count()
            );
            bytes += text.len();
        }
    }
    println!("{bytes:>9}  in all");
    assert!(bytes <= MOST_BYTES);
}

#[test]
fn one_server_is_spent() {
    let file = spent();
    let File { name, lines } = &file;
    let answers = converse(file.text());
    assert_same(name, lines, &answers, &model_answers(lines));
    let count = |answer: &str| answers.iter().filter(|given| *given == answer).count();
    println!("{} lines, {} bytes", lines.len(), file.text().len());
    assert_eq!(
        (count("no 10"), count("no 11"), count("no 12")),
        (131, 1, 2)
    );
    assert!(answers
        .last()
        .is_some_and(|record| record.contains(" counts 65535 ")));
    let own = lines.iter().map(|line| parse(line).ok().flatten());
    let own = own
        .skip(1)
        .map(|command| command.and_then(|command| command.server()));
    assert!(own.into_iter().all(|server| server == Some(0)));
}
