//! Asks all three implementations the same, then times them and writes the tables of docs/BENCHMARKS.md. With the arguments `repeat CASE BY TIMES` it
//! only makes one call so many times over, for a tool that counts instructions; CASE and BY are places in the lists of cases and implementations.
//! `time WORD` times the cases whose name has the word.

use bench::cases::{self, Case, Subject};
use bench::implementation::ALL;
use bench::report::{self, Line};
use bench::timing;
use std::env;

fn main() {
    let mut cases = cases::all();
    let arguments: Vec<String> = env::args().skip(1).collect();
    match arguments.iter().map(String::as_str).collect::<Vec<_>>()[..] {
        [] => time(&cases),
        ["time", word] => {
            cases.retain(|case| case.name.contains(word));
            time(&cases);
        }
        ["names"] => cases.iter().for_each(|case| println!("{}", case.name)),
        ["repeat", case, by, times] => {
            let mut subject = (cases[number(case)].by)(number(by));
            (subject.repeat)(number(times) as u32);
        }
        _ => panic!("no arguments, `time WORD`, `names`, or `repeat CASE BY TIMES`"),
    }
}

fn time(cases: &[Case]) {
    let lines: Vec<Line> = cases
        .iter()
        .map(|case| {
            let times = timing::time(&mut subjects(case));
            Line::of(&case.name, case.group, case.bytes, times)
        })
        .collect();
    report::print(&lines);
}

fn number(text: &str) -> usize {
    text.parse().expect("a number")
}

/// The three of a case. Stops where they don't say the same: then their times could not be compared.
fn subjects(case: &Case) -> [Subject; 3] {
    let subjects = [0, 1, 2].map(|i| (case.by)(i));
    for (by, subject) in ALL.iter().zip(&subjects) {
        assert!(
            subject.said == subjects[0].said,
            "{}: {} and {} differ",
            case.name,
            by.name,
            ALL[0].name
        );
    }
    subjects
}
