//! Paper 01 as a script, `crates/cases/stdin`: the model answers each line as the
//! file `stdout` beside it has it, to which the program is held too.

use std::fs::read_to_string;
use std::path::Path;

use model::machine::calls::Right;
use model::machine::command::Command;
use model::machine::program::Program;
use model::weights::Ledger;

#[test]
fn the_model_answers_the_papers_script() {
    let folder = Path::new(env!("CARGO_MANIFEST_DIR")).join("../crates/cases");
    let file = |name| read_to_string(folder.join(name)).expect("the file can be read");
    // The script forges messages, so the sheets are counts and cells.
    let mut program = Program::<Ledger, _>::new(Right);
    let script = file("stdin");
    let answers = script.lines().filter_map(|line| {
        let answer = program.answer(line, &Command::Text(line.to_string()))?;
        Some((line, answer.to_string()))
    });
    let stored = file("stdout");
    let mut expected = stored.lines();
    let mut lines = 0;
    for (line, answer) in answers {
        assert_eq!(Some(answer.as_str()), expected.next(), "{line}");
        lines += 1;
    }
    assert_eq!(expected.next(), None, "answers to no line");
    println!("{lines} lines");
}
