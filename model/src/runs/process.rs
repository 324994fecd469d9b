//! The compiled program `cases` over a pipe: docs/SCRIPTS.md. A script is given
//! to a fresh process, all at once or line by line, each line only after the
//! answer to the one before.

use std::env;
use std::io::{BufRead, BufReader, Write};
use std::path::PathBuf;
use std::process::{Child, ChildStdin, ChildStdout, Command as Process, Stdio};
use std::sync::mpsc::{channel, Receiver};
use std::thread;
use std::time::Duration;

use super::store::Store;
use crate::machine::command::Command;
use crate::machine::parse::parse;
use crate::machine::program::LONGEST_LINE;
use crate::machine::sheet::Handed;

/// How long an answer is waited for in a conversation.
const PATIENCE: Duration = Duration::from_secs(20);

/// Where the program lies: TOVRIDSA_CASES, or where `tools/build cases` puts it.
pub fn program() -> PathBuf {
    let path = match env::var_os("TOVRIDSA_CASES") {
        Some(path) => path.into(),
        None => PathBuf::from(env!("CARGO_MANIFEST_DIR")).join("../target/bin/cases"),
    };
    assert!(
        path.is_file(),
        "{} is missing: `tools/build cases` makes it, or name it in TOVRIDSA_CASES",
        path.display()
    );
    path
}

fn start() -> (Child, ChildStdin, ChildStdout) {
    let path = program();
    let mut child = Process::new(&path)
        .stdin(Stdio::piped())
        .stdout(Stdio::piped())
        .spawn()
        .unwrap_or_else(|error| panic!("{} does not start: {error}", path.display()));
    let input = child.stdin.take().expect("it is a pipe");
    let output = child.stdout.take().expect("it is a pipe");
    (child, input, output)
}

/// All lines that a fresh process answers to a text, given at once. The last
/// line of the text may lack its end.
pub fn converse(text: String) -> Vec<String> {
    let (mut child, mut input, output) = start();
    let writer = thread::spawn(move || {
        // A program that stops early leaves answers out, which is seen below.
        let _ = input.write_all(text.as_bytes());
    });
    let lines = BufReader::new(output).lines();
    let answers = lines.map_while(Result::ok).collect();
    writer.join().expect("the writer ends");
    child.wait().expect("the program ends");
    answers
}

/// A process that is held a conversation with.
pub struct Conversation {
    child: Child,
    input: Option<ChildStdin>,
    answers: Receiver<String>,
    silent: bool,
}

impl Conversation {
    pub fn start() -> Conversation {
        let (child, input, output) = start();
        let (sender, answers) = channel();
        thread::spawn(move || {
            for line in BufReader::new(output).lines().map_while(Result::ok) {
                if sender.send(line).is_err() {
                    return;
                }
            }
        });
        Conversation {
            child,
            input: Some(input),
            answers,
            silent: false,
        }
    }
}

impl Store for Conversation {
    fn answer(&mut self, text: &str, _: &Command<Handed>) -> Option<String> {
        let input = self.input.as_mut().expect("it is open");
        // A program that has stopped answers nothing, which is seen below.
        let _ = input.write_all(format!("{text}\n").as_bytes());
        let _ = input.flush();
        if !has_answer(text) {
            return None;
        }
        // After one answer that did not come the others are not waited for.
        let patience = if self.silent {
            Duration::ZERO
        } else {
            PATIENCE
        };
        let answer = self.answers.recv_timeout(patience);
        self.silent |= answer.is_err();
        Some(answer.unwrap_or("(no answer)".to_string()))
    }
}

impl Drop for Conversation {
    fn drop(&mut self) {
        // The end of its input ends the program.
        self.input = None;
        let _ = self.child.wait();
    }
}

/// Whether a line gets an answer at all.
pub fn has_answer(text: &str) -> bool {
    text.len() > LONGEST_LINE || parse(text) != Ok(None)
}
