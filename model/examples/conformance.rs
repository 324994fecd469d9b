//! Writes the test files of `conformance`: the lines as they are drawn, and the
//! answers of the compiled program `cases`.
//!
//! `cargo run --release --example conformance` writes those that are stored, and
//! `cargo run --release --example conformance -- spent DIR` the long one.

use std::env::args;
use std::fs::{create_dir_all, write};
use std::io::Result;
use std::path::Path;
use std::process::exit;

use model::conformance::{as_text, files, spent, File};
use model::runs::process::converse;

fn main() -> Result<()> {
    let words: Vec<String> = args().skip(1).collect();
    let words: Vec<&str> = words.iter().map(String::as_str).collect();
    match words[..] {
        [] => {
            let folder = Path::new(env!("CARGO_MANIFEST_DIR")).join("../conformance");
            files().iter().try_for_each(|file| store(file, &folder))
        }
        ["spent", folder] => store(&spent(), Path::new(folder)),
        _ => {
            eprintln!("conformance, or conformance spent DIR");
            exit(2);
        }
    }
}

/// Writes a file's lines and the program's answers.
fn store(file: &File, folder: &Path) -> Result<()> {
    create_dir_all(folder)?;
    let answers = converse(file.text());
    assert_eq!(answers.len(), file.lines.len(), "an answer to each line");
    for (end, lines) in [("in", &file.lines), ("out", &answers)] {
        let name = format!("{}.{end}", file.name);
        let text = as_text(lines);
        println!("{name}: {} lines, {} bytes", lines.len(), text.len());
        write(folder.join(name), text)?;
    }
    Ok(())
}
