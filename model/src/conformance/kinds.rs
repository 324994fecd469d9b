//! What sort of line and answer a turn is, in words to count by.

/// The call and what came of it, as `serve: no 6`.
pub fn kind(line: &str, answer: &str) -> String {
    let mut words = line.split(' ');
    let call = words.next().unwrap_or("");
    let came = match (call, answer.split(' ').next()) {
        (_, Some("no")) | (_, Some("late")) => answer,
        ("serve", _) if answer == "ok" => "a share is taken",
        ("serve", _) => "a request is answered",
        ("begin", _) => match words.nth(1) {
            Some("read") => "a read",
            _ => "a write",
        },
        ("result", _) => result(answer),
        ("margin", _) if answer == "ok 0" => "0",
        ("margin", _) if answer.starts_with("ok -") => "below 0",
        ("record", _) => "shown",
        ("message", _) => "accepted",
        _ => "ok",
    };
    format!("{call}: {came}")
}

/// Of `ok read STAMP DESK RESTARTS HEX`, or `write`.
fn result(answer: &str) -> &'static str {
    let words: Vec<&str> = answer.split(' ').collect();
    match (words.get(1), words.get(4)) {
        (Some(&"read"), Some(&"0")) => "a read",
        (Some(&"read"), _) => "a read after restarts",
        (_, Some(&"0")) => "a write",
        _ => "a write after restarts",
    }
}
