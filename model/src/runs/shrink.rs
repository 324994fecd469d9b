//! A failing run made short: lines are left out, in large chunks and then one
//! by one, as long as it still fails; then what is left is made plain. Lines
//! that name a message of a line that is gone are gone with it.

use super::player::ROOMY;
use super::script::{Entry, Turn};
use crate::machine::command::{Command, House};
use crate::machine::desk::Task;

/// The shortest script found for which the test still holds.
pub fn shrink(entries: &[Entry], fails: &mut dyn FnMut(&[Entry]) -> bool) -> Vec<Entry> {
    let mut script = entries.to_vec();
    loop {
        let before = script.clone();
        leave_out(&mut script, fails);
        make_plain(&mut script, fails);
        if script == before {
            leave_out_two(&mut script, fails);
        }
        if script == before {
            return script;
        }
    }
}

/// The longest chunk that is tried from every line on.
const WINDOW: usize = 8;

/// Leaves out chunks of half, a quarter and so on, then short ones from every
/// line on, down to single lines.
fn leave_out(script: &mut Vec<Entry>, fails: &mut dyn FnMut(&[Entry]) -> bool) {
    let mut chunk = script.len().div_ceil(2);
    while chunk > 0 {
        // From the end, since a line depends on those before it only.
        let mut end = script.len();
        while end > 0 {
            let start = end.saturating_sub(chunk);
            let mut shorter = script.clone();
            shorter.drain(start..end);
            if fails(&shorter) {
                *script = shorter;
                end = start;
            } else if chunk <= WINDOW {
                end = (end - 1).min(script.len());
            } else {
                end = start;
            }
        }
        chunk = if chunk <= WINDOW {
            chunk - 1
        } else {
            chunk / 2
        };
    }
}

/// The longest script in which every two lines are tried.
const SHORT: usize = 80;

/// Leaves out two lines that stand apart, the first such two.
fn leave_out_two(script: &mut Vec<Entry>, fails: &mut dyn FnMut(&[Entry]) -> bool) {
    if script.len() > SHORT {
        return;
    }
    for later in (1..script.len()).rev() {
        for earlier in 0..later {
            let mut shorter = script.clone();
            shorter.remove(later);
            shorter.remove(earlier);
            if fails(&shorter) {
                *script = shorter;
                return;
            }
        }
    }
}

/// Tries each line in plainer forms, one change after the other.
fn make_plain(script: &mut [Entry], fails: &mut dyn FnMut(&[Entry]) -> bool) {
    for place in 0..script.len() {
        for change in CHANGES {
            let old = script[place].clone();
            change(&mut script[place]);
            if script[place] != old && !fails(script) {
                script[place] = old;
            }
        }
    }
}

/// Changes that make a line plainer, where they apply.
const CHANGES: &[fn(&mut Entry)] = &[
    |entry| entry.dress = 0,
    |entry| {
        if let Command::House { house } = &mut entry.command {
            house.starts = None;
        }
    },
    |entry| {
        if let Command::House { house } = &mut entry.command {
            *house = fewer(house, house.n - house.n / 2, house.f - house.f / 2);
        }
    },
    |entry| {
        if let Command::House { house } = &mut entry.command {
            *house = fewer(house, 1, 0);
        }
    },
    |entry| {
        if let Command::House { house } = &mut entry.command {
            *house = fewer(house, 0, 1);
        }
    },
    |entry| {
        if let Command::Begin { note, .. } = &mut entry.command {
            *note = 0;
        }
    },
    |entry| {
        if let Command::Begin {
            task: Task::Write(value),
            ..
        } = &mut entry.command
        {
            *value = value[..value.len().min(1)].into();
        }
    },
    |entry| {
        if let Command::Transfer { amount, .. } = &mut entry.command {
            *amount = (*amount).min(1);
        }
    },
    |entry| {
        if let Command::Ask { room, .. }
        | Command::Share { room, .. }
        | Command::Serve { room, .. } = &mut entry.command
        {
            *room = ROOMY;
        }
    },
];

/// A house without so many of its servers and crashes, the last ones.
fn fewer(house: &House, servers: u64, crashes: u64) -> House {
    let n = house.n.saturating_sub(servers);
    let mut starts = house.starts.clone();
    if let Some(starts) = &mut starts {
        starts.truncate(n.try_into().unwrap_or(usize::MAX));
    }
    House {
        n,
        f: house.f.saturating_sub(crashes),
        starts,
    }
}

/// A script for a reader: each line, and the answer to it as a comment, up to
/// the line that shows what was found, with that in front.
pub fn script_text(turns: &[Turn], found_at: usize, words: &str) -> String {
    let mut text = String::new();
    for turn in turns.iter().take_while(|turn| turn.number < found_at) {
        text += &format!("{} # {}\n", turn.text, turn.answer());
    }
    for line in words.lines() {
        text += &format!("# {line}\n");
    }
    if let Some(turn) = turns.iter().find(|turn| turn.number == found_at) {
        text += &format!("{}\n", turn.text);
    }
    text
}
