//! What an answer says to somebody who sees the lines alone: docs/SCRIPTS.md,
//! "Commands" and "Records".

use crate::machine::parse::unhex;
use crate::machine::register::Tag;
use crate::weights::{Ledger, MOST};

/// The place handed back and the bytes, of `ok NEXT HEX`.
pub fn wrote(answer: &str) -> Option<(u64, Vec<u8>)> {
    let mut words = answer.strip_prefix("ok ")?.split(' ');
    let next = words.next()?.parse().ok()?;
    let hex: Vec<&str> = words.collect();
    Some((next, unhex(&hex).ok()?))
}

/// The number of a refusal, of `no K`.
pub fn refused(answer: &str) -> Option<u8> {
    answer.strip_prefix("no ")?.parse().ok()
}

/// What a result call gave.
#[derive(Clone, Debug, PartialEq, Eq)]
pub struct Told {
    pub write: bool,
    pub tag: Tag,
    pub restarts: u64,
    pub value: Vec<u8>,
}

/// Of `ok read STAMP DESK RESTARTS HEX`, or `write`.
pub fn told(answer: &str) -> Option<Told> {
    let mut words = answer.strip_prefix("ok ")?.split(' ');
    let write = kind(words.next()?)?;
    Some(Told {
        write,
        tag: tag(&mut words)?,
        restarts: words.next()?.parse().ok()?,
        value: unhex(&[words.next()?]).ok()?,
    })
}

/// The margin, of `ok MARGIN`.
pub fn margin(answer: &str) -> Option<i64> {
    answer.strip_prefix("ok ")?.parse().ok()
}

/// A record's line: what server and desk have in common.
#[derive(Clone, Debug, PartialEq, Eq)]
pub struct Shown {
    pub starts: Vec<u64>,
    pub tag: Tag,
    pub value: Vec<u8>,
    pub weights: Vec<i64>,
    pub ledger: Ledger,
    /// Of a desk.
    pub desk: Option<ShownDesk>,
}

/// What a desk's line has more.
#[derive(Clone, Debug, PartialEq, Eq)]
pub struct ShownDesk {
    pub round: u32,
    pub mode: Mode,
    /// Of an operation: whether it writes.
    pub write: bool,
    pub phase: u8,
    pub restarts: u64,
    pub answered: Vec<usize>,
    pub chosen: Tag,
    pub chosen_value: Vec<u8>,
}

#[derive(Clone, Copy, Debug, PartialEq, Eq)]
pub enum Mode {
    None,
    Running,
    Ended,
}

/// The fields of a record's line.
pub fn shown(answer: &str) -> Option<Shown> {
    let mut words = answer.split(' ');
    let is_desk = match words.next()? {
        "server" => false,
        "desk" => true,
        _ => return None,
    };
    words.next()?;
    expect(&mut words, "n")?;
    let n: usize = words.next()?.parse().ok()?;
    expect(&mut words, "f")?;
    words.next()?;
    expect(&mut words, "starts")?;
    let starts = words.next()?.split(',').map(|word| word.parse().ok());
    let starts = starts.collect::<Option<Vec<u64>>>()?;
    expect(&mut words, "tag")?;
    let held = tag(&mut words)?;
    expect(&mut words, "value")?;
    let value = unhex(&[words.next()?]).ok()?;
    expect(&mut words, "weights")?;
    let weights = words.by_ref().take(n).map(|word| word.parse().ok());
    let weights = weights.collect::<Option<Vec<i64>>>()?;
    expect(&mut words, "counts")?;
    let mut ledger = Ledger::FRESH;
    for giver in 0..n {
        ledger.counts[giver] = words.next()?.parse().ok()?;
    }
    expect(&mut words, "cells")?;
    // The cells, `-` for none, up to the desk's round or the end.
    let after = loop {
        match words.next() {
            Some("-") => {}
            Some(word) if word.contains('>') => {
                let (giver, taker, amount) = cell(word)?;
                ledger.cells[giver][taker] = amount;
            }
            other => break other,
        }
    };
    let desk = match (is_desk, after) {
        (false, None | Some("crashed")) => None,
        (true, Some("round")) => Some(shown_desk(&mut words)?),
        _ => return None,
    };
    Some(Shown {
        starts,
        tag: held,
        value,
        weights,
        ledger,
        desk,
    })
}

fn shown_desk<'a>(words: &mut impl Iterator<Item = &'a str>) -> Option<ShownDesk> {
    let round = words.next()?.parse().ok()?;
    expect(words, "operation")?;
    let mode = match words.next()? {
        "none" => Mode::None,
        "running" => Mode::Running,
        "ended" => Mode::Ended,
        _ => return None,
    };
    let write = match words.next()? {
        "none" if mode == Mode::None => false,
        word => kind(word)?,
    };
    expect(words, "phase")?;
    let phase = words.next()?.parse().ok()?;
    expect(words, "note")?;
    words.next()?;
    expect(words, "restarts")?;
    let restarts = words.next()?.parse().ok()?;
    expect(words, "answered")?;
    let answered = match words.next()? {
        "-" => Vec::new(),
        list => {
            let servers = list.split(',').map(|word| word.parse().ok());
            servers.collect::<Option<_>>()?
        }
    };
    expect(words, "writing")?;
    words.next()?;
    expect(words, "chosen")?;
    Some(ShownDesk {
        round,
        mode,
        write,
        phase,
        restarts,
        answered,
        chosen: tag(words)?,
        chosen_value: unhex(&[words.next()?]).ok()?,
    })
}

fn expect<'a>(words: &mut impl Iterator<Item = &'a str>, word: &str) -> Option<()> {
    (words.next()? == word).then_some(())
}

fn kind(word: &str) -> Option<bool> {
    match word {
        "read" => Some(false),
        "write" => Some(true),
        _ => None,
    }
}

fn tag<'a>(words: &mut impl Iterator<Item = &'a str>) -> Option<Tag> {
    Some(Tag {
        stamp: words.next()?.parse().ok()?,
        desk: words.next()?.parse().ok()?,
    })
}

/// Of `i>j:amount`.
fn cell(word: &str) -> Option<(usize, usize, u32)> {
    let (giver, rest) = word.split_once('>')?;
    let (taker, amount) = rest.split_once(':')?;
    let (giver, taker) = (giver.parse().ok()?, taker.parse().ok()?);
    (giver < MOST && taker < MOST).then_some(())?;
    Some((giver, taker, amount.parse().ok()?))
}

#[cfg(test)]
mod tests {
    use super::*;

    #[test]
    fn the_lines_of_the_page() {
        let server = "server 0 n 5 f 1 starts 1000,1000,1000,1000,1000 tag 0 0 value - \
                      weights 800 1000 1200 1000 1000 counts 1 0 0 0 0 cells 0>2:200";
        let seen = shown(server).unwrap();
        assert_eq!(seen.starts, [1_000; 5]);
        assert_eq!(seen.weights, [800, 1_000, 1_200, 1_000, 1_000]);
        assert_eq!(seen.ledger.cells[0][2], 200);
        assert_eq!(seen.ledger.counts[0], 1);
        let desk = "desk 7 n 5 f 1 starts 2200,700,700,700,700 tag 1 7 value A0 \
                    weights 2200 700 700 700 700 counts 0 0 0 0 0 cells - round 2 \
                    operation running write phase 2 note 0 restarts 0 answered 0,3 \
                    writing A0 chosen 1 7 A0";
        let seen = shown(desk).unwrap().desk.unwrap();
        assert_eq!((seen.mode, seen.phase, seen.round), (Mode::Running, 2, 2));
        assert_eq!(seen.answered, [0, 3]);
        assert_eq!(seen.chosen_value, [0xA0]);
    }
}
