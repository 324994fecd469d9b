//! The same line written in other ways: docs/SCRIPTS.md, "A line". Spaces, tabs,
//! carriage returns, comments, zeros before a number, alone or in a list, and the
//! case and spacing of hex change nothing that a line says.

use crate::machine::program::LONGEST_LINE;
use crate::random::Random;

/// The line, written as the number says; 0 is as it stands.
pub fn dressed(line: &str, dress: u64) -> String {
    if dress == 0 {
        return line.to_string();
    }
    let random = &mut Random::new(dress);
    let words: Vec<&str> = line.split(' ').collect();
    let has_hex = match words[0] {
        "serve" | "hear" | "check" | "weight" | "quorum" | "seats" | "value" | "message" => true,
        "begin" => words[2] == "write",
        _ => false,
    };
    let last = words.len() - 1;
    let mut text = gap(random, 0);
    for (place, word) in words.iter().enumerate() {
        if place > 0 {
            text += &gap(random, 1);
        }
        if has_hex && place == last {
            text += &hex_dressed(random, word);
        } else if is_list(word) {
            let numbers = word.split(',').map(|number| with_zeros(random, number));
            text += &numbers.collect::<Vec<String>>().join(",");
        } else {
            text += word;
        }
    }
    text += match random.below(6) {
        0 => " # the box office",
        1 => "#hear 1 00",
        2 => "\r",
        3 => " \t ",
        _ => "",
    };
    if text.len() > LONGEST_LINE {
        return line.to_string();
    }
    text
}

/// Whether a word is a number, or numbers apart by commas.
fn is_list(word: &str) -> bool {
    word.starts_with(|first: char| first.is_ascii_digit())
        && word
            .bytes()
            .all(|byte| byte.is_ascii_digit() || byte == b',')
}

/// A number, now and then with zeros before it.
fn with_zeros(random: &mut Random, number: &str) -> String {
    let zeros = match random.one_in(8) {
        true => random.within(1, 3) as usize,
        false => 0,
    };
    "0".repeat(zeros) + number
}

/// At least so many spaces or tabs.
fn gap(random: &mut Random, least: u64) -> String {
    let length = least + random.below(3).saturating_sub(1);
    let mut gap = String::new();
    for _ in 0..length {
        gap.push(*random.pick(&[' ', ' ', '\t', '\r']));
    }
    gap
}

/// Pairs in either case, now and then apart.
fn hex_dressed(random: &mut Random, word: &str) -> String {
    if word == "-" {
        return word.to_string();
    }
    let lower = random.one_in(2);
    let apart = random.one_in(2);
    let mut text = String::new();
    for (place, digit) in word.chars().enumerate() {
        if apart && place > 0 && place % 2 == 0 && random.one_in(3) {
            text.push(' ');
        }
        text.push(if lower {
            digit.to_ascii_lowercase()
        } else {
            digit
        });
    }
    text
}

#[cfg(test)]
mod tests {
    use super::*;
    use crate::machine::parse::parse;

    #[test]
    fn a_dressed_line_says_the_same() {
        for line in [
            "house 5 1",
            "house 2 0 starts 299,100",
            "house 2 0 starts -",
            "message 1 0 starts 1000 1122",
            "begin 7 read 0",
            "begin 7 write 9 A0FF00",
            "serve 3 0 1111 0023030000010001",
            "seats -",
            "message 5 1 1122",
            "margin 7",
            "record server 4",
        ] {
            for dress in 0..500 {
                assert_eq!(parse(&dressed(line, dress)), parse(line), "{line} {dress}");
            }
        }
    }
}
