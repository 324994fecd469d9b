//! The plain machine on the examples of paper 01, "Checked by the prover": cases
//! 1 to 9 and the share in hex, and a write and a read across a transfer; and on
//! margins and start weights (paper 02, N1 and N2). The model over counts and
//! cells has to agree.

use model::machine::calls::Right;
use model::machine::command::{hex, Command};
use model::machine::program::Program;
use model::machine::transfers::Transfers;
use model::seats::TWO_SOLD;
use model::weights::Ledger;

/// The answers of both models to a script, which have to be the same. Line 0
/// opens a house of n and f whose servers start level, and the script follows. A
/// word `@k` stands for the message that line k sent.
fn answers(n: u64, f: u64, script: &[&str]) -> Vec<String> {
    answers_in(&format!("house {n} {f}"), script)
}

/// The same after this line.
fn answers_in(opening: &str, script: &[&str]) -> Vec<String> {
    let mut machine = Program::<Transfers, _>::new(Right);
    let mut cells = Program::<Ledger, _>::new(Right);
    let mut answers: Vec<String> = Vec::new();
    for line in [opening].iter().chain(script) {
        let words: Vec<&str> = (line.split(' '))
            .map(|word| match word.strip_prefix('@') {
                None => word,
                Some(line) => {
                    let line: usize = line.parse().unwrap();
                    answers[line].split(' ').next_back().unwrap()
                }
            })
            .collect();
        let text = words.join(" ");
        let command = Command::Text(text.clone());
        let answer = machine.answer(&text, &command).unwrap().to_string();
        assert_eq!(cells.answer(&text, &command).unwrap().to_string(), answer);
        answers.push(answer);
    }
    answers
}

#[test]
fn cases_1_to_6_transfers_at_the_floor() {
    for (n, f, most) in [(5, 1, 374), (4, 1, 333), (16, 7, 111)] {
        let passes = format!("transfer 0 1 {most}");
        let thin = format!("transfer 0 1 {}", most + 1);
        assert_eq!(answers(n, f, &[&thin, &passes])[1..], ["no 10", "ok"]);
    }
}

#[test]
fn case_7_two_fresh_servers_of_four() {
    for f in [0, 1] {
        let script = ["share 0 0 1111", "quorum 3 @1", "quorum 7 @1"];
        assert_eq!(answers(4, f, &script)[2..], ["0", "2000"]);
    }
}

#[test]
fn two_fresh_servers_of_five() {
    let script = ["share 0 0 1111", "quorum 3 @1", "quorum 7 @1"];
    assert_eq!(answers(5, 1, &script)[2..], ["-1000", "1000"]);
}

#[test]
fn cases_8_and_9_quorums_after_two_gifts() {
    let script = [
        "transfer 0 2 374",
        "transfer 1 2 374",
        "share 0 0 1111",
        "serve 1 0 0 @3",
        "share 1 0 1111",
        "quorum 20 @5",
        "quorum 5 @5",
    ];
    assert_eq!(answers(5, 1, &script)[6..], ["496", "-252"]);
}

/// The words of a script that take a reply of server i in a round: ask, serve
/// and hear. Their messages are those of the lines before.
fn exchange(desk: u64, server: u64, line: usize) -> [String; 3] {
    [
        format!("ask {desk} {server} 0 1111"),
        format!("serve {server} 0 1111 @{line}"),
        format!("hear {desk} @{}", line + 1),
    ]
}

/// A read of four servers, then one across a transfer, each line of `margin`
/// with what it answers.
#[test]
fn margins_of_an_operation() {
    let mut script: Vec<String> = Vec::new();
    let mut expected: Vec<(usize, &str)> = Vec::new();
    let mut margin = |script: &mut Vec<String>, answer| {
        script.push("margin 7".to_string());
        expected.push((script.len(), answer));
    };
    let hear = |script: &mut Vec<String>, server| {
        let line = script.len() + 1;
        script.extend(exchange(7, server, line));
    };
    margin(&mut script, "no 9");
    script.push("begin 7 read 0".to_string());
    margin(&mut script, "ok -4000");
    hear(&mut script, 0);
    margin(&mut script, "ok -2000");
    hear(&mut script, 0); // the same server once more
    margin(&mut script, "ok -2000");
    hear(&mut script, 2);
    margin(&mut script, "ok 0");
    hear(&mut script, 3); // phase 2 begins
    margin(&mut script, "ok -4000");
    hear(&mut script, 1);
    margin(&mut script, "ok -2000");
    script.push("transfer 3 1 333".to_string());
    hear(&mut script, 3); // a restart
    margin(&mut script, "ok -4000");
    hear(&mut script, 1);
    margin(&mut script, "ok -1334");
    hear(&mut script, 3);
    margin(&mut script, "ok 0");
    hear(&mut script, 2); // it ends
    margin(&mut script, "no 9");
    script.push("begin 7 write 0 A0".to_string());
    margin(&mut script, "ok -4000");
    hear(&mut script, 1);
    margin(&mut script, "ok -1334");
    script.push("drop 7".to_string());
    margin(&mut script, "no 9");
    let lines: Vec<&str> = script.iter().map(String::as_str).collect();
    let answers = answers(4, 1, &lines);
    for (line, answer) in expected {
        assert_eq!(answers[line], answer, "line {line}");
    }
}

#[test]
fn margins_of_nobody() {
    let script = ["margin 0", "margin 65536", "margin 65535", "margin 1"];
    assert_eq!(
        answers(3, 1, &script)[1..],
        ["no 1", "no 1", "no 9", "no 9"]
    );
}

#[test]
fn the_share_in_hex() {
    let answers = answers(5, 1, &["transfer 0 2 200", "share 0 0 14", "share 0 7 20"]);
    assert_eq!(answers[2], "ok 14 00230300000100010004000000C8");
    assert_eq!(answers[3], "no 13");
}

#[test]
fn a_read_across_a_transfer() {
    let block = hex(TWO_SOLD);
    let begin = format!("begin 1 write 5 {block}");
    let script = [
        begin.as_str(),
        "ask 1 0 0 1111",
        "serve 0 0 1111 @2",
        "hear 1 @3",
        "ask 1 1 0 1111",
        "serve 1 0 1111 @5",
        "hear 1 @6",
        "hear 1 @6", // late: phase 2 has begun
        "ask 1 0 0 1111",
        "serve 0 0 1111 @9",
        "hear 1 @10",
        "transfer 1 2 499",
        "ask 1 1 0 1111",
        "serve 1 0 1111 @13",
        "hear 1 @14", // a restart in phase 2
        "record desk 1",
        "ask 1 2 0 1111",
        "serve 2 0 1111 @17",
        "hear 1 @18",
        "ask 1 0 0 1111",
        "serve 0 0 1111 @20",
        "hear 1 @21",
        "result 1",
        "begin 2 read 0",
        "ask 2 2 0 1111",
        "serve 2 0 1111 @25",
        "hear 2 @26", // a restart in phase 1
        "ask 2 2 0 1111",
        "serve 2 0 1111 @28",
        "hear 2 @29",
        "ask 2 0 0 1111",
        "serve 0 0 1111 @31",
        "hear 2 @32",
        "ask 2 2 0 1111",
        "serve 2 0 1111 @34",
        "hear 2 @35",
        "ask 2 0 0 1111",
        "serve 0 0 1111 @37",
        "hear 2 @38",
        "result 2",
    ];
    let answers = answers(3, 0, &script);
    assert_eq!(answers[8], "late");
    assert_eq!(
        answers[16],
        format!(
            "desk 1 n 3 f 0 starts 1000,1000,1000 tag 1 1 value {block} weights 1000 501 1499 counts 0 1 0 cells 1>2:499 \
             round 3 operation running write phase 2 note 5 restarts 1 answered - writing {block} \
             chosen 1 1 {block}"
        )
    );
    assert_eq!(answers[23], format!("ok write 1 1 1 {block}"));
    assert_eq!(answers[40], format!("ok read 1 1 1 {block}"));
}

/// A house with one strong server: what it can spare, who is a quorum, and that
/// its parties show the list.
#[test]
fn one_strong_server() {
    let house = "house 5 1 starts 2200,700,700,700,700";
    let script = [
        "transfer 0 1 1575",
        "transfer 1 0 75",
        "transfer 1 0 74",
        "share 1 0 1111",
        "quorum 1 @4",
        "quorum 9 @4",
        "quorum 30 @4",
        "quorum 28 @4",
        "serve 0 0 0 @4",
        "transfer 0 1 1648",
        "record server 0",
    ];
    let answers = answers_in(house, &script);
    let expected = [
        "no 10", "no 10", "ok", "-452", "948", "452", "-800", "ok", "ok",
    ];
    let without_share = answers.iter().skip(1).enumerate();
    let without_share = without_share.filter(|(place, _)| ![3, 10].contains(place));
    let without_share: Vec<&String> = without_share.map(|(_, answer)| answer).collect();
    assert_eq!(without_share, expected);
    assert_eq!(
        answers[11],
        "server 0 n 5 f 1 starts 2200,700,700,700,700 tag 0 0 value - \
         weights 626 2274 700 700 700 counts 1 1 0 0 0 cells 0>1:1648 1>0:74"
    );
}

/// The lines of a house with a list, lawful or not: a refused one changes
/// nothing.
#[test]
fn houses_with_lists() {
    let script = [
        "house 2 0 starts 300,100",
        "house 2 0 starts -",
        "house 2 0 starts 299,100,0",
        "house 2 1 starts 300,100",
        "house 3 2 starts -",
        "house 2 0 starts 18446744073709551615,17",
        "house 2 0 starts 9223372036854775808,9223372036854775808",
        "record server 1",
        "house 1 0 starts 16001",
        "house 1 0 starts 0",
        "house 1 0 starts 16000",
        "record server 0",
        "house 1 0 starts 1",
        "record desk 7",
    ];
    let answers = answers_in("house 2 0 starts 299,100", &script);
    let held = "tag 0 0 value - weights";
    let expected = [
        "ok".to_string(),
        "no 15".to_string(),
        "no 15".to_string(),
        "no 15".to_string(),
        "no 1".to_string(),
        "no 1".to_string(),
        "no 15".to_string(),
        "no 15".to_string(),
        format!("server 1 n 2 f 0 starts 299,100 {held} 299 100 counts 0 0 cells -"),
        "no 15".to_string(),
        "no 15".to_string(),
        "ok".to_string(),
        format!("server 0 n 1 f 0 starts 16000 {held} 16000 counts 0 cells -"),
        "ok".to_string(),
        format!(
            "desk 7 n 1 f 0 starts 1 {held} 1 counts 0 cells - round 0 operation none none \
             phase 0 note 0 restarts 0 answered - writing - chosen 0 0 -"
        ),
    ];
    assert_eq!(answers, expected);
}

/// `message` goes by its own list, whatever house is open.
#[test]
fn messages_with_lists() {
    let script = [
        "message 2 0 starts 299,100 00030300",
        "message 2 0 starts 300,100 00030300",
        "message 2 0 starts 300,100 -",
        "message 2 0 starts 299,100 -",
        "message 2 1 starts 300,100 -",
        "message 2 0 00030300",
    ];
    let answers = answers(3, 1, &script);
    let fields = "ok kind 3 server 0 desk 0 round 0 tag 0 0 note 0 value - weights";
    let rest = "cut 4 of 4 longer 2 again same";
    let expected = [
        format!("{fields} 299 100 {rest}"),
        "no 15".to_string(),
        "no 15".to_string(),
        "no 2".to_string(),
        "no 1".to_string(),
        format!("{fields} 1000 1000 {rest}"),
    ];
    assert_eq!(answers[1..], expected);
}
