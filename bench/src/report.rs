//! The report, in GitHub's markdown.

use crate::cases::Group;
use crate::stats::Spread;
use crate::timing::{Times, BATCH};
use std::fs;
use std::process::Command;

/// What a case's times come to.
pub struct Line {
    name: String,
    group: Group,
    bytes: usize,
    rounds: usize,
    core: Spread,
    model: Spread,
    plain: Spread,
    core_to_model: Spread,
    core_to_plain: Spread,
}

impl Line {
    pub fn of(name: &str, group: Group, bytes: usize, times: Times) -> Line {
        let core_to_model = Spread::of_ratios(&times[0], &times[1]);
        let core_to_plain = Spread::of_ratios(&times[0], &times[2]);
        let rounds = times[0].len();
        let [core, model, plain] = times.map(Spread::of);
        Line {
            name: name.to_string(),
            group,
            bytes,
            rounds,
            core,
            model,
            plain,
            core_to_model,
            core_to_plain,
        }
    }
}

pub fn print(lines: &[Line]) {
    println!("Processor: {}. Compilers: {}.", processor(), compilers());
    for (group, heading, unit) in [
        (Group::Message, "Questions about messages", NANOSECONDS),
        (Group::Record, "Calls on servers and desks", NANOSECONDS),
        (Group::Operation, "Whole operations", PER_SECOND),
    ] {
        let lines: Vec<&Line> = lines.iter().filter(|line| line.group == group).collect();
        if !lines.is_empty() {
            println!("\n### {heading}\n\n{unit}\n");
            print_times(group, &lines);
            println!("\n{RATIOS}\n");
            print_ratios(&lines);
        }
    }
    let fewest = lines.iter().map(|line| line.rounds).min().unwrap_or(0);
    println!(
        "\nEach line had at least {fewest} rounds. A round is one batch of calls to the core, then one to the model, then one \
         to the C, each of {} to {} microseconds or of one operation that takes longer, in one process and on the same bytes, \
         each through a function pointer. Inputs are warm in the cache, and nothing is cleared between calls; the same call is \
         made again and again, so that the processor guesses its branches well. Before the timing the three gave the same \
         answer on each input.",
        BATCH.as_micros(),
        2 * BATCH.as_micros()
    );
}

const NANOSECONDS: &str = "Nanoseconds per call: the median of the batches, and in brackets their 10th and 90th percentile.";

const PER_SECOND: &str =
    "Operations per second: by the median of the batches, and in brackets by their 90th and 10th percentile.";

const RATIOS: &str = "How many times as long the core takes: the ratio of the medians; then the median of the ratios of \
                      single rounds, and in brackets their 10th and 90th percentile.";

fn print_times(group: Group, lines: &[&Line]) {
    if group == Group::Operation {
        println!("| operation | core | Rust model | plain C |");
        println!("|---|--:|--:|--:|");
        for line in lines {
            let [core, model, plain] = [line.core, line.model, line.plain].map(per_second);
            println!("| {} | {core} | {model} | {plain} |", line.name);
        }
        return;
    }
    println!("| call | bytes | core | Rust model | plain C |");
    println!("|---|--:|--:|--:|--:|");
    for line in lines {
        let [core, model, plain] = [line.core, line.model, line.plain].map(nanoseconds);
        let (name, bytes) = (&line.name, line.bytes);
        println!("| {name} | {bytes} | {core} | {model} | {plain} |");
    }
}

fn print_ratios(lines: &[&Line]) {
    println!("| | core / model | by rounds | core / C | by rounds |");
    println!("|---|--:|--:|--:|--:|");
    for line in lines {
        let to_model = line.core.median / line.model.median;
        let to_plain = line.core.median / line.plain.median;
        let (by_model, by_plain) = (ratio(line.core_to_model), ratio(line.core_to_plain));
        println!(
            "| {} | {to_model:.2} | {by_model} | {to_plain:.2} | {by_plain} |",
            line.name
        );
    }
}

fn per_second(spread: Spread) -> String {
    let rate = |nanoseconds: f64| 1e9 / nanoseconds;
    format!(
        "{:.0} ({:.0} to {:.0})",
        rate(spread.median),
        rate(spread.high),
        rate(spread.low)
    )
}

fn nanoseconds(spread: Spread) -> String {
    format!(
        "{:.1} ({:.1} to {:.1})",
        spread.median, spread.low, spread.high
    )
}

fn ratio(spread: Spread) -> String {
    format!(
        "{:.2} ({:.2} to {:.2})",
        spread.median, spread.low, spread.high
    )
}

fn compilers() -> String {
    let core = said_by(Command::new("rt").arg("version"))
        .map_or("`rt` is not on the path".to_string(), |said| {
            format!("`rt version`: {said}")
        });
    format!(
        "core by `tools/build host` ({core}); model by {} (`opt-level={}`); C by {} (`{}`)",
        env!("BENCH_RUSTC"),
        env!("BENCH_OPT_LEVEL"),
        env!("BENCH_CC"),
        env!("BENCH_CC_FLAGS")
    )
}

/// The first line of what a command writes, if it is there and writes one.
fn said_by(command: &mut Command) -> Option<String> {
    let output = command.output().ok()?;
    String::from_utf8_lossy(&output.stdout)
        .lines()
        .next()
        .map(str::to_string)
}

fn processor() -> String {
    let text = fs::read_to_string("/proc/cpuinfo").unwrap_or_default();
    let named = text.lines().find(|line| line.starts_with("model name"));
    match named.and_then(|line| line.split_once(':')) {
        Some((_, name)) => name.trim().to_string(),
        None => "not named by the system".to_string(),
    }
}
