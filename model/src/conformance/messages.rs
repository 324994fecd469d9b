//! Messages by themselves: those that pass, of every kind in every cluster, and
//! those that are refused, at every place of paper 01's "Checks".

use super::faults;
use super::line::{bad_lists, lists, request, share, sheet, Line, BAD_HOUSES};
use super::sums::{self, MOST_IN_ROW};
use super::SEED;
use crate::aim::{aimed, Aimed};
use crate::cases::Case;
use crate::format::{Kind, Message};
use crate::lawful;
use crate::machine::command::{Command, House};
use crate::machine::parse::parse;
use crate::place::Place;
use crate::random::{bad_cluster, Random};
use crate::runs::pace::pairs;
use crate::starts::{config_of, uneven, unlawful};
use crate::weights::{level, Config};
use crate::write::write;

/// How long a message is that is drawn; a few are longer.
const SHORT: usize = 80;

/// How many random cases there are.
const CASES: usize = 200;

/// How many messages are refused at each place, by one fault and by two.
const ONE_FAULT: usize = 4;
const TWO_FAULTS: usize = 2;

pub fn lines() -> Vec<Line> {
    let random = &mut Random::new(SEED);
    let mut lines = page();
    lines.extend(clusters(random));
    lines.extend(starts(random));
    lines.extend(changed());
    lines.extend(floors(random));
    lines.extend(totals());
    lines.extend(lawful_ones(random));
    lines.extend(refused_ones(random));
    lines.extend(faults::lines(random));
    lines.extend(longest_ones(random));
    lines.extend(any());
    lines
}

pub fn line(house: impl Into<House>, bytes: Vec<u8>) -> Line {
    let house = house.into();
    Command::Message { house, bytes }
}

/// The messages of docs/FORMAT.md.
fn page() -> Vec<Line> {
    let page = include_str!("../../../docs/FORMAT.md");
    let indented = page.lines().filter(|line| line.starts_with("    message "));
    let parsed = indented.map(|line| parse(line).ok().flatten());
    parsed.map(|line| line.expect("it can be read")).collect()
}

/// Clusters out of bounds, whatever the message: near the bounds, and numbers
/// that come near when they are cut to fewer bits or doubled.
fn clusters(random: &mut Random) -> Vec<Line> {
    let far = [1 << 8, 1 << 16, 1 << 32, 1 << 63];
    let mut bad = BAD_HOUSES.to_vec();
    bad.extend([(0, u64::MAX), (u64::MAX, u64::MAX)]);
    bad.extend(far.map(|far| (far + 16, 7)));
    bad.extend(far.map(|far| (16, far + 7)));
    bad.extend(far.map(|far| (16, far)));
    bad.extend((0..16).map(|_| bad_cluster(random)));
    let mut lines: Vec<Line> = Vec::new();
    for (n, f) in bad {
        lines.push(line(House::level(n, f), write(&share(0))));
    }
    // 1 comes before everything else.
    for bytes in [vec![], vec![0], vec![0xFF; 2], write(&request(4, 1, 1))] {
        lines.push(line(House::level(17, 3), bytes.clone()));
        lines.push(line(House::level(5, 3), bytes.clone()));
        lines.push(line(House::level(5, 2), bytes));
    }
    lines
}

/// Lists of start weights, each with a message that has no sheet: those that are
/// lawful, and those that are not, which is 15 before anything is read and after
/// n and f. A level list is as none.
fn starts(random: &mut Random) -> Vec<Line> {
    let fresh = || write(&share(0));
    let mut lines: Vec<Line> = lists().map(|house| line(house, fresh())).collect();
    lines.extend(bad_lists().map(|house| line(house, fresh())));
    for (n, f) in pairs().into_iter().step_by(2) {
        let starts = unlawful(random, n, f);
        lines.push(line(House::with_starts(n, f, starts), fresh()));
    }
    let torn = [vec![], vec![0], vec![0xFF; 2], vec![0, 3, 9]];
    for bytes in torn.into_iter().chain([write(&request(9, 1, 1))]) {
        for (n, f, starts) in [
            (2, 0, vec![300, 100]),
            (2, 0, vec![]),
            (2, 0, vec![299, 100]),
            (2, 1, vec![300, 100]),
            (17, 3, vec![]),
            (0, 0, vec![]),
        ] {
            lines.push(line(House::with_starts(n, f, starts), bytes.clone()));
        }
    }
    for n in [1, 5, 16] {
        let house = House::with_starts(n, (n - 1) / 2, vec![1_000; n as usize]);
        lines.push(line(house, fresh()));
    }
    lines
}

/// The request of the page that has every field: cut at each place, and with the
/// lowest or the highest bit of each byte turned.
fn changed() -> Vec<Line> {
    let long = page().into_iter().max_by_key(|line| match line {
        Command::Message { bytes, .. } => bytes.len(),
        _ => 0,
    });
    let Some(Command::Message { house, bytes }) = long else {
        panic!("the page has messages");
    };
    let cut = (0..bytes.len()).map(|end| bytes[..end].to_vec());
    let turned = (0..2 * bytes.len()).map(|place| {
        let mut bytes = bytes.clone();
        bytes[place / 2] ^= if place % 2 == 0 { 0x01 } else { 0x80 };
        bytes
    });
    let lines = cut.chain(turned);
    lines.map(|bytes| line(house.clone(), bytes)).collect()
}

/// In every cluster, level and not, a gift of all that a server can spare, and
/// one of 1 more.
fn floors(random: &mut Random) -> Vec<Line> {
    let mut lines = Vec::new();
    for (n, f) in pairs().into_iter().filter(|(n, _)| *n > 1) {
        let giver = (f as usize + 1) % n as usize;
        let taker = n as usize - 1 - giver;
        let taker = if taker == giver {
            (giver + 1) % n as usize
        } else {
            taker
        };
        lines.extend(floor(Config::level(n, f), giver, taker));
        let starts = uneven(random, n, f);
        let config = Config::new(n, f, &starts).expect("it is lawful");
        let strong = (0..n as usize).max_by_key(|&server| starts[server]);
        let giver = strong.expect("n is not 0");
        lines.extend(floor(config, giver, (giver + 1) % n as usize));
    }
    lines
}

fn floor(config: Config, giver: usize, taker: usize) -> Vec<Line> {
    let spare = config.spare(config.start_weights()[giver]) as u32;
    // Where it can spare nothing, there is no gift that passes.
    let gifts = [spare, spare + 1].into_iter().filter(|gift| *gift > 0);
    let line_of = |gift| {
        let ledger = sheet(&[(giver, 1, &[(taker, gift)])]);
        line(config, write(&Message { ledger, ..share(0) }))
    };
    gifts.map(line_of).collect()
}

/// Rows whose totals are at their least, at their most, and 1 beyond; then sums
/// that leave 32 bits.
fn totals() -> Vec<Line> {
    let counts = [1, 2, 255, 256, 32_768, 65_534, 65_535];
    let mut lines = Vec::new();
    for count in counts {
        let (least, most) = (u32::from(count), 16_000 * u32::from(count));
        for total in [least - 1, least, most, most + 1] {
            // Two servers give each other the same, so that no weight moves.
            let there = [(1, total)];
            let back = [(0, total)];
            let ledger = sheet(&[(0, count, &there), (1, count, &back)]);
            let message = Message { ledger, ..share(1) };
            lines.push(line(House::level(2, 0), write(&message)));
        }
    }
    let most = [(1, MOST_IN_ROW - 3), (2, 1), (3, 1), (4, 1)];
    let back = [(0, MOST_IN_ROW - 3)];
    let ledger = sheet(&[(0, 65_535, &most), (1, 65_535, &back)]);
    let message = Message { ledger, ..share(1) };
    lines.push(line(House::level(5, 1), write(&message)));
    for sums::Refused { n, f, ledger } in sums::totals().into_iter().chain(sums::weights()) {
        let message = Message { ledger, ..share(0) };
        lines.push(line(House::level(n, f), write(&message)));
    }
    lines
}

/// A message of each kind for every cluster.
fn lawful_ones(random: &mut Random) -> Vec<Line> {
    let mut lines = Vec::new();
    for (n, f) in pairs() {
        for kind in [Kind::Request, Kind::Reply, Kind::Share] {
            let config = config_of(random, n, f);
            lines.push(line(config, lawful_one(random, config, kind)));
        }
    }
    lines
}

fn lawful_one(random: &mut Random, config: Config, kind: Kind) -> Vec<u8> {
    loop {
        let mut room = [0; 64];
        let message = lawful::message(random, config, &mut room);
        let bytes = write(&message);
        if message.kind == kind && bytes.len() <= SHORT {
            return bytes;
        }
    }
}

/// Messages refused at every place, and such that have a second fault.
fn refused_ones(random: &mut Random) -> Vec<Line> {
    let places: Vec<Place> = Place::ALL
        .iter()
        .copied()
        .filter(|place| place.is_in_message())
        .collect();
    let mut lines = Vec::new();
    for &place in &places {
        for _ in 0..ONE_FAULT {
            lines.push(refused_one(random, place, None));
        }
        for _ in 0..TWO_FAULTS {
            let also = *random.pick(&places);
            lines.push(refused_one(random, place, Some(also)));
        }
    }
    lines
}

/// A short one, unless the draws bring none.
pub fn refused_one(random: &mut Random, place: Place, also: Option<Place>) -> Line {
    let mut draws = (0..40).map(|_| aimed(random, place, also));
    let first = draws.next().expect("there are 40");
    let short = |drawn: &Aimed| drawn.bytes.len() <= SHORT;
    let Aimed { config, bytes, .. } = match short(&first) {
        true => first,
        false => draws.find(short).unwrap_or(first),
    };
    line(config, bytes)
}

/// The longest messages of some clusters, and the longest of all cut by a byte
/// and a byte longer.
fn longest_ones(random: &mut Random) -> Vec<Line> {
    let mut lines = Vec::new();
    for (n, f) in [(1, 0), (2, 0), (5, 1), (9, 4), (16, 7)] {
        let mut room = [0; 64];
        let config = Config::level(n, f);
        let message = lawful::longest(random, config, &mut room);
        let bytes = write(&message);
        if n == 16 {
            lines.push(line(config, bytes[..bytes.len() - 1].to_vec()));
            lines.push(line(config, [&bytes[..], &[0]].concat()));
        }
        lines.push(line(config, bytes));
    }
    lines
}

/// Cases of the comparison of model and library: lawful, damaged, aimed, noise.
fn any() -> Vec<Line> {
    let cases = (0..).map(|number| Case::draw(SEED, number));
    let short = cases.filter(|case| case.message.len() <= SHORT);
    let lines = short.map(|case| {
        let house = match case.starts == level(case.n) {
            true => House::level(case.n, case.f),
            false => House::with_starts(case.n, case.f, case.starts),
        };
        line(house, case.message)
    });
    lines.take(CASES).collect()
}
