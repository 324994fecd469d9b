//! Start weights by hall (paper 02, N2) on the model and on the proved library,
//! through C: which lists are lawful, which number comes first, what a fresh
//! record holds, and which records are refused for their lists. A level list
//! gives every answer of paper 01; `paper` has those.

use model::answers::refusal;
use model::format::{Kind, Message};
use model::proved::records::{Config as HouseRecord, Desk, Replica, Server};
use model::proved::{desks, servers};
use model::random::Random;
use model::runs::pace::pairs;
use model::starts::{uneven, unlawful};
use model::weights::{level, Config, Ledger, MOST, MOST_WEIGHT};
use model::write::write;
use model::{answers, proved};

const HOUSE: u8 = 1;
const TORN: u8 = 2;
const LIGHT: u8 = 5;
const THIN: u8 = 10;
const BAD_START: u8 = 15;

/// A share of server 0, of which each gift has a transfer of its own.
fn share(gifts: &[(usize, usize, u32)]) -> Vec<u8> {
    let mut ledger = Ledger::FRESH;
    for &(giver, taker, amount) in gifts {
        ledger.counts[giver] += 1;
        ledger.cells[giver][taker] += amount;
    }
    write(&Message {
        kind: Kind::Share,
        server: 0,
        desk: None,
        round: None,
        register: None,
        ledger,
        note: None,
    })
}

fn both(model: i64, proved: i64) -> i64 {
    let words = "the model on the left, the library on the right";
    assert_eq!(model, proved, "{words}");
    model
}

fn check(n: u64, f: u64, starts: &[u64], msg: &[u8]) -> i64 {
    let model = answers::check(n, f, starts, msg);
    both(model, proved::check(n, f, starts, msg))
}

fn weight(n: u64, f: u64, starts: &[u64], server: u64, msg: &[u8]) -> i64 {
    let model = answers::weight(n, f, starts, server, msg);
    both(model, proved::weight(n, f, starts, server, msg))
}

fn quorum(n: u64, f: u64, starts: &[u64], map: u64, msg: &[u8]) -> i64 {
    let model = answers::quorum(n, f, starts, map, msg);
    both(model, proved::quorum(n, f, starts, map, msg))
}

/// What both openings of the library answer, with numbers that parties have, and
/// check on a fresh share, which all have to be the same. What they hand back is
/// a fresh record with the list, or one that is all 0.
fn opens(n: u64, f: u64, starts: &[u64]) -> i64 {
    let server = servers::open(n, f, 0, starts);
    let desk = desks::open(n, f, 65_535, starts);
    let answer = check(n, f, starts, &share(&[]));
    assert_eq!([server.answer, desk.answer], [answer; 2], "{n} {f}");
    let (mut fresh_server, mut fresh_desk) = (Server::NONE, Desk::NONE);
    if answer == 0 {
        let config = record(n, f, starts);
        fresh_server.config = config;
        fresh_desk.config = config;
        fresh_desk.number = 65_535;
    }
    assert_eq!(server.server, fresh_server);
    assert_eq!(desk.desk, fresh_desk);
    answer
}

/// A record's list, the first of it where it is too long.
fn record(n: u64, f: u64, list: &[u64]) -> HouseRecord {
    let mut starts = [0; MOST];
    for (start, &given) in starts.iter_mut().zip(list) {
        *start = given as u16;
    }
    HouseRecord { n, f, starts }
}

#[test]
fn lists_at_their_edges() {
    for (n, f, starts) in [
        (1, 0, &[1][..]),
        (1, 0, &[16_000]),
        (2, 0, &[1, 1]),
        (2, 0, &[299, 100]),
        (2, 0, &[100, 299]),
        (2, 0, &[8_000, 8_000]),
        (2, 0, &[11_999, 4_001]),
        (5, 1, &[2_496, 626, 626, 626, 626]),
        (16, 7, &[1_000; 16]),
    ] {
        assert_eq!(opens(n, f, starts), 0, "{n} {f} {starts:?}");
    }
    for (n, f, starts) in [
        (1, 0, &[0][..]),
        (1, 0, &[16_001]),
        (2, 0, &[0, 0]),
        (2, 0, &[300, 100]),
        (2, 0, &[100, 300]),
        (2, 0, &[1_000, 0]),
        (2, 0, &[8_000, 8_001]),
        (2, 0, &[12_000, 4_000]),
        (5, 1, &[2_500, 625, 625, 625, 625]),
        (16, 7, &[1_001; 16]),
    ] {
        assert_eq!(
            opens(n, f, starts),
            refusal(BAD_START),
            "{n} {f} {starts:?}"
        );
    }
}

/// Lists one short, one long, empty and far too long, whatever they hold.
#[test]
fn a_list_is_n_long() {
    for (n, f) in pairs() {
        let n_long = n as usize;
        for length in (0..40).chain([255, 256, 257, 65_537]) {
            let expected = match length == n_long {
                true => 0,
                false => refusal(BAD_START),
            };
            assert_eq!(opens(n, f, &vec![1_000; length]), expected, "{n} {length}");
        }
        // Zeros after it are numbers of the list too.
        let mut longer = level(n);
        longer.push(0);
        assert_eq!(opens(n, f, &longer), refusal(BAD_START));
    }
}

/// Entries of 64 bits: none is cut, and no sum wraps.
#[test]
fn sums_do_not_wrap() {
    let half = 1 << 63;
    for starts in [
        [half, half],
        [u64::MAX, 17],
        [17, u64::MAX],
        [u64::MAX, 1_001],
        [u64::MAX - 998, 1_999],
        [u64::MAX, u64::MAX],
        [half + 1_000, half + 1_000],
        [(1 << 16) + 1_000, 1_000],
        [1_000, (1 << 32) + 1_000],
        [1_000, half + 1_000],
    ] {
        assert_eq!(opens(2, 0, &starts), refusal(BAD_START), "{starts:?}");
    }
    for start in [16_001, 65_536 + 1_000, (1 << 32) + 1_000, u64::MAX] {
        assert_eq!(opens(1, 0, &[start]), refusal(BAD_START), "{start}");
    }
    // Sixteen numbers whose sum is 16 when it wraps.
    let sixteenth = (1 << 60) + 1;
    assert_eq!(opens(16, 7, &[sixteenth; 16]), refusal(BAD_START));
}

/// In every cluster: a list that is drawn is on its side of the law, and exactly
/// 16,000 are lawful.
#[test]
fn random_lists() {
    let mut random = Random::new(20);
    let mut heaviest = 0;
    for (n, f) in pairs() {
        for _ in 0..40 {
            let starts = uneven(&mut random, n, f);
            assert_eq!(opens(n, f, &starts), 0, "{n} {f} {starts:?}");
            heaviest += u64::from(starts.iter().sum::<u64>() == MOST_WEIGHT);
            let starts = unlawful(&mut random, n, f);
            assert_eq!(
                opens(n, f, &starts),
                refusal(BAD_START),
                "{n} {f} {starts:?}"
            );
        }
    }
    assert!(heaviest > 100, "{heaviest}");
}

/// 1 for n, f and in opening the own number; then 15; then the message; last 1
/// for a server or map.
#[test]
fn which_number_comes_first() {
    let (good, bad): (&[u64], &[u64]) = (&[299, 100], &[300, 100]);
    for list in [good, bad, &[]] {
        for (n, f) in [(0, 0), (2, 1), (17, 0), (u64::MAX, 0), (2, u64::MAX)] {
            assert_eq!(opens(n, f, list), refusal(HOUSE));
            assert_eq!(check(n, f, list, &[]), refusal(HOUSE));
            assert_eq!(weight(n, f, list, 9, &[]), refusal(HOUSE));
            assert_eq!(quorum(n, f, list, 9, &[]), refusal(HOUSE));
        }
        for number in [2, 3, u64::MAX] {
            let opened = servers::open(2, 0, number, list);
            assert_eq!(
                (opened.answer, opened.server),
                (refusal(HOUSE), Server::NONE)
            );
        }
        for number in [0, 65_536, u64::MAX] {
            let opened = desks::open(2, 0, number, list);
            assert_eq!((opened.answer, opened.desk), (refusal(HOUSE), Desk::NONE));
        }
    }
    let message = share(&[]);
    for list in [bad, &[], &[299], &[299, 100, 0], &[u64::MAX, 17]] {
        for msg in [&[][..], &[0], &[0xFF; 40], &message] {
            assert_eq!(check(2, 0, list, msg), refusal(BAD_START));
            for server in [0, 2, u64::MAX] {
                assert_eq!(weight(2, 0, list, server, msg), refusal(BAD_START));
                assert_eq!(quorum(2, 0, list, server << 2, msg), refusal(BAD_START));
            }
        }
    }
    assert_eq!(check(2, 0, good, &[]), refusal(TORN));
    assert_eq!(weight(2, 0, good, 2, &[]), refusal(TORN));
    assert_eq!(weight(2, 0, good, 2, &message), refusal(HOUSE));
    assert_eq!(quorum(2, 0, good, 4, &message), refusal(HOUSE));
}

/// Weights and margins by a message rest on the list, in every cluster.
#[test]
fn weights_of_messages() {
    let mut random = Random::new(21);
    for (n, f) in pairs() {
        let starts = uneven(&mut random, n, f);
        let total: i64 = starts.iter().sum::<u64>() as i64;
        let config = Config::new(n, f, &starts).expect("it is lawful");
        let fresh = share(&[]);
        for (server, &start) in starts.iter().enumerate() {
            let (server, start) = (server as u64, start as i64);
            assert_eq!(weight(n, f, &starts, server, &fresh), start);
            let alone = quorum(n, f, &starts, 1 << server, &fresh);
            assert_eq!(alone, 2 * start - total);
        }
        assert_eq!(quorum(n, f, &starts, 0, &fresh), -total);
        assert_eq!(quorum(n, f, &starts, (1 << n) - 1, &fresh), total);
        let giver = random.index(starts.len());
        let taker = (giver + 1) % starts.len();
        let spare = config.spare(starts[giver] as i64) as u32;
        if n > 1 && spare > 0 {
            let given = share(&[(giver, taker, spare)]);
            assert_eq!(check(n, f, &starts, &given), 0);
            let rest = weight(n, f, &starts, giver as u64, &given);
            assert_eq!(rest, config.least());
        }
        if n > 1 {
            let more = share(&[(giver, taker, spare + 1)]);
            assert_eq!(check(n, f, &starts, &more), refusal(LIGHT));
        }
    }
}

/// Transfers at the floor of uneven houses: all that can be spared, by what a
/// server started with, and one more.
#[test]
fn transfers_at_the_floor() {
    let mut random = Random::new(22);
    for (n, f) in pairs().into_iter().filter(|(n, _)| *n > 1) {
        for _ in 0..10 {
            let starts = uneven(&mut random, n, f);
            let config = Config::new(n, f, &starts).expect("it is lawful");
            for giver in 0..n {
                let server = servers::open(n, f, giver, &starts).server;
                let spare = config.spare(starts[giver as usize] as i64) as u64;
                let taker = (giver + 1) % n;
                let more = servers::transfer(server, taker, spare + 1);
                assert_eq!((more.answer, more.server), (refusal(THIN), server));
                if spare > 0 {
                    let given = servers::transfer(server, taker, spare);
                    assert_eq!(given.answer, 0);
                    let again = servers::transfer(given.server, taker, 1);
                    assert_eq!(again.answer, refusal(THIN));
                }
            }
        }
    }
}

/// A level list is as none was before: what a call of paper 01 answers in a
/// cluster of n and f, with a ring of gifts by which no weight moves.
#[test]
fn a_level_list() {
    for (n, f) in pairs() {
        let starts = level(n);
        assert_eq!(opens(n, f, &starts), 0);
        let ring: Vec<_> = match n {
            1 => vec![],
            _ => (0..n as usize)
                .map(|i| (i, (i + 1) % n as usize, 9))
                .collect(),
        };
        for message in [share(&[]), share(&ring)] {
            for server in 0..n {
                assert_eq!(weight(n, f, &starts, server, &message), 1_000);
            }
            for map in (0..1 << n).step_by(1 + (1 << n) / 50) {
                let servers = i64::from(u64::count_ones(map));
                let margin = 1_000 * (2 * servers - n as i64);
                assert_eq!(quorum(n, f, &starts, map, &message), margin);
            }
        }
        let desk = desks::begin_read(desks::open(n, f, 7, &starts).desk, 0).desk;
        assert_eq!(desks::margin(desk), -1_000 * n as i64);
    }
}

/// Whether a record's house is lawful and what it holds is not light: n start
/// weights as opening takes them, and zeros from n on.
fn fits(house: &HouseRecord, replica: &Replica) -> bool {
    let Some((starts, after)) = house.starts.split_at_checked(house.n as usize) else {
        return false;
    };
    let starts: Vec<u64> = starts.iter().map(|&start| start.into()).collect();
    let ledger = Ledger {
        counts: replica.ledger.counts,
        cells: replica.ledger.cells,
    };
    match Config::new(house.n, house.f, &starts) {
        Ok(config) => after.iter().all(|start| *start == 0) && !ledger.is_light(config),
        Err(_) => false,
    }
}

/// Every call on a server of this house refuses it with 1, or none does.
fn try_server(server: Server) {
    let expected = match fits(&server.config, &server.replica) {
        true => None,
        false => Some(refusal(HOUSE)),
    };
    let is_1 = |answer: i64| Some(answer).filter(|answer| *answer == refusal(HOUSE));
    let mut out = [0; 1_111];
    let shared = servers::share(server, &mut out, 0);
    assert_eq!(is_1(shared), expected, "{:?}", server.config);
    let given = servers::transfer(server, (server.number + 1) % 16, 1);
    assert_eq!(is_1(given.answer), expected, "{:?}", server.config);
    let served = servers::serve(server, &[], &mut out, 0);
    assert_eq!(is_1(served.answer), expected, "{:?}", server.config);
    if expected.is_some() {
        assert_eq!((given.server, served.server), (server, server));
    }
}

/// The same of a desk.
fn try_desk(desk: Desk) {
    let fits = fits(&desk.config, &desk.replica);
    let mut lent = desk;
    let answers = [
        desks::begin_read(desk, 0).answer,
        desks::begin_write(desk, 0, &[]).answer,
        desks::ask(desk, 0, &mut [0; 1_111], 0),
        desks::hear(desk, &[]).answer,
        desks::hear_lent(&mut lent, &[]),
        desks::result(desk).answer,
        desks::margin(desk),
        desks::drop(desk).answer,
    ];
    for answer in answers {
        assert_eq!(answer == refusal(HOUSE), !fits, "{:?}", desk.config);
    }
    assert_eq!(lent, desk);
}

/// Both parties of a house whose list is put into their records as it is.
fn try_parties(house: HouseRecord, replica: Replica) {
    let number = 0;
    try_server(Server {
        config: house,
        number,
        replica,
    });
    try_desk(Desk {
        config: house,
        number: 7,
        replica,
        ..Desk::NONE
    });
}

/// Records with a list that is damaged: 1, and never 15, unless it is another
/// lawful list by which nobody is light.
#[test]
fn damaged_lists_in_records() {
    let mut random = Random::new(23);
    let (mut lawful, mut refused) = (0, 0);
    for (n, f) in pairs() {
        let starts = uneven(&mut random, n, f);
        let house = record(n, f, &starts);
        let config = Config::new(n, f, &starts).expect("it is lawful");
        let mut replica = Replica::START;
        let spare = config.spare(starts[0] as i64) as u32;
        if n > 1 && spare > 0 {
            replica.ledger.counts[0] = 1;
            replica.ledger.cells[0][1] = spare;
        }
        assert!(fits(&house, &replica));
        try_parties(house, replica);
        // Each bit of the list, also past n.
        for bit in 0..16 * MOST {
            let mut damaged = house;
            damaged.starts[bit / 16] ^= 1 << (bit % 16);
            let sound = fits(&damaged, &replica);
            lawful += u64::from(sound);
            refused += u64::from(!sound);
            try_parties(damaged, replica);
        }
        // Lists that opening refuses, as far as they go into a record.
        for _ in 0..20 {
            let list = unlawful(&mut random, n, f);
            try_parties(record(n, f, &list), Replica::START);
        }
    }
    println!("{lawful} lawful, {refused} refused");
    assert!(lawful > 500 && refused > 10_000);
}

#[test]
fn records_at_the_edges() {
    for (n, f, list, fresh) in [
        (2, 0, &[299, 100][..], true),
        (2, 0, &[300, 100], false),
        (2, 0, &[299, 100, 1], false),
        (2, 0, &[0, 0], false),
        (2, 0, &[399], false),
        (2, 0, &[8_000, 8_000], true),
        (2, 0, &[8_000, 8_001], false),
        (1, 0, &[16_000], true),
        (1, 0, &[16_001], false),
        (1, 0, &[65_535], false),
        (16, 7, &[1_000; 16], true),
        (16, 7, &[65_535; 16], false),
        (0, 0, &[], false),
        (17, 0, &[900; 16], false),
    ] {
        let house = record(n, f, list);
        assert_eq!(fits(&house, &Replica::START), fresh, "{list:?}");
        try_parties(house, Replica::START);
    }
    // Another n or f for the same list.
    for n in [0, 1, 3, 4, 16, 17, u64::MAX] {
        try_parties(record(n, 0, &[299, 100]), Replica::START);
    }
    try_parties(record(3, 1, &[1_000, 600, 600]), Replica::START);
    try_parties(record(3, 0, &[1_000, 600, 600]), Replica::START);
}
