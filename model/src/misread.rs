//! Message checkers that misread paper 02, N2, each in one place. The cases of
//! the comparison have to tell each of them from the model.

use crate::answers::{self, open, refusal};
use crate::calls::Calls;
use crate::format::read;
use crate::place::Place;
use crate::weights::{level, Config, Ledger, MOST_WEIGHT, START};

/// Each with what it does, in words.
pub const MISREAD: &[(&str, Calls)] = &[
    ("tests the list after the message", LATE_LIST),
    ("tests server and map before the list", LATE_LIST_AFTER_ALL),
    ("tests the list before n and f", row::<ListFirst>()),
    ("takes a start weight at the floor", row::<AtFloor>()),
    ("refuses a sum of 16,000", row::<BelowMost>()),
    ("lets the sum wrap", row::<Wraps>()),
    ("cuts start weights to 16 bits", row::<Cuts>()),
    ("takes a list that is too long", row::<TooLong>()),
    ("has zeros for what a list lacks", row::<TooShort>()),
    ("has the floor of level servers for a sheet", LEVEL_FLOOR),
    ("has the half of level servers for a quorum", LEVEL_HALF),
    ("weighs 1,000 by a fresh sheet", LEVEL_FRESH),
];

/// How a checker makes a cluster of what it is given.
pub trait Opens {
    fn open(n: u64, f: u64, starts: &[u64]) -> Result<Config, Place>;
}

/// A checker that is right but for how it makes a cluster.
const fn row<O: Opens>() -> Calls {
    Calls {
        check: |n, f, starts, msg| match O::open(n, f, starts) {
            Ok(config) => read(config, msg).map_or_else(|fault| refusal(fault.number), |_| 0),
            Err(place) => refusal(place.number()),
        },
        weight: |n, f, starts, server, msg| match O::open(n, f, starts) {
            Ok(config) => match read(config, msg) {
                Ok(_) if server >= n => refusal(1),
                Ok(message) => message.ledger.weights(config)[server as usize],
                Err(fault) => refusal(fault.number),
            },
            Err(place) => refusal(place.number()),
        },
        quorum: |n, f, starts, map, msg| match O::open(n, f, starts) {
            Ok(config) => match read(config, msg) {
                Ok(_) if !config.names_servers(map) => refusal(1),
                Ok(message) => message.ledger.margin(config, map as u16),
                Err(fault) => refusal(fault.number),
            },
            Err(place) => refusal(place.number()),
        },
        seats: answers::seats,
    }
}

/// The list is tested before n and f.
struct ListFirst;

impl Opens for ListFirst {
    fn open(n: u64, f: u64, starts: &[u64]) -> Result<Config, Place> {
        if starts.len() as u64 != n {
            return Err(Place::StartsLength);
        }
        Config::new(n, f, starts)
    }
}

/// A start weight exactly at the floor is lawful.
pub struct AtFloor;

impl Opens for AtFloor {
    fn open(n: u64, f: u64, starts: &[u64]) -> Result<Config, Place> {
        match Config::new(n, f, starts) {
            Err(Place::StartsFloor) => {}
            opened => return opened,
        }
        let total: u64 = starts.iter().sum();
        let reached = |start: &u64| start * 2 * (n - f) >= total;
        match starts.iter().all(reached) {
            true => Ok(Config::untested(n as usize, f as usize, starts)),
            false => Err(Place::StartsFloor),
        }
    }
}

/// The sum has to stay below 16,000.
struct BelowMost;

impl Opens for BelowMost {
    fn open(n: u64, f: u64, starts: &[u64]) -> Result<Config, Place> {
        match Config::new(n, f, starts)? {
            config if config.total() == MOST_WEIGHT as i64 => Err(Place::StartsSum),
            config => Ok(config),
        }
    }
}

/// Numbers are added before they are looked at, and the sum wraps.
struct Wraps;

impl Opens for Wraps {
    fn open(n: u64, f: u64, starts: &[u64]) -> Result<Config, Place> {
        let opened = Config::new(n, f, starts);
        let sum = |sum: u64, start: &u64| sum.wrapping_add(*start);
        match starts.iter().fold(0, sum) <= MOST_WEIGHT && opened == Err(Place::StartsSum) {
            true => Ok(Config::untested(n as usize, f as usize, starts)),
            false => opened,
        }
    }
}

/// Of each number only 16 bits are looked at.
struct Cuts;

impl Opens for Cuts {
    fn open(n: u64, f: u64, starts: &[u64]) -> Result<Config, Place> {
        let cut: Vec<u64> = starts.iter().map(|start| start & 0xFFFF).collect();
        Config::new(n, f, &cut)
    }
}

/// Of a list that is too long the first n are taken.
struct TooLong;

impl Opens for TooLong {
    fn open(n: u64, f: u64, starts: &[u64]) -> Result<Config, Place> {
        let most = starts.len().min(n.try_into().unwrap_or(usize::MAX));
        Config::new(n, f, &starts[..most])
    }
}

/// A list that is too short has zeros at its end, which nobody tests.
struct TooShort;

impl Opens for TooShort {
    fn open(n: u64, f: u64, starts: &[u64]) -> Result<Config, Place> {
        match Config::new(n, f, starts) {
            Err(Place::StartsLength) if (starts.len() as u64) < n => {
                Ok(Config::untested(n as usize, f as usize, starts))
            }
            opened => opened,
        }
    }
}

/// The number of a message's checks but for light, which need no list.
fn early_fault(n: u64, f: u64, msg: &[u8]) -> Option<i64> {
    let config = Config::new(n, f, &level(n)).ok()?;
    let fault = read(config, msg).err()?;
    (fault.place != Place::Light).then(|| refusal(fault.number))
}

/// The list is tested after the message is read.
const LATE_LIST: Calls = Calls {
    check: |n, f, starts, msg| {
        early_fault(n, f, msg).unwrap_or_else(|| answers::check(n, f, starts, msg))
    },
    weight: |n, f, starts, server, msg| {
        early_fault(n, f, msg).unwrap_or_else(|| answers::weight(n, f, starts, server, msg))
    },
    quorum: |n, f, starts, map, msg| {
        early_fault(n, f, msg).unwrap_or_else(|| answers::quorum(n, f, starts, map, msg))
    },
    seats: answers::seats,
};

/// A server or map out of bounds is found before the list is tested.
const LATE_LIST_AFTER_ALL: Calls = Calls {
    weight: |n, f, starts, server, msg| {
        let weight = answers::weight(n, f, starts, server, msg);
        match weight == refusal(15) && server >= n {
            true => refusal(1),
            false => weight,
        }
    },
    quorum: |n, f, starts, map, msg| {
        let margin = answers::quorum(n, f, starts, map, msg);
        match margin == refusal(15) && map >> n != 0 {
            true => refusal(1),
            false => margin,
        }
    },
    ..row::<Right>()
};

/// A cluster as it should be made.
struct Right;

impl Opens for Right {
    fn open(n: u64, f: u64, starts: &[u64]) -> Result<Config, Place> {
        Config::new(n, f, starts)
    }
}

/// Whether a weight is above the floor where all servers start at 1,000.
fn above_level_floor(config: Config, weight: i64) -> bool {
    let level = Config::level(config.n() as u64, config.f() as u64);
    level.above_floor(weight)
}

/// Light goes by 1,000 for each server.
const LEVEL_FLOOR: Calls = Calls {
    check: |n, f, starts, msg| match open(n, f, starts, msg) {
        Ok((config, message)) => {
            let weights = message.ledger.weights(config);
            let above = |&weight: &i64| above_level_floor(config, weight);
            match weights[..config.n()].iter().all(above) {
                true => 0,
                false => refusal(Place::Light.number()),
            }
        }
        Err(fault) => refusal(fault.number),
    },
    ..row::<Right>()
};

/// A quorum has more than half of 1,000 for each server.
const LEVEL_HALF: Calls = Calls {
    quorum: |n, f, starts, map, msg| match open(n, f, starts, msg) {
        Ok((config, message)) if config.names_servers(map) => {
            let margin = message.ledger.margin(config, map as u16);
            margin + config.total() - i64::from(START) * config.n() as i64
        }
        _ => answers::quorum(n, f, starts, map, msg),
    },
    ..row::<Right>()
};

/// By a message without a sheet each server weighs 1,000.
const LEVEL_FRESH: Calls = Calls {
    weight: |n, f, starts, server, msg| match open(n, f, starts, msg) {
        Ok((_, message)) if message.ledger == Ledger::FRESH && server < n => START.into(),
        _ => answers::weight(n, f, starts, server, msg),
    },
    ..row::<Right>()
};
