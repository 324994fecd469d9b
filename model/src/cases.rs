//! The random cases of the comparison: a cluster with its start weights, a
//! message, a server, a map and a block, mixed of lawful messages, aimed and
//! damaged ones, and noise. A case is drawn from a seed and its number alone.

use crate::aim::{aimed, Aimed};
use crate::damage::{change, damage, noise};
use crate::lawful;
use crate::place::Place;
use crate::random::{bad_cluster, block, cluster, server, server_map, Random};
use crate::starts::{self, config};
use crate::weights::Config;
use crate::write::{write_pieces, Piece};

/// What one comparison is made on.
#[derive(Clone, Debug, PartialEq, Eq)]
pub struct Case {
    pub n: u64,
    pub f: u64,
    pub starts: Vec<u64>,
    pub message: Vec<u8>,
    pub server: u64,
    pub map: u64,
    pub block: Vec<u8>,
}

impl Case {
    /// The case of this number among those of the seed.
    pub fn draw(seed: u64, number: u64) -> Case {
        let random = &mut Random::of_case(seed, number);
        let (config, message) = message(random);
        let (n, f, starts) = given(random, config);
        Case {
            n,
            f,
            starts,
            message,
            server: server(random, n),
            map: server_map(random, n),
            block: block(random),
        }
    }
}

/// How the cluster is given: now and then another than the message was made for,
/// out of bounds or with a list that is no lawful one.
fn given(random: &mut Random, config: Config) -> (u64, u64, Vec<u64>) {
    let (n, f, starts) = (config.n() as u64, config.f() as u64, config.starts());
    match random.below(32) {
        0 => {
            let (n, f) = bad_cluster(random);
            (n, f, starts)
        }
        1 => {
            let starts = starts::unlawful(random, n, f);
            let (n, f) = bad_cluster(random);
            (n, f, starts)
        }
        2 => {
            let (n, f) = cluster(random);
            (n, f, starts::lawful(random, n, f))
        }
        3 => (n, random.below(n.div_ceil(2)), starts),
        4 => (n, f, starts::lawful(random, n, f)),
        5..=6 => (n, f, starts::unlawful(random, n, f)),
        _ => (n, f, starts),
    }
}

/// A cluster and bytes to be read there.
fn message(random: &mut Random) -> (Config, Vec<u8>) {
    match random.below(16) {
        0..=5 => {
            let (config, bytes, _) = lawful_message(random);
            (config, bytes)
        }
        6..=8 => {
            let (config, mut bytes, pieces) = lawful_message(random);
            damage(random, &mut bytes, &pieces);
            (config, bytes)
        }
        9..=12 => {
            let place = any_place(random);
            let Aimed {
                config,
                mut bytes,
                pieces,
            } = aimed(random, place, None);
            if random.one_in(8) {
                change(random, &mut bytes, &pieces);
            }
            (config, bytes)
        }
        13 => {
            let (place, also) = (any_place(random), any_place(random));
            let Aimed { config, bytes, .. } = aimed(random, place, Some(also));
            (config, bytes)
        }
        _ => {
            let config = config(random);
            (config, noise(random, config.n() as u64))
        }
    }
}

/// A message that passes, now and then the longest, and its parts.
fn lawful_message(random: &mut Random) -> (Config, Vec<u8>, Vec<Piece>) {
    let config = config(random);
    let mut room = [0; 64];
    let message = match random.below(8) {
        0 => lawful::longest(random, config, &mut room),
        _ => lawful::message(random, config, &mut room),
    };
    let (bytes, pieces) = write_pieces(&message);
    (config, bytes, pieces)
}

/// A place within a message.
fn any_place(random: &mut Random) -> Place {
    loop {
        let place = *random.pick(Place::ALL);
        if place.is_in_message() {
            return place;
        }
    }
}

#[cfg(test)]
mod tests {
    use super::*;

    #[test]
    fn a_case_can_be_drawn_again() {
        for number in 0..100 {
            assert_eq!(Case::draw(7, number), Case::draw(7, number));
            assert_ne!(Case::draw(7, number), Case::draw(8, number));
        }
    }
}
