//! A run, drawn from a seed and its number by what a store answers.

use super::pace::{house, Pace};
use super::player::{Player, Run, ROOMY};
use super::script::Source;
use super::store::Store;
use crate::machine::command::{Command, House};
use crate::machine::desk::Task;
use crate::machine::program::MOST_DESKS;
use crate::random::Random;

/// Plays the run of this number among those of the seed.
pub fn draw(seed: u64, number: u64, store: &mut dyn Store) -> Run {
    let mut random = Random::of_case(seed, number);
    let pace = Pace::draw(&mut random, number);
    play(random, pace, store)
}

/// Plays a run of this pace.
pub fn play(random: Random, pace: Pace, store: &mut dyn Store) -> Run {
    let first = pace.house.clone();
    let mut player = Player::new(random, pace, store);
    if player.pace.early {
        early(&mut player);
    }
    player.give(Command::House {
        house: first.clone(),
    });
    if player.pace.desks.len() >= MOST_DESKS {
        for desk in player.pace.desks.clone() {
            player.give(Command::RecordDesk { desk });
        }
    }
    while player.goes_on() {
        player.happen();
        if player.random.one_in(8) {
            player.show_untaken();
        }
        player.aside();
        // Seldom a new cluster takes the place of the old.
        if player.random.one_in(2_000) {
            let house = house(&mut player.random, first.n, first.f);
            player.give(Command::House { house });
        }
    }
    player.finish()
}

/// Lines before there is a house.
fn early(player: &mut Player) {
    let desk = player.any_desk();
    let server = player.any_server();
    let message = Source::Bytes(vec![0, 3]);
    let commands = [
        Command::Begin {
            desk,
            task: Task::Read,
            note: 0,
        },
        Command::Ask {
            desk,
            server,
            room: ROOMY,
        },
        Command::Share {
            server,
            room: ROOMY,
        },
        Command::Serve {
            server,
            room: ROOMY,
            message: message.clone(),
        },
        Command::Hear { desk, message },
        Command::Result { desk },
        Command::Drop { desk },
        Command::Transfer {
            giver: server,
            taker: 0,
            amount: 1,
        },
        Command::Crash { server },
        Command::RecordServer { server },
        Command::RecordDesk { desk },
        Command::level(0, 0),
        Command::House {
            house: House::with_starts(2, 0, vec![300, 100]),
        },
    ];
    for command in commands {
        if player.random.one_in(2) {
            player.give(command);
        }
        player.aside();
    }
    for _ in 0..player.random.below(3) {
        player.of_message();
    }
}
