//! Runs in which messages are damaged or forged before they are served or
//! heard. The model over counts and cells predicts each answer; and a refused
//! or late call leaves the record as it was, which is shown afterwards, and
//! before it too where the message is forged.

use super::forge::forge;
use super::pace::Pace;
use super::player::{Player, Run, ROOMY};
use super::script::Source;
use super::seen::shown;
use super::store::Store;
use crate::machine::command::Command;
use crate::machine::server::Room;
use crate::machine::sheet::Party;
use crate::random::Random;

/// Plays the damaged run of this number, and counts by words what came of each
/// forged message.
pub fn draw_damaged(
    seed: u64,
    number: u64,
    store: &mut dyn Store,
    count: &mut dyn FnMut(String),
) -> Run {
    let mut random = Random::of_case(!seed, number);
    let mut pace = Pace::draw(&mut random, number);
    pace.early = false;
    pace.steps = random.within(60, 400);
    // With more desks than the program keeps, none would be forged for.
    pace.desks.truncate(4);
    let house = pace.house.clone();
    let mut player = Player::new(random, pace, store);
    player.give(Command::House { house });
    while player.goes_on() {
        if player.random.one_in(2) {
            player.happen();
            player.show_untaken();
        } else if let Some(words) = forged_step(&mut player) {
            count(words);
        }
        player.aside();
    }
    player.finish()
}

/// A party is shown, gets a forged message, and is shown again.
fn forged_step(player: &mut Player) -> Option<String> {
    let at_work = player.known.at_work();
    let (party, number) = if !at_work.is_empty() && !player.random.one_in(3) {
        (Party::Desk, *player.random.pick(&at_work))
    } else if player.random.one_in(8) {
        (Party::Desk, player.any_desk())
    } else {
        let alive = player.known.alive();
        if alive.is_empty() {
            return None;
        }
        let server = *player.random.pick(&alive);
        (Party::Server(server as usize), server)
    };
    let record = match party {
        Party::Server(_) => Command::RecordServer { server: number },
        Party::Desk => Command::RecordDesk { desk: number },
    };
    let held = shown(&player.give(record.clone()).0)?;
    let forged = forge(
        &mut player.random,
        player.known.config,
        party,
        number,
        &held,
    );
    let message = Source::Bytes(forged.bytes);
    let room = match player.random.below(8) {
        0 => Room {
            at: 0,
            len: player.random.below(40),
        },
        1 => Room { at: 9, len: 8 },
        _ => ROOMY,
    };
    let (call, command) = match party {
        Party::Server(_) => (
            "serve",
            Command::Serve {
                server: number,
                room,
                message,
            },
        ),
        Party::Desk => (
            "hear",
            Command::Hear {
                desk: number,
                message,
            },
        ),
    };
    let (answer, post) = player.give(command);
    player.known.flying.extend(post);
    player.give(record);
    let answer = match answer.split(' ').next() {
        Some("ok") => "accepted",
        _ => &answer,
    };
    Some(format!("{call}: {answer}: {}", forged.words))
}
