//! Sections taken from runs of a whole cluster: of all its lines those of one
//! server, or of one desk, the messages of the others as bytes. What a party
//! answers hangs on its own lines alone, so the answers are those of the run.

use std::collections::BTreeSet;

use super::kinds::kind;
use super::line::Line;
use super::SEED;
use crate::machine::calls::Right;
use crate::machine::command::Command;
use crate::machine::program::Program;
use crate::random::Random;
use crate::runs::damaged::draw_damaged;
use crate::runs::drawn::play;
use crate::runs::pace::{pairs, Pace};
use crate::runs::player::Run;
use crate::runs::script::Turn;
use crate::runs::seen::{margin, shown};
use crate::weights::{Config, Ledger};

/// Whose lines are taken.
#[derive(Clone, Copy, Debug, PartialEq, Eq)]
pub enum Party {
    Server(u64),
    Desk(u64),
}

/// The parties of a run among which one is chosen: `servers` or `desks`.
pub type Parties = fn(&Run) -> Vec<Party>;

/// Of so many runs the richest section is taken.
const RUNS: usize = 12;

/// Of calls that only write a message, so many in a row are taken.
const MOST_IN_ROW: usize = 2;

/// The number of a run with the pair of this place in `pairs`, one for each
/// `again`: every fourth run is of another sort and has a pair of its own.
fn run_number(place: usize, again: usize) -> u64 {
    let turn = (place + again * pairs().len()) as u64;
    turn + turn / 3
}

fn model() -> Program<Ledger, Right> {
    Program::new(Right)
}

/// A party of the pair's cluster to which only what was sent comes.
pub fn ordinary_day(pair: (u64, u64), parties: Parties, bytes: usize) -> Vec<Line> {
    let place = pairs().iter().position(|other| *other == pair);
    let place = place.expect("it is a pair");
    let runs: Vec<_> = (0..RUNS).map(|again| ordinary(place, again)).collect();
    richest(&runs, parties, bytes)
}

/// A party of a cluster, by its place in `pairs`, to which forged messages come
/// too.
pub fn among_forged(place: usize, parties: Parties, bytes: usize) -> Vec<Line> {
    let runs: Vec<_> = (0..RUNS).map(|again| forged(place, again)).collect();
    richest(&runs, parties, bytes)
}

/// A run of the pair in which messages are forged or damaged.
fn forged(place: usize, again: usize) -> Run {
    draw_damaged(SEED, run_number(place, again), &mut model(), &mut |_| {})
}

/// A run of the pair in which nobody forges, misuses or crashes.
fn ordinary(place: usize, again: usize) -> Run {
    let number = run_number(place, again);
    let mut random = Random::of_case(SEED, number);
    let mut pace = Pace::draw(&mut random, number);
    pace.desks.truncate(3);
    pace.steps = 400;
    (pace.transfers, pace.calm, pace.pours, pace.shares) = (15, 0, 0, 10);
    (pace.crashes, pace.drops, pace.misuses, pace.helpers) = (0, 0, 0, 0);
    (pace.dressed, pace.early) = (false, false);
    play(random, pace, &mut model())
}

/// Of all parties of these runs that are of one sort, the section that is worth
/// the most in so many bytes. It ends with the party's record.
fn richest(runs: &[Run], parties: Parties, bytes: usize) -> Vec<Line> {
    let mut best = (0, 0);
    let mut section = Vec::new();
    for run in runs {
        for party in parties(run) {
            let turns = cut(of_party(&run.turns, party), bytes);
            let worth = worth(&turns);
            if worth > best {
                best = worth;
                let turns = with_margins(turns, &run.turns, party);
                section = turns.into_iter().map(line).collect();
                if section.last() != Some(&record(party)) {
                    section.push(record(party));
                }
            }
        }
    }
    section
}

/// The turns of a party with the margins that the run asks it for between them,
/// where some have answered, each number once. Nothing hangs on these, so they
/// are put in when the others are chosen.
fn with_margins<'a>(mut turns: Vec<&'a Turn>, run: &'a [Turn], party: Party) -> Vec<&'a Turn> {
    let end = turns.last().map_or(0, |last| last.number);
    let config = run.iter().find_map(accepted_house);
    let mut told = BTreeSet::from([-config.map_or(0, Config::total)]);
    let mut is_new = |turn: &&Turn| match turn.command {
        Command::Margin { desk } if party == Party::Desk(desk) => {
            margin(turn.answer()).is_some_and(|margin| told.insert(margin))
        }
        _ => false,
    };
    let before = run.iter().take_while(|turn| turn.number < end);
    turns.extend(before.filter(|turn| is_new(turn)));
    turns.sort_by_key(|turn| turn.number);
    turns
}

/// How many kinds of lines and answers there are, and twice the operations that
/// came to an end; then how many lines.
fn worth(turns: &[&Turn]) -> (usize, usize) {
    let kinds = turns.iter().map(|turn| kind(&plain(turn), turn.answer()));
    let kinds: Vec<String> = kinds.collect();
    let is_result = |kind: &&String| kind.starts_with("result: a ");
    let results = kinds.iter().filter(is_result).count();
    let different = kinds.into_iter().collect::<BTreeSet<_>>().len();
    (different + 2 * results, turns.len())
}

/// The line that shows a party.
fn record(party: Party) -> Line {
    match party {
        Party::Server(server) => Command::RecordServer { server },
        Party::Desk(desk) => Command::RecordDesk { desk },
    }
}

/// The servers of a run's cluster.
pub fn servers(run: &Run) -> Vec<Party> {
    let config = run.turns.iter().find_map(accepted_house);
    let n = config.map_or(0, Config::n) as u64;
    (0..n).map(Party::Server).collect()
}

/// The desks that a run names.
pub fn desks(run: &Run) -> Vec<Party> {
    let desks = run.turns.iter().filter_map(|turn| turn.command.desk());
    let lawful: BTreeSet<u64> = desks.filter(|desk| is_desk(*desk)).collect();
    lawful.into_iter().map(Party::Desk).collect()
}

fn is_desk(desk: u64) -> bool {
    (1..=65_535).contains(&desk)
}

/// The cluster of a house that was opened.
fn accepted_house(turn: &Turn) -> Option<Config> {
    match &turn.command {
        Command::House { house } if turn.answer() == "ok" => house.config().ok(),
        _ => None,
    }
}

/// The turns of a party, from the first house to the next, or to where the
/// party crashes.
fn of_party(turns: &[Turn], party: Party) -> Vec<&Turn> {
    let mut kept: Vec<&Turn> = Vec::new();
    let mut open = None;
    for turn in turns {
        if crashes(turn, party) || open.is_some() && accepted_house(turn).is_some() {
            break;
        }
        open = open.or(accepted_house(turn));
        let n = open.map_or(0, Config::n) as u64;
        if is_about(turn, party, n) && !says_no_more(&kept, turn) {
            kept.push(turn);
        }
    }
    kept
}

fn crashes(turn: &Turn, party: Party) -> bool {
    let Command::Crash { server } = turn.command else {
        return false;
    };
    party == Party::Server(server)
}

/// Whether a line is the party's, or names nobody. Lines that a store does not
/// answer by itself are nobody's, and margins are put in later.
fn is_about(turn: &Turn, party: Party, n: u64) -> bool {
    if matches!(turn.answer(), "" | "what" | "bounds" | "crashed") {
        return false;
    }
    match (&turn.command, party) {
        (Command::House { .. }, _) => true,
        (Command::Crash { .. } | Command::Margin { .. }, _) => false,
        (command, Party::Server(own)) => command
            .server()
            .is_some_and(|server| server == own || server >= n),
        (command, Party::Desk(own)) => command
            .desk()
            .is_some_and(|desk| desk == own || !is_desk(desk)),
    }
}

/// Whether a turn adds nothing to those before it: a record with nothing new in
/// it, or one more message written by a party that did nothing else.
fn says_no_more(kept: &[&Turn], turn: &Turn) -> bool {
    let is_record = |turn: &&&Turn| shown(turn.answer()).is_some();
    let is_same_call = |other: &&Turn| match turn.command {
        Command::Ask { .. } => matches!(other.command, Command::Ask { .. }),
        Command::Share { .. } => matches!(other.command, Command::Share { .. }),
        _ => false,
    };
    if is_record(&&turn) {
        let last = kept.iter().rfind(is_record);
        return last.is_some_and(|last| news(last) == news(turn));
    }
    let last = kept.iter().rev().take(MOST_IN_ROW);
    last.filter(|other| is_same_call(other)).count() == MOST_IN_ROW
}

/// What is looked at in a record: all that is held, and of a desk its round and
/// whether an operation runs. Which servers answered shows when a phase ends.
fn news(turn: &Turn) -> Option<impl PartialEq> {
    let held = shown(turn.answer())?;
    let desk = held.desk.map(|desk| (desk.round, desk.mode));
    Some((held.tag, held.value, held.ledger, desk))
}

/// As many turns from the front as have room, line and answer, in so many bytes.
fn cut(turns: Vec<&Turn>, bytes: usize) -> Vec<&Turn> {
    let mut sum = 0;
    let fits = |turn: &&Turn| {
        sum += plain(turn).len() + turn.answer().len() + 2;
        sum <= bytes
    };
    turns.into_iter().take_while(fits).collect()
}

/// The line as it is written plainly.
fn plain(turn: &Turn) -> String {
    turn.command.line(|message| &message.bytes)
}

/// The line with its message as bytes.
pub fn line(turn: &Turn) -> Line {
    let command = turn
        .command
        .with_message(|message| Some(message.bytes.clone()));
    command.expect("every message has bytes")
}
