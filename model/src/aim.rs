//! Messages refused at one place that is chosen beforehand: a lawful message
//! with the part for that place cut, set out of range, added or left out. The
//! places are those of paper 01's "Checks". A second place may be aimed at in
//! the same message, to see that the earlier test decides.

use crate::format::{field, Kind, Message};
use crate::lawful;
use crate::patch::{apply, Patch, Target};
use crate::place::Place;
use crate::random::Random;
use crate::starts::config;
use crate::weights::Config;
use crate::write::{write_pieces, Part, Piece};

/// A cluster and bytes that are refused there. The pieces are those of the
/// message before it was changed.
pub struct Aimed {
    pub config: Config,
    pub bytes: Vec<u8>,
    pub pieces: Vec<Piece>,
}

/// A message with a cause of refusal at the place, which is any in a message,
/// and also at a second place if the message has the parts for it. Messages are
/// drawn until one has the parts that the first place needs.
pub fn aimed(random: &mut Random, place: Place, also: Option<Place>) -> Aimed {
    assert!(place.is_in_message(), "no message is refused there");
    loop {
        let config = config(random);
        let mut room = [0; 64];
        let mut message = lawful::message(random, config, &mut room);
        if config.n() > 1 && (place == Place::Light || also == Some(Place::Light)) {
            lawful::make_light(random, config, &mut message.ledger);
        }
        let (mut bytes, pieces) = write_pieces(&message);
        let target = Target {
            config,
            message: &message,
            bytes: &bytes,
            pieces: &pieces,
        };
        if let Some(mut first) = patches(&target, random, place) {
            let more = also.and_then(|also| patches(&target, random, also));
            first.extend(more.unwrap_or_default());
            apply(&mut bytes, first);
            return Aimed {
                config,
                bytes,
                pieces,
            };
        }
    }
}

/// The bytes of a lawful message with a cause of refusal at the place, or `None`
/// if the message lacks a part for it. The cluster and the weights are no part.
pub fn aimed_in(
    random: &mut Random,
    config: Config,
    message: &Message,
    place: Place,
) -> Option<Vec<u8>> {
    if place == Place::Light {
        return None;
    }
    let (mut bytes, pieces) = write_pieces(message);
    let target = Target {
        config,
        message,
        bytes: &bytes,
        pieces: &pieces,
    };
    let patches = patches(&target, random, place)?;
    apply(&mut bytes, patches);
    Some(bytes)
}

/// What to change in a lawful message so that it is refused at the place, or
/// `None` if the message lacks a part for it.
fn patches(target: &Target, random: &mut Random, place: Place) -> Option<Vec<Patch>> {
    let n = target.config.n() as u8;
    let share = target.message.kind == Kind::Share;
    let end = target.bytes.len();
    match place {
        Place::House => None,
        Place::StartsLength | Place::StartsSum | Place::StartsFloor => None,

        Place::TornMap => target.cut(random, Part::Map),
        Place::TornKind => target.cut(random, Part::Kind),
        Place::TornServer => target.cut(random, Part::Server),
        Place::TornDesk => target.cut(random, Part::Desk),
        Place::TornRound => target.cut(random, Part::Round),
        Place::TornStamp => target.cut(random, Part::Stamp),
        Place::TornTagDesk => target.cut(random, Part::TagDesk),
        Place::TornLength => target.cut(random, Part::Length),
        Place::TornValue => target.cut(random, Part::Value),
        Place::TornRowMap => target.cut(random, Part::RowMap),
        Place::TornCount => target.cut(random, Part::Count),
        Place::TornCellMap => target.cut(random, Part::CellMap),
        Place::TornCell => target.cut(random, Part::Cell),
        Place::TornNote => target.cut(random, Part::Note),
        Place::LeftOver => target.append(random),

        Place::HighMapBits => target.fields(1 << random.within(7, 15), 0),
        Place::NoKind => target.fields(0, field::KIND),
        Place::NoServer => target.fields(0, field::SERVER),
        Place::ShareWithDesk if share => target.add_field(random, field::DESK, 4, 2),
        Place::ShareWithRound if share => target.add_field(random, field::ROUND, 4, 4),
        Place::ShareWithNote if share => target.add_field(random, field::NOTE, end, 4),
        Place::ShareWithDesk | Place::ShareWithRound | Place::ShareWithNote => None,
        Place::NoDesk if !share => target.drop_field(random, field::DESK, Part::Desk),
        Place::NoRound if !share => target.drop_field(random, field::ROUND, Part::Round),
        Place::NoDesk | Place::NoRound => None,

        Place::KindZero => target.zero(random, Part::Kind),
        Place::KindOverThree => target.high_byte(random, Part::Kind, 4),
        Place::ServerRange => target.high_byte(random, Part::Server, n),
        Place::DeskZero => target.zero(random, Part::Desk),
        Place::RoundZero => target.zero(random, Part::Round),
        Place::StampZero => target.zero(random, Part::Stamp),
        Place::TagDeskZero => target.zero(random, Part::TagDesk),
        Place::LengthOver64 => target.long_value(random),
        Place::RowMapZero => target.zero(random, Part::RowMap),
        Place::RowMapRange => target.high_bit(random, Part::RowMap),
        Place::CountZero => target.zero(random, Part::Count),
        Place::CellMapZero => target.zero(random, Part::CellMap),
        Place::CellMapRange => target.high_bit(random, Part::CellMap),
        Place::OwnCell => target.own_cell(random),
        Place::CellZero => target.zero(random, Part::Cell),
        Place::TotalBelow => target.high_count(random),
        Place::TotalAbove => target.high_cell(random),
        Place::NoteZero => target.zero(random, Part::Note),

        // The message was made light before it was written.
        Place::Light => (n > 1).then(Vec::new),
    }
}

#[cfg(test)]
mod tests {
    use super::*;
    use crate::format::read;

    #[test]
    fn each_place_is_hit() {
        let mut random = Random::new(3);
        for &place in Place::ALL.iter().filter(|place| place.is_in_message()) {
            for _ in 0..500 {
                let Aimed { config, bytes, .. } = aimed(&mut random, place, None);
                let found = read(config, &bytes).err().map(|fault| fault.place);
                assert_eq!(found, Some(place), "{config:?} {bytes:02X?}");
            }
        }
    }
}
