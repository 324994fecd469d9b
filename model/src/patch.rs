//! Changes to one part of a written message: cut there, set to zero or out of
//! range, a field added or left out. `aim` chooses among them by the place of
//! paper 01's "Checks" that is meant. Each gives `None` if the message has no
//! such part.

use std::cmp::Reverse;
use std::ops::Range;

use crate::format::{Message, MOST_PER_TRANSFER};
use crate::random::Random;
use crate::weights::Config;
use crate::write::{Part, Piece};

/// Bytes to be put in the place of others.
pub struct Patch {
    at: Range<usize>,
    with: Vec<u8>,
}

/// Puts all patches in, those further back first, so that none moves another.
pub fn apply(bytes: &mut Vec<u8>, mut patches: Vec<Patch>) {
    patches.sort_by_key(|patch| Reverse(patch.at.start));
    for Patch { at, with } in patches {
        // A cut may have taken some of these bytes, or all.
        let end = at.end.min(bytes.len());
        bytes.splice(at.start.min(end)..end, with);
    }
}

/// A message, lawful but for its weights, with its bytes and their parts.
pub struct Target<'a> {
    pub config: Config,
    pub message: &'a Message<'a>,
    pub bytes: &'a [u8],
    pub pieces: &'a [Piece],
}

impl Target<'_> {
    /// The bytes end before or within the part.
    pub fn cut(&self, random: &mut Random, part: Part) -> Option<Vec<Patch>> {
        let piece = self.find(random, part)?;
        let kept = piece.at.start + random.index(piece.at.len());
        patch(kept..usize::MAX, &[])
    }

    /// Some bytes more, often one.
    pub fn append(&self, random: &mut Random) -> Option<Vec<Patch>> {
        let end = self.bytes.len();
        let more = random.from_one(8) as usize;
        patch(end..end, &random.bytes(more))
    }

    /// Every byte of the part is 0.
    pub fn zero(&self, random: &mut Random, part: Part) -> Option<Vec<Patch>> {
        let piece = self.find(random, part)?;
        replace(piece, &vec![0; piece.at.len()])
    }

    /// A part of one byte from the least that is out of range, often that one.
    pub fn high_byte(&self, random: &mut Random, part: Part, least: u8) -> Option<Vec<Patch>> {
        let byte = often_least(random, least.into(), 255) as u8;
        replace(self.find(random, part)?, &[byte])
    }

    /// The map in front, with these bits added and those left out.
    pub fn fields(&self, added: u16, left_out: u16) -> Option<Vec<Patch>> {
        let map = (self.map_at(0) | added) & !left_out;
        patch(0..2, &map.to_be_bytes())
    }

    /// A field's bit that should not stand, half the time with the field.
    pub fn add_field(
        &self,
        random: &mut Random,
        bit: u16,
        place: usize,
        length: usize,
    ) -> Option<Vec<Patch>> {
        let mut patches = self.fields(bit, 0)?;
        if random.one_in(2) {
            patches.extend(patch(place..place, &random.bytes(length))?);
        }
        Some(patches)
    }

    /// A field's bit that should stand, half the time with the field.
    pub fn drop_field(&self, random: &mut Random, bit: u16, part: Part) -> Option<Vec<Patch>> {
        let mut patches = self.fields(0, bit)?;
        if random.one_in(2) {
            patches.extend(replace(self.find(random, part)?, &[])?);
        }
        Some(patches)
    }

    /// A length over 64, half the time with a value of that length.
    pub fn long_value(&self, random: &mut Random) -> Option<Vec<Patch>> {
        let length = often_least(random, 65, 255) as u8;
        let mut patches = replace(self.find(random, Part::Length)?, &[length])?;
        if random.one_in(2) {
            let value = self.find(random, Part::Value)?;
            patches.extend(replace(value, &random.bytes(length.into()))?);
        }
        Some(patches)
    }

    /// A map's bit of n or more, often n, if a map of 16 bits has one.
    pub fn high_bit(&self, random: &mut Random, part: Part) -> Option<Vec<Patch>> {
        let piece = self.find(random, part)?;
        let n = self.config.n() as u64;
        if n > 15 {
            return None;
        }
        let map = self.map_at(piece.at.start) | 1 << often_least(random, n, 15);
        replace(piece, &map.to_be_bytes())
    }

    /// A cell map with the bit of the row's own giver.
    pub fn own_cell(&self, random: &mut Random) -> Option<Vec<Patch>> {
        let piece = self.find(random, Part::CellMap)?;
        let map = self.map_at(piece.at.start) | 1 << piece.giver;
        replace(piece, &map.to_be_bytes())
    }

    /// A count above the row's total, often by one.
    pub fn high_count(&self, random: &mut Random) -> Option<Vec<Patch>> {
        let piece = self.find(random, Part::Count)?;
        let least = self.total(piece.giver) + 1;
        if least > u16::MAX.into() {
            return None;
        }
        let count = often_least(random, least, u16::MAX.into()) as u16;
        replace(piece, &count.to_be_bytes())
    }

    /// A cell with which the row's total is above 16,000 × count, often by one.
    pub fn high_cell(&self, random: &mut Random) -> Option<Vec<Patch>> {
        let piece = self.find(random, Part::Cell)?;
        let ledger = &self.message.ledger;
        let others = self.total(piece.giver) - u64::from(ledger.cells[piece.giver][piece.taker]);
        let least = MOST_PER_TRANSFER * u64::from(ledger.counts[piece.giver]) - others + 1;
        let most = match random.below(2) {
            0 => least + 20_000,
            _ => u32::MAX.into(),
        };
        let cell = often_least(random, least, most) as u32;
        replace(piece, &cell.to_be_bytes())
    }

    /// One of the parts of this sort that aren't empty, if there is one.
    fn find(&self, random: &mut Random, part: Part) -> Option<&Piece> {
        let fits = |piece: &&Piece| piece.part == part && !piece.at.is_empty();
        let times = self.pieces.iter().filter(fits).count();
        if times == 0 {
            return None;
        }
        self.pieces.iter().filter(fits).nth(random.index(times))
    }

    /// The map that begins at a place.
    fn map_at(&self, start: usize) -> u16 {
        u16::from_be_bytes([self.bytes[start], self.bytes[start + 1]])
    }

    fn total(&self, giver: usize) -> u64 {
        let row = &self.message.ledger.cells[giver];
        row.iter().map(|&amount| u64::from(amount)).sum()
    }
}

fn patch(at: Range<usize>, with: &[u8]) -> Option<Vec<Patch>> {
    let with = with.to_vec();
    Some(vec![Patch { at, with }])
}

fn replace(piece: &Piece, with: &[u8]) -> Option<Vec<Patch>> {
    patch(piece.at.clone(), with)
}

/// A number between two, both included, and half the time the lower one.
fn often_least(random: &mut Random, least: u64, most: u64) -> u64 {
    match random.below(2) {
        0 => least,
        _ => random.within(least, most),
    }
}
