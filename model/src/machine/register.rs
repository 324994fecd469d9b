//! Tags, registers and pairs: paper 01, "Sheets", last paragraph. A pair is what
//! a server or a desk holds and what every message carries.

use std::rc::Rc;

use super::sheet::Sheet;

/// A tag, compared stamp first.
#[derive(Clone, Copy, Debug, Default, PartialEq, Eq, PartialOrd, Ord)]
pub struct Tag {
    pub stamp: u32,
    pub desk: u16,
}

/// A tag and a value.
#[derive(Clone, Debug, PartialEq, Eq)]
pub struct Register {
    pub tag: Tag,
    pub value: Rc<[u8]>,
}

impl Register {
    /// Tag (0, 0), value empty.
    pub fn start() -> Register {
        Register {
            tag: Tag::default(),
            value: Rc::new([]),
        }
    }

    /// The one with the higher tag.
    pub fn higher(&self, other: &Register) -> Register {
        if other.tag > self.tag {
            other.clone()
        } else {
            self.clone()
        }
    }
}

/// A sheet and a register.
#[derive(Clone, Debug, PartialEq, Eq)]
pub struct Pair<S> {
    pub sheet: S,
    pub register: Register,
}

impl<S: Sheet> Pair<S> {
    pub fn fresh() -> Pair<S> {
        Pair {
            sheet: S::fresh(),
            register: Register::start(),
        }
    }

    /// The sheets joined, and the register with the higher tag.
    pub fn join(&self, other: &Pair<S>) -> Pair<S> {
        Pair {
            sheet: self.sheet.join(&other.sheet),
            register: self.register.higher(&other.register),
        }
    }
}
