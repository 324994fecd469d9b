//! The numbers handed out: paper 01, "Numbers handed out", and paper 02.

/// A refusal, by its number.
#[derive(Clone, Copy, Debug, PartialEq, Eq)]
pub struct No(pub u8);

impl No {
    pub const BAD_HOUSE: No = No(1);
    pub const CLASH: No = No(6);
    pub const STRAY: No = No(7);
    pub const BUSY: No = No(8);
    pub const IDLE: No = No(9);
    pub const THIN: No = No(10);
    pub const BAD_TRANSFER: No = No(11);
    pub const SPENT: No = No(12);
    pub const NARROW: No = No(13);
    pub const LONG: No = No(14);
    pub const BAD_START: No = No(15);
}
