//! Every place and cause at which a message is refused, finer than the number
//! that is handed out: paper 01, "Message bytes" (the paragraph "Checks") and
//! "Numbers handed out"; before these the start weights of paper 02, N2. A
//! fault's number follows from its place.

/// Where a message was refused, and by which number.
#[derive(Clone, Copy, Debug, PartialEq, Eq)]
pub struct Fault {
    pub number: u8,
    pub place: Place,
}

impl From<Place> for Fault {
    fn from(place: Place) -> Fault {
        Fault {
            number: place.number(),
            place,
        }
    }
}

impl Place {
    /// Whether it is in the message, and not in what the cluster is given by.
    pub fn is_in_message(self) -> bool {
        !matches!(self.number(), 1 | 15)
    }
}

/// Makes the enum, the list of its members and their numbers from one table.
macro_rules! places {
    ($($number:literal $name:ident $words:literal)*) => {
        /// A place and cause of refusal, in the order of the table.
        #[derive(Clone, Copy, Debug, PartialEq, Eq, PartialOrd, Ord, Hash)]
        pub enum Place { $(#[doc = $words] $name,)* }

        impl Place {
            pub const ALL: &'static [Place] = &[$(Place::$name),*];

            /// The number that is handed out for it.
            pub const fn number(self) -> u8 {
                match self { $(Place::$name => $number,)* }
            }

            /// The place in words, for tables and messages.
            pub const fn words(self) -> &'static str {
                match self { $(Place::$name => $words,)* }
            }
        }
    };
}

places! {
    1 House "n or f is out of bounds"

    15 StartsLength "the list of start weights is not n long"
    15 StartsSum "the start weights pass 16,000 together"
    15 StartsFloor "a start weight is not above the floor"

    2 TornMap "the bytes end within the map"
    2 TornKind "the bytes end before the kind"
    2 TornServer "the bytes end before the server"
    2 TornDesk "the bytes end within the desk"
    2 TornRound "the bytes end within the round"
    2 TornStamp "the bytes end within the tag's stamp"
    2 TornTagDesk "the bytes end within the tag's desk"
    2 TornLength "the bytes end before the value's length"
    2 TornValue "the bytes end within the value"
    2 TornRowMap "the bytes end within the row map"
    2 TornCount "the bytes end within a row's count"
    2 TornCellMap "the bytes end within a cell map"
    2 TornCell "the bytes end within a cell"
    2 TornNote "the bytes end within the note"
    2 LeftOver "bytes are left over"

    3 HighMapBits "a map bit from 7 to 15 stands"
    3 NoKind "map bit 0 is missing"
    3 NoServer "map bit 1 is missing"
    3 ShareWithDesk "a share has a desk"
    3 ShareWithRound "a share has a round"
    3 ShareWithNote "a share has a note"
    3 NoDesk "a request or reply has no desk"
    3 NoRound "a request or reply has no round"

    4 KindZero "the kind is 0"
    4 KindOverThree "the kind is over 3"
    4 ServerRange "the server is n or more"
    4 DeskZero "the desk is 0"
    4 RoundZero "the round is 0"
    4 StampZero "the tag's stamp is 0"
    4 TagDeskZero "the tag's desk is 0"
    4 LengthOver64 "the value's length is over 64"
    4 RowMapZero "the row map is 0"
    4 RowMapRange "the row map names a server of n or more"
    4 CountZero "a row's count is 0"
    4 CellMapZero "a cell map is 0"
    4 CellMapRange "a cell map names a server of n or more"
    4 OwnCell "a cell map names the row's own giver"
    4 CellZero "a cell is 0"
    4 TotalBelow "a row's total is below its count"
    4 TotalAbove "a row's total is above 16,000 times its count"
    4 NoteZero "the note is 0"

    5 Light "a weight is not above the floor"
}
