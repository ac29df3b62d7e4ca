//! The numbers by which the engine refuses.
use std::fmt;

/// Why input was refused. A refusal changes nothing.
///
/// Later versions of the engine refuse by more numbers; [`crate::Error::Unnamed`] has those that have no name here.
///
/// ```
/// use turepawon::Refusal;
/// assert_eq!(Refusal::try_from(6), Ok(Refusal::FalseIndex));
/// assert_eq!(Refusal::FalseIndex.number(), 6);
/// assert_eq!(Refusal::try_from(200).unwrap_err().number(), 200);
/// ```
#[derive(Clone, Copy, Debug, PartialEq, Eq, Hash)]
#[non_exhaustive]
#[repr(u8)]
pub enum Refusal {
    /// 1: over 128 rows, 64 values, or 128 rows in a window or order; a slice that has not the stated length.
    Size = 1,
    /// 2: a row counts over 64 candidates, or one that is no value.
    Candidates = 2,
    /// 3: a held or refreshed value is out of range.
    ValueOutOfRange = 3,
    /// 4: a refreshed row is out of range.
    RowOutOfRange = 4,
    /// 5: a row is named twice in one refresh.
    RowNamedTwice = 5,
    /// 6: the index is not what tables and values give.
    FalseIndex = 6,
    /// 7: an output has too little room.
    TooLittleRoom = 7,
    /// 8: a depth over 8.
    TooDeep = 8,
    /// 9: a roster file is malformed.
    MalformedInput = 9,
    /// 10: a cursor that does not fit its order.
    BadCursor = 10,
    /// 11: a driver has a duty on a day after 9999-12-31.
    DayOutOfRange = 11,
    /// 13: bytes that are no calendar as the engine writes it, folded or not.
    BadCalendar = 13,
    /// 16: a driver has no duty on a day.
    NoDuty = 16,
    /// 17: a stamp that is no UTC date-time.
    BadStamp = 17,
}

impl Refusal {
    /// All that have a name here, by number.
    const NAMED: [Refusal; 14] = [
        Refusal::Size,
        Refusal::Candidates,
        Refusal::ValueOutOfRange,
        Refusal::RowOutOfRange,
        Refusal::RowNamedTwice,
        Refusal::FalseIndex,
        Refusal::TooLittleRoom,
        Refusal::TooDeep,
        Refusal::MalformedInput,
        Refusal::BadCursor,
        Refusal::DayOutOfRange,
        Refusal::BadCalendar,
        Refusal::NoDuty,
        Refusal::BadStamp,
    ];

    /// The engine's number for it.
    #[must_use]
    pub const fn number(self) -> u8 {
        self as u8
    }
}

impl TryFrom<u8> for Refusal {
    type Error = UnnamedRefusal;

    /// The refusal of a number; 0 is none.
    fn try_from(number: u8) -> Result<Refusal, UnnamedRefusal> {
        Refusal::NAMED.into_iter().find(|refusal| refusal.number() == number).ok_or(UnnamedRefusal(number))
    }
}

impl fmt::Display for Refusal {
    fn fmt(&self, f: &mut fmt::Formatter<'_>) -> fmt::Result {
        let why = match self {
            Refusal::Size => "too many rows or values, or a slice of another length than stated",
            Refusal::Candidates => "a row counts over 64 candidates, or one that is no value",
            Refusal::ValueOutOfRange => "a held or refreshed value is out of range",
            Refusal::RowOutOfRange => "a refreshed row is out of range",
            Refusal::RowNamedTwice => "a row is named twice in one refresh",
            Refusal::FalseIndex => "the index is not what tables and values give",
            Refusal::TooLittleRoom => "an output has too little room",
            Refusal::TooDeep => "the depth is over 8",
            Refusal::MalformedInput => "the input is malformed",
            Refusal::BadCursor => "the cursor does not fit its order",
            Refusal::DayOutOfRange => "the driver has a duty after 9999-12-31",
            Refusal::BadCalendar => "the bytes are no calendar as the engine writes it",
            Refusal::NoDuty => "the driver has no duty on a day",
            Refusal::BadStamp => "the stamp is no UTC date-time, YYYYMMDDTHHMMSSZ",
        };
        write!(f, "refused ({}): {why}", self.number())
    }
}

impl std::error::Error for Refusal {}

/// A number that is no refusal, or one of a later engine that has no name here.
#[derive(Clone, Copy, Debug, PartialEq, Eq, Hash)]
pub struct UnnamedRefusal(u8);

impl UnnamedRefusal {
    /// The number.
    #[must_use]
    pub const fn number(self) -> u8 {
        self.0
    }
}

impl fmt::Display for UnnamedRefusal {
    fn fmt(&self, f: &mut fmt::Formatter<'_>) -> fmt::Result {
        write!(f, "refused ({}): a number that this version has no name for", self.0)
    }
}

impl std::error::Error for UnnamedRefusal {}
