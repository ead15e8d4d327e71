//! What became of a transaction that was not refused.

/// Carried out with its kind, or ignored with its reason.
#[derive(Clone, Copy, Debug, PartialEq, Eq)]
pub enum Verdict {
    /// The chip did it.
    CarriedOut(Kind),
    /// The chip drove only FF, and one was added to the ignored.
    Ignored(Reason),
}

impl Verdict {
    /// The paper's number: 0 when carried out, else 10 to 16.
    #[must_use]
    pub fn number(self) -> u32 {
        match self {
            Verdict::CarriedOut(_) => 0,
            Verdict::Ignored(reason) => reason as u32,
        }
    }

    /// The first byte, as far as it counts: an ignored one may be any.
    pub(crate) fn op(self) -> u32 {
        match self {
            Verdict::CarriedOut(kind) => u32::from(kind.code()),
            Verdict::Ignored(_) => 0,
        }
    }

    /// The library answers a number; the kind follows from the first byte.
    ///
    /// # Panics
    ///
    /// Where the library carries out what no line of the paper has, or gives a
    /// number that is no verdict. Both are proved not to be.
    pub(crate) fn answered(number: u32, bytes: &[u8]) -> Verdict {
        if number == 0 {
            let kind = bytes.first().copied().and_then(Kind::of);
            return Verdict::CarriedOut(kind.expect("what is carried out has a kind"));
        }
        Verdict::Ignored(Reason::of(number).expect("a number from 10 to 16"))
    }
}

/// Why the chip ignored a transaction; each is its number.
#[derive(Clone, Copy, Debug, PartialEq, Eq)]
pub enum Reason {
    /// Busy, and it was no status read.
    Busy = 10,
    /// Asleep, and it was not AB.
    Asleep = 11,
    /// No whole byte, or an unknown command.
    Unknown = 12,
    /// A wrong byte count, or leftover bits where there may be none.
    WrongSize = 13,
    /// A write, erase or status write while WEL is 0.
    WriteDisabled = 14,
    /// A status write while the status is locked.
    Locked = 15,
    /// Some byte of the page or unit is protected.
    Protected = 16,
}

impl Reason {
    /// Every reason, in the order of the numbers.
    pub const ALL: [Reason; 7] = [
        Reason::Busy,
        Reason::Asleep,
        Reason::Unknown,
        Reason::WrongSize,
        Reason::WriteDisabled,
        Reason::Locked,
        Reason::Protected,
    ];

    /// The reason with this number.
    #[must_use]
    pub fn of(number: u32) -> Option<Reason> {
        Reason::ALL
            .into_iter()
            .find(|&reason| reason as u32 == number)
    }
}

/// The kinds of command; each is its code, and 60 is the same kind as C7.
#[derive(Clone, Copy, Debug, PartialEq, Eq)]
pub enum Kind {
    /// WEL to 1.
    WriteEnable = 0x06,
    /// WEL to 0.
    WriteDisable = 0x04,
    /// The low status byte.
    LowStatus = 0x05,
    /// The high status byte.
    HighStatus = 0x35,
    /// A status write.
    WriteStatus = 0x01,
    /// The array, from place 4.
    Read = 0x03,
    /// The array, from place 5.
    FastRead = 0x0B,
    /// A page program.
    Program = 0x02,
    /// An erase of 4 KB.
    EraseSector = 0x20,
    /// An erase of 32 KB.
    EraseHalfBlock = 0x52,
    /// An erase of 64 KB.
    EraseBlock = 0xD8,
    /// An erase of all.
    EraseAll = 0xC7,
    /// To sleep.
    Sleep = 0xB9,
    /// Awake again, and the device byte.
    Wake = 0xAB,
    /// Maker and device byte in turn.
    Identify = 0x90,
    /// The JEDEC bytes.
    Jedec = 0x9F,
}

impl Kind {
    const ALL: [Kind; 16] = [
        Kind::WriteEnable,
        Kind::WriteDisable,
        Kind::LowStatus,
        Kind::HighStatus,
        Kind::WriteStatus,
        Kind::Read,
        Kind::FastRead,
        Kind::Program,
        Kind::EraseSector,
        Kind::EraseHalfBlock,
        Kind::EraseBlock,
        Kind::EraseAll,
        Kind::Sleep,
        Kind::Wake,
        Kind::Identify,
        Kind::Jedec,
    ];

    /// The kind that a command's first byte names.
    ///
    /// ```
    /// use tunebriar::Kind;
    ///
    /// assert_eq!(Kind::of(0x60), Some(Kind::EraseAll));
    /// assert_eq!(Kind::of(0x60).map(Kind::code), Some(0xC7));
    /// assert_eq!(Kind::of(0x75), None);
    /// ```
    #[must_use]
    pub fn of(code: u8) -> Option<Kind> {
        match code {
            0x60 => Some(Kind::EraseAll),
            _ => Kind::ALL.into_iter().find(|kind| kind.code() == code),
        }
    }

    /// The code; C7 for an erase of all.
    #[must_use]
    pub fn code(self) -> u8 {
        self as u8
    }
}
