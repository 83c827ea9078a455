//! What a call answers ("Outcomes" of the paper).

/// What a call answers, with the paper's numbers: `outcome as u8` is the number.
#[derive(Clone, Copy, Debug, PartialEq, Eq, Hash)]
#[must_use = "a refusal shows here alone"]
#[repr(u8)]
pub enum Outcome {
    /// Command handled; copy, admit, release, carry-over or read done.
    Done = 0,
    /// The recipients are in the list, at least one.
    Forwarded = 1,
    /// Valid, nobody to send to.
    Nobody = 2,
    /// Length not 15 to 500.
    WrongLength = 10,
    /// Data length is not message length less 15.
    WrongDataLength = 11,
    /// Type not 0x01 to 0x10.
    WrongType = 12,
    /// Source device or unit does not exist.
    NoSource = 13,
    /// Destination does not exist.
    NoDestination = 14,
    /// Response type to a group or to the bind address.
    ResponseToMany = 15,
    /// Tables not sound; carry-over: old table not sound.
    Unsound = 16,
    /// Reply or list too short; carry-over: new table not nine times as long as the old one.
    NoRoom = 17,
    /// To D'0:U'0, and not one of the eighteen commands.
    NotServed = 18,
    /// Copy: room too short, device above 0x7FFE or unit 0xFF.
    NoCopy = 19,
    /// Admit: address or rights out of range, unit 0 not in the set or unit 255 in it.
    OutOfRange = 20,
    /// Admit: already admitted.
    AlreadyAdmitted = 21,
    /// Admit: no free record.
    NoFreeRecord = 22,
    /// Release: not admitted.
    NotAdmitted = 23,
}

impl Outcome {
    /// The outcome of a number, or `None` where the paper has no such outcome.
    pub const fn from_number(number: u8) -> Option<Outcome> {
        Some(match number {
            0 => Outcome::Done,
            1 => Outcome::Forwarded,
            2 => Outcome::Nobody,
            10 => Outcome::WrongLength,
            11 => Outcome::WrongDataLength,
            12 => Outcome::WrongType,
            13 => Outcome::NoSource,
            14 => Outcome::NoDestination,
            15 => Outcome::ResponseToMany,
            16 => Outcome::Unsound,
            17 => Outcome::NoRoom,
            18 => Outcome::NotServed,
            19 => Outcome::NoCopy,
            20 => Outcome::OutOfRange,
            21 => Outcome::AlreadyAdmitted,
            22 => Outcome::NoFreeRecord,
            23 => Outcome::NotAdmitted,
            _ => return None,
        })
    }

    /// The paper's number.
    pub const fn number(self) -> u8 {
        self as u8
    }
}

// The contract of every call names the paper's outcomes and no other number.
pub(crate) fn told(number: u8) -> Outcome {
    Outcome::from_number(number).expect("an outcome of the paper")
}
