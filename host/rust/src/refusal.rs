use core::fmt;

/// Why a call was refused, and what that means in a sentence: a number of the scope's table, 1 to 19 without 13, which is unused.
#[must_use]
#[derive(Clone, Copy, PartialEq, Eq, Hash)]
pub struct Refusal(u8);

const NAMES: [&str; 20] = [
    "NONE", "END", "BAD VERSION", "BAD MESSAGE TYPE", "BAD TYPE", "BAD BOOL", "LONG VARINT", "FIELD ID", "SIZE LIMIT", "NEGATIVE SIZE", "DEPTH", "BAD UTF-8",
    "OUT OF TURN", "UNKNOWN", "NO ROOM", "BAD STATE", "BAD LIST", "RANGE", "BAD DAY", "MESSAGE SIZE",
];

const SENTENCES: [&str; 20] = [
    "nothing is refused",
    "a byte needed lies past the input, or a container's elements can't be in what is left of it",
    "the first message byte is not 0x82, or the version is not 1",
    "a message type out of 1 to 4",
    "a code without a type, or Stop where a value's type is asked",
    "an element bool that is not 0, 1 or 2",
    "a varint of more bytes than its width allows",
    "the last id plus the delta is over 32,767",
    "a length or a count over its limit",
    "a count below 0",
    "a struct or a container beyond the depth limit",
    "a string or a message name that is not UTF-8",
    "a bool field waits for the bool call, or a struct is ended that was not begun",
    "a number that there is no refusal of",
    "the buffer is too short for this call's bytes",
    "a limit out of its range, a place out of its message, or a state that is none",
    "wanted ids and types that differ in number, over 64 of them, an id twice, or a type that no field can have",
    "an i16, as value or field id, outside -32,768 to 32,767",
    "a day file that breaks a rule, a message number that it has not, or messages that make no day file",
    "a byte needed lies past the message's ceiling, with input behind it; or a call's bytes would pass it",
];

impl Refusal {
    /// A byte needed lies past the input.
    pub const END: Refusal = Refusal(1);
    /// The first message byte is not 0x82, or the version is not 1.
    pub const BAD_VERSION: Refusal = Refusal(2);
    /// A message type out of 1 to 4.
    pub const BAD_MESSAGE_TYPE: Refusal = Refusal(3);
    /// A code without a type, or Stop where a value's type is asked.
    pub const BAD_TYPE: Refusal = Refusal(4);
    /// An element bool that is not 0, 1 or 2.
    pub const BAD_BOOL: Refusal = Refusal(5);
    /// A varint of more bytes than its width allows.
    pub const LONG_VARINT: Refusal = Refusal(6);
    /// The last id plus the delta is over 32,767.
    pub const FIELD_ID: Refusal = Refusal(7);
    /// A length or a count over its limit.
    pub const SIZE_LIMIT: Refusal = Refusal(8);
    /// A count below 0.
    pub const NEGATIVE_SIZE: Refusal = Refusal(9);
    /// A struct or a container beyond the depth limit.
    pub const DEPTH: Refusal = Refusal(10);
    /// A string or a message name that is not UTF-8.
    pub const BAD_UTF8: Refusal = Refusal(11);
    /// A bool field waits for the bool call, or a struct is ended that was not begun.
    pub const OUT_OF_TURN: Refusal = Refusal(12);
    /// The buffer is too short for this call's bytes.
    pub const NO_ROOM: Refusal = Refusal(14);
    /// A limit out of its range, a place out of its message, or a state that is none.
    pub const BAD_STATE: Refusal = Refusal(15);
    /// Wanted ids and types that differ in number, over 64 of them, an id twice, or a type that no field can have.
    pub const BAD_LIST: Refusal = Refusal(16);
    /// An i16, as value or field id, outside -32,768 to 32,767.
    pub const RANGE: Refusal = Refusal(17);
    /// A day file that breaks a rule, a message number that it has not, or messages that make no day file.
    pub const BAD_DAY: Refusal = Refusal(18);
    /// A byte needed lies past the message's ceiling, with input behind it; or a call's bytes would pass it.
    pub const MESSAGE_SIZE: Refusal = Refusal(19);

    pub(crate) fn from_number(number: u8) -> Refusal {
        Refusal(number)
    }

    /// Its number.
    pub fn number(self) -> u8 {
        self.0
    }

    /// Its name in the scope's table.
    pub fn name(self) -> &'static str {
        NAMES.get(self.0 as usize).copied().unwrap_or("UNKNOWN")
    }

    /// What it means, in a sentence.
    pub fn sentence(self) -> &'static str {
        SENTENCES.get(self.0 as usize).copied().unwrap_or("a number that there is no refusal of")
    }
}

impl fmt::Display for Refusal {
    fn fmt(&self, f: &mut fmt::Formatter<'_>) -> fmt::Result {
        write!(f, "refused {}: {}, {}", self.0, self.name(), self.sentence())
    }
}

impl fmt::Debug for Refusal {
    fn fmt(&self, f: &mut fmt::Formatter<'_>) -> fmt::Result {
        write!(f, "Refusal({}, {})", self.0, self.name())
    }
}

impl core::error::Error for Refusal {}
