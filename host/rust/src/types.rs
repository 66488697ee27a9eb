use crate::Refusal;

/// The types of the protocol, with their numbers.
#[derive(Clone, Copy, Debug, PartialEq, Eq, Hash)]
#[repr(u8)]
pub enum TType {
    /// The end of a struct.
    Stop = 0,
    /// A bool.
    Bool = 1,
    /// A signed byte.
    I08 = 3,
    /// 16 bits.
    I16 = 4,
    /// 32 bits.
    I32 = 5,
    /// 64 bits.
    I64 = 6,
    /// A double.
    Double = 7,
    /// A string, or a binary.
    String = 8,
    /// A list.
    List = 9,
    /// A set.
    Set = 10,
    /// A map.
    Map = 11,
    /// A struct.
    Struct = 12,
    /// A uuid.
    Uuid = 13,
}

impl TType {
    /// The type of a number, if there is one.
    #[inline]
    pub fn from_number(number: u8) -> Option<TType> {
        match number {
            0 => Some(TType::Stop),
            1 => Some(TType::Bool),
            3 => Some(TType::I08),
            4 => Some(TType::I16),
            5 => Some(TType::I32),
            6 => Some(TType::I64),
            7 => Some(TType::Double),
            8 => Some(TType::String),
            9 => Some(TType::List),
            10 => Some(TType::Set),
            11 => Some(TType::Map),
            12 => Some(TType::Struct),
            13 => Some(TType::Uuid),
            _ => None,
        }
    }
}

/// The kinds of message, with their numbers.
#[derive(Clone, Copy, Debug, PartialEq, Eq, Hash)]
#[repr(u8)]
pub enum TMessageType {
    /// A call.
    Call = 1,
    /// A reply.
    Reply = 2,
    /// An exception.
    Exception = 3,
    /// A call without reply.
    OneWay = 4,
}

impl TMessageType {
    /// The kind of a number, if there is one.
    pub fn from_number(number: u8) -> Option<TMessageType> {
        match number {
            1 => Some(TMessageType::Call),
            2 => Some(TMessageType::Reply),
            3 => Some(TMessageType::Exception),
            4 => Some(TMessageType::OneWay),
            _ => None,
        }
    }
}

/// The limits: depth 0 to 64; strings, containers and messages 0 to 2,147,483,647. A state with any other is refused, BAD STATE.
#[derive(Clone, Copy, Debug, PartialEq, Eq)]
pub struct TConfiguration {
    /// How deep structs and containers may nest.
    pub depth: u32,
    /// How long a string or a binary may be.
    pub string: u32,
    /// How many elements a container may have.
    pub container: u32,
    /// How many bytes a message may have, from its header's first byte on; before any message, from where the state was made.
    pub message: u32,
}

impl TConfiguration {
    /// Limits that are checked: BAD STATE where one is out of its range.
    pub fn new(depth: u32, string: u32, container: u32, message: u32) -> Result<TConfiguration, Refusal> {
        let most = i32::MAX as u32;
        if depth > 64 || string > most || container > most || message > most {
            return Err(Refusal::BAD_STATE);
        }
        Ok(TConfiguration { depth, string, container, message })
    }
}

impl Default for TConfiguration {
    /// The defaults of the crate `thrift`: 64, 100 MiB, the largest count there is, and 100 MiB.
    fn default() -> Self {
        TConfiguration { depth: 64, string: 104_857_600, container: i32::MAX as u32, message: 104_857_600 }
    }
}

/// A message's header.
#[derive(Clone, Copy, Debug, PartialEq, Eq)]
pub struct TMessageIdentifier<'a> {
    /// Its name.
    pub name: &'a str,
    /// Its kind.
    pub message_type: TMessageType,
    /// Its sequence number.
    pub sequence_number: i32,
}

/// A field's header; the struct's end is a field of type Stop, without an id.
#[derive(Clone, Copy, Debug, PartialEq, Eq)]
pub struct TFieldIdentifier {
    /// Its type.
    pub field_type: TType,
    /// Its id.
    pub id: Option<i16>,
}

/// A list's or a set's header.
#[derive(Clone, Copy, Debug, PartialEq, Eq)]
pub struct TListIdentifier {
    /// Its elements' type.
    pub element_type: TType,
    /// How many elements it has.
    pub size: i32,
}

/// A map's header. An empty map has no types.
#[derive(Clone, Copy, Debug, PartialEq, Eq)]
pub struct TMapIdentifier {
    /// Its keys' type.
    pub key_type: Option<TType>,
    /// Its values' type.
    pub value_type: Option<TType>,
    /// How many pairs it has.
    pub size: i32,
}
