use crate::{check_version, ffi, new_row, told, Refusal, TConfiguration, TFieldIdentifier, TListIdentifier, TMapIdentifier, TMessageIdentifier, TMessageType, TType, IDS, ROW};

/// Reads values of the compact protocol from a slice.
#[derive(Clone, Debug)]
pub struct TCompactInputProtocol<'a> {
    input: &'a [u8],
    row: [u64; ROW],
    ids: [i16; IDS],
}

// A call over (input, row) whose answers go to the numbers lent.
macro_rules! call {
    ($self:ident, $export:ident $(, $arg:expr)*) => {
        // SAFETY: the pointers and lengths are those of live borrows, and no two of them overlap.
        told(unsafe { ffi::$export($self.input.as_ptr(), $self.input.len(), $self.row.as_mut_ptr(), ROW $(, $arg)*) })
    };
}

macro_rules! scalar {
    ($(#[$doc:meta])* $name:ident, $export:ident, $value:ty, $zero:expr) => {
        $(#[$doc])*
        #[inline]
        pub fn $name(&mut self) -> Result<$value, Refusal> {
            let mut value = $zero;
            call!(self, $export, &mut value)?;
            Ok(value)
        }
    };
}

impl<'a> TCompactInputProtocol<'a> {
    /// A reader at the start of its input, with the default limits.
    #[must_use]
    pub fn new(input: &'a [u8]) -> Self {
        Self::with_config(input, TConfiguration::default())
    }

    /// A reader with limits of its own. Under limits out of range every call is BAD STATE; [`TConfiguration::new`] checks them when they are set.
    #[must_use]
    pub fn with_config(input: &'a [u8], limits: TConfiguration) -> Self {
        check_version();
        TCompactInputProtocol { input, row: new_row(limits), ids: [0; IDS] }
    }

    /// The place of the next byte.
    pub fn place(&self) -> usize {
        self.row[0] as usize
    }

    /// What has not been read.
    pub fn rest(&self) -> &'a [u8] {
        &self.input[self.place()..]
    }

    // The limits as the row has them.
    fn limits(&self) -> TConfiguration {
        TConfiguration { depth: self.row[3] as u32, string: self.row[4] as u32, container: (self.row[4] >> 32) as u32, message: (self.row[3] >> 32) as u32 }
    }

    pub(crate) fn input_and_row(&self) -> (&'a [u8], &[u64; ROW]) {
        (self.input, &self.row)
    }

    pub(crate) fn input_and_row_mut(&mut self) -> (&'a [u8], &mut [u64; ROW]) {
        (self.input, &mut self.row)
    }

    // A type that was read has its number, by the call's contract.
    #[inline]
    fn kind(number: u8) -> TType {
        TType::from_number(number).expect("the archive answers types that there are")
    }

    /// A message's header. Field ids start anew from it, and the message is counted from its first byte.
    pub fn read_message_begin(&mut self) -> Result<TMessageIdentifier<'a>, Refusal> {
        let (mut kind, mut sequence, mut start, mut end) = (0, 0, 0, 0);
        call!(self, tagrumzil_read_message_begin, &mut kind, &mut sequence, &mut start, &mut end)?;
        Ok(TMessageIdentifier {
            name: text(&self.input[start..end]),
            message_type: TMessageType::from_number(kind).expect("the archive answers message types that there are"),
            sequence_number: sequence,
        })
    }

    /// Begins a struct: the last field id is put by.
    #[inline]
    pub fn read_struct_begin(&mut self) -> Result<(), Refusal> {
        let ids = self.ids.as_mut_ptr();
        call!(self, tagrumzil_read_struct_begin, ids, IDS)
    }

    /// Ends a struct: the last field id is the outer one again.
    #[inline]
    pub fn read_struct_end(&mut self) -> Result<(), Refusal> {
        let ids = self.ids.as_ptr();
        call!(self, tagrumzil_read_struct_end, ids, IDS)
    }

    /// A field's header. A bool field's value is handed out by [`read_bool`](Self::read_bool).
    #[inline]
    pub fn read_field_begin(&mut self) -> Result<TFieldIdentifier, Refusal> {
        let (mut kind, mut id) = (0, 0);
        call!(self, tagrumzil_read_field_begin, &mut kind, &mut id)?;
        Ok(TFieldIdentifier { field_type: Self::kind(kind), id: if kind == 0 { None } else { Some(id) } })
    }

    scalar!(/// A bool: a bool field's value, or else an element.
        read_bool, tagrumzil_read_bool, bool, false);
    scalar!(/// A signed byte.
        read_i8, tagrumzil_read_i8, i8, 0);
    scalar!(/// An i16.
        read_i16, tagrumzil_read_i16, i16, 0);
    scalar!(/// An i32.
        read_i32, tagrumzil_read_i32, i32, 0);
    scalar!(/// An i64.
        read_i64, tagrumzil_read_i64, i64, 0);
    scalar!(/// A double's 64 bits, a NaN's too.
        read_double_bits, tagrumzil_read_double, u64, 0);

    /// A double.
    #[inline]
    pub fn read_double(&mut self) -> Result<f64, Refusal> {
        Ok(f64::from_bits(self.read_double_bits()?))
    }

    /// A uuid's 16 bytes.
    pub fn read_uuid(&mut self) -> Result<[u8; 16], Refusal> {
        let (mut start, mut end) = (0, 0);
        call!(self, tagrumzil_read_uuid, &mut start, &mut end)?;
        let mut uuid = [0; 16];
        uuid.copy_from_slice(&self.input[start..end]);
        Ok(uuid)
    }

    /// A binary: its part of the input.
    pub fn read_bytes(&mut self) -> Result<&'a [u8], Refusal> {
        let (mut start, mut end) = (0, 0);
        call!(self, tagrumzil_read_bytes, &mut start, &mut end)?;
        Ok(&self.input[start..end])
    }

    /// A string: its part of the input, which is UTF-8.
    pub fn read_string(&mut self) -> Result<&'a str, Refusal> {
        let (mut start, mut end) = (0, 0);
        call!(self, tagrumzil_read_string, &mut start, &mut end)?;
        Ok(text(&self.input[start..end]))
    }

    /// A list's header. END where so many elements can't be in what is left, so that room may be reserved by the size.
    pub fn read_list_begin(&mut self) -> Result<TListIdentifier, Refusal> {
        let (mut kind, mut count) = (0, 0);
        call!(self, tagrumzil_read_list_begin, &mut kind, &mut count)?;
        Ok(TListIdentifier { element_type: Self::kind(kind), size: count as i32 })
    }

    /// A set's header, alike.
    pub fn read_set_begin(&mut self) -> Result<TListIdentifier, Refusal> {
        let (mut kind, mut count) = (0, 0);
        call!(self, tagrumzil_read_set_begin, &mut kind, &mut count)?;
        Ok(TListIdentifier { element_type: Self::kind(kind), size: count as i32 })
    }

    /// A map's header, alike.
    pub fn read_map_begin(&mut self) -> Result<TMapIdentifier, Refusal> {
        let (mut key, mut value, mut count) = (0, 0, 0);
        call!(self, tagrumzil_read_map_begin, &mut key, &mut value, &mut count)?;
        let types = |kind| if count == 0 { None } else { Some(Self::kind(kind)) };
        Ok(TMapIdentifier { key_type: types(key), value_type: types(value), size: count as i32 })
    }

    /// Passes over one value of a type, whatever stands in it.
    #[inline]
    pub fn skip(&mut self, field_type: TType) -> Result<(), Refusal> {
        call!(self, tagrumzil_skip, field_type as u8)
    }

    /// At a struct's start: for each wanted field id and type the last field of that id and type directly in the struct, in the order of the list. The reader
    /// moves behind the struct, as [`skip`](Self::skip) of it does. At most 64 ids, none twice.
    ///
    /// ```
    /// use tagrumzil::{TCompactInputProtocol, TType};
    ///
    /// let bytes = [0x15, 0x06, 0x28, 0x01, b'm', 0x11, 0x00];
    /// let [count, name, done, none] = TCompactInputProtocol::new(&bytes)
    ///     .pick_fields([(1, TType::I32), (3, TType::String), (4, TType::Bool), (9, TType::Double)])?;
    /// assert_eq!(count.as_i32(), Some(3));
    /// assert_eq!(name.as_str(), Some("m"));
    /// assert_eq!(done.as_bool(), Some(true));
    /// assert_eq!(none.as_f64(), None);
    /// # Ok::<(), tagrumzil::Refusal>(())
    /// ```
    pub fn pick_fields<const N: usize>(&mut self, wanted: [(i16, TType); N]) -> Result<[PickedField<'a>; N], Refusal> {
        let mut found = [Picked::Absent; N];
        let limits = self.limits();
        self.pick(&wanted.map(|(id, _)| id), &wanted.map(|(_, field_type)| field_type), &mut found)?;
        let mut fields = wanted.iter().zip(found).map(|((_, field_type), picked)| PickedField { field_type: *field_type, picked, limits });
        Ok(core::array::from_fn(|_| fields.next().expect("as many fields as are wanted")))
    }

    /// At a struct's start: for each wanted field id, with its type beside it, the last field of that id and type directly in the struct, in `found`
    /// at the id's own number. The reader moves behind the struct, as [`skip`](Self::skip) of it does. At most 64 ids, none twice.
    pub fn pick(&mut self, ids: &[i16], types: &[TType], found: &mut [Picked<'a>]) -> Result<(), Refusal> {
        // One more than can be wanted shows that there are too many.
        let mut kinds = [0; MOST + 1];
        let mut rows = [0; 3 * MOST];
        for (kind, field_type) in kinds.iter_mut().zip(types) {
            *kind = *field_type as u8;
        }
        let listed = types.len().min(MOST + 1);
        let lent = 3 * found.len().min(MOST);
        call!(self, tagrumzil_pick, ids.as_ptr(), ids.len(), kinds.as_ptr(), listed, rows.as_mut_ptr(), lent)?;
        for (picked, row) in found.iter_mut().zip(rows.chunks_exact(3)).take(ids.len()) {
            *picked = match row[0] {
                1 => Picked::WrongType,
                2 => Picked::Here(&self.input[row[1]..row[2]]),
                3 => Picked::Bool(false),
                4 => Picked::Bool(true),
                _ => Picked::Absent,
            };
        }
        Ok(())
    }
}

/// The most ids that may be wanted at once.
const MOST: usize = 64;

/// What a struct says of a wanted field id.
#[derive(Clone, Copy, Debug, Default, PartialEq, Eq)]
pub enum Picked<'a> {
    /// No field of the id.
    #[default]
    Absent,
    /// Fields of the id, but none of the type.
    WrongType,
    /// The bytes of the value, to be read by a reader of their own.
    Here(&'a [u8]),
    /// A bool field's value.
    Bool(bool),
}

/// A wanted field as [`pick_fields`](TCompactInputProtocol::pick_fields) found it, with its type: each call gives the value where the field is there and of
/// that type, else nothing.
#[derive(Clone, Copy, Debug)]
pub struct PickedField<'a> {
    field_type: TType,
    picked: Picked<'a>,
    limits: TConfiguration,
}

macro_rules! value {
    ($(#[$doc:meta])* $name:ident, $read:ident, $field_type:ident, $value:ty) => {
        $(#[$doc])*
        #[must_use]
        pub fn $name(&self) -> Option<$value> {
            self.of(TType::$field_type)?.$read().ok()
        }
    };
}

impl<'a> PickedField<'a> {
    /// What was found.
    #[must_use]
    pub fn picked(&self) -> Picked<'a> {
        self.picked
    }

    /// A reader of the value's bytes, for what is inside a struct, a list, a set or a map.
    #[must_use]
    pub fn reader(&self) -> Option<TCompactInputProtocol<'a>> {
        match self.picked {
            Picked::Here(bytes) => Some(TCompactInputProtocol::with_config(bytes, self.limits)),
            _ => None,
        }
    }

    fn of(&self, field_type: TType) -> Option<TCompactInputProtocol<'a>> {
        self.reader().filter(|_| self.field_type == field_type)
    }

    /// A bool.
    #[must_use]
    pub fn as_bool(&self) -> Option<bool> {
        match self.picked {
            Picked::Bool(truth) => Some(truth),
            _ => None,
        }
    }

    value!(/// A signed byte.
        as_i8, read_i8, I08, i8);
    value!(/// An i16.
        as_i16, read_i16, I16, i16);
    value!(/// An i32.
        as_i32, read_i32, I32, i32);
    value!(/// An i64.
        as_i64, read_i64, I64, i64);
    value!(/// A double.
        as_f64, read_double, Double, f64);
    value!(/// A uuid's 16 bytes.
        as_uuid, read_uuid, Uuid, [u8; 16]);
    value!(/// A binary's or a string's bytes.
        as_bytes, read_bytes, String, &'a [u8]);
    value!(/// A string, where it is UTF-8.
        as_str, read_string, String, &'a str);
}

/// The bytes of a string that was read: UTF-8 by the call's contract, and checked again since a mistake here would be unsound.
fn text(bytes: &[u8]) -> &str {
    core::str::from_utf8(bytes).expect("the archive answers strings that are UTF-8")
}

/// Where one value of a type that starts at a place ends, under the default limits.
pub fn skip(input: &[u8], field_type: TType) -> Result<usize, Refusal> {
    let mut reader = TCompactInputProtocol::new(input);
    reader.skip(field_type)?;
    Ok(reader.place())
}
