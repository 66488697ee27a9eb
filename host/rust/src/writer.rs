use crate::{check_version, ffi, new_row, told, Refusal, TConfiguration, TMessageIdentifier, TType, IDS, ROW};

/// Where a writer's bytes go: a lent slice, which has the room that it has, or a `Vec`, which grows.
pub trait Buffer: private::Sealed {}

mod private {
    pub trait Sealed: AsRef<[u8]> + AsMut<[u8]> {
        /// Whether there is more room now, for a call that was refused for want of it.
        fn grow(&mut self) -> bool;
    }
}

impl Buffer for &mut [u8] {}

impl private::Sealed for &mut [u8] {
    #[inline]
    fn grow(&mut self) -> bool {
        false
    }
}

#[cfg(feature = "alloc")]
impl Buffer for alloc::vec::Vec<u8> {}

#[cfg(feature = "alloc")]
impl private::Sealed for alloc::vec::Vec<u8> {
    fn grow(&mut self) -> bool {
        let twice = self.len().saturating_mul(2).max(64);
        self.resize(twice, 0);
        true
    }
}

/// Writes values of the compact protocol into a lent buffer.
pub type TCompactOutputProtocol<'a> = CompactWriter<&'a mut [u8]>;

/// Writes values of the compact protocol into a buffer that grows.
///
/// ```
/// use tagrumzil::GrowingOutputProtocol;
///
/// let mut out = GrowingOutputProtocol::new();
/// out.write_string("filter 4")?;
/// out.write_i32(-1)?;
/// assert_eq!(out.finish(), b"\x08filter 4\x01");
/// # Ok::<(), tagrumzil::Refusal>(())
/// ```
#[cfg(feature = "alloc")]
pub type GrowingOutputProtocol = CompactWriter<alloc::vec::Vec<u8>>;

/// What both writers are: [`TCompactOutputProtocol`] and [`GrowingOutputProtocol`].
#[derive(Debug)]
pub struct CompactWriter<B: Buffer> {
    buffer: B,
    row: [u64; ROW],
    ids: [i16; IDS],
}

// A call over (buffer, row). A refused call changes nothing, so for want of room it is made again once there is more; the ceiling, which is looked at first, ends that.
macro_rules! call {
    ($self:ident, $export:ident $(, $arg:expr)*) => {
        loop {
            let room: &mut [u8] = $self.buffer.as_mut();
            // SAFETY: the pointers and lengths are those of live borrows, and no two of them overlap.
            let answer = told(unsafe { ffi::$export(room.as_mut_ptr(), room.len(), $self.row.as_mut_ptr(), ROW $(, $arg)*) });
            if answer != Err(Refusal::NO_ROOM) || !$self.buffer.grow() {
                return answer;
            }
        }
    };
}

impl<'a> CompactWriter<&'a mut [u8]> {
    /// A writer at the start of its buffer, with the default limits.
    #[must_use]
    pub fn new(buffer: &'a mut [u8]) -> Self {
        Self::with_config(buffer, TConfiguration::default())
    }

    /// A writer with limits of its own. Under limits out of range every call is BAD STATE; [`TConfiguration::new`] checks them when they are set.
    #[must_use]
    pub fn with_config(buffer: &'a mut [u8], limits: TConfiguration) -> Self {
        Self::over(buffer, limits)
    }
}

#[cfg(feature = "alloc")]
impl CompactWriter<alloc::vec::Vec<u8>> {
    /// A writer whose buffer grows, with the default limits.
    #[must_use]
    pub fn new() -> Self {
        Self::with_config(TConfiguration::default())
    }

    /// The same with limits of its own.
    #[must_use]
    pub fn with_config(limits: TConfiguration) -> Self {
        Self::over(alloc::vec::Vec::new(), limits)
    }

    /// What has been written.
    #[must_use]
    pub fn finish(mut self) -> alloc::vec::Vec<u8> {
        self.buffer.truncate(self.row[0] as usize);
        self.buffer
    }
}

#[cfg(feature = "alloc")]
impl Default for CompactWriter<alloc::vec::Vec<u8>> {
    fn default() -> Self {
        Self::new()
    }
}

impl<B: Buffer> CompactWriter<B> {
    fn over(buffer: B, limits: TConfiguration) -> Self {
        check_version();
        CompactWriter { buffer, row: new_row(limits), ids: [0; IDS] }
    }

    /// The place of the next byte.
    pub fn place(&self) -> usize {
        self.row[0] as usize
    }

    /// What has been written.
    pub fn written(&self) -> &[u8] {
        &self.buffer.as_ref()[..self.place()]
    }

    /// A message's header, from whose first byte the message is counted.
    pub fn write_message_begin(&mut self, identifier: &TMessageIdentifier<'_>) -> Result<(), Refusal> {
        let name = identifier.name;
        call!(self, tagrumzil_write_message_begin, identifier.message_type as u8, identifier.sequence_number, name.as_ptr(), name.len())
    }

    /// Begins a struct: the last field id is put by.
    #[inline]
    pub fn write_struct_begin(&mut self) -> Result<(), Refusal> {
        let ids = self.ids.as_mut_ptr();
        call!(self, tagrumzil_write_struct_begin, ids, IDS)
    }

    /// Ends a struct: the last field id is the outer one again. Its fields are ended by [`write_field_stop`](Self::write_field_stop).
    #[inline]
    pub fn write_struct_end(&mut self) -> Result<(), Refusal> {
        let ids = self.ids.as_ptr();
        call!(self, tagrumzil_write_struct_end, ids, IDS)
    }

    /// A field's header. A bool field's is written by [`write_bool`](Self::write_bool).
    #[inline]
    pub fn write_field_begin(&mut self, field_type: TType, id: i16) -> Result<(), Refusal> {
        call!(self, tagrumzil_write_field_begin, field_type as u8, id)
    }

    /// The end of a struct's fields.
    #[inline]
    pub fn write_field_stop(&mut self) -> Result<(), Refusal> {
        call!(self, tagrumzil_write_field_stop)
    }

    /// A bool: a bool field's header with its value in it, or else an element.
    #[inline]
    pub fn write_bool(&mut self, truth: bool) -> Result<(), Refusal> {
        call!(self, tagrumzil_write_bool, truth)
    }

    /// A signed byte.
    #[inline]
    pub fn write_i8(&mut self, n: i8) -> Result<(), Refusal> {
        call!(self, tagrumzil_write_i8, n)
    }

    /// An i16.
    #[inline]
    pub fn write_i16(&mut self, n: i16) -> Result<(), Refusal> {
        call!(self, tagrumzil_write_i16, n)
    }

    /// An i32.
    #[inline]
    pub fn write_i32(&mut self, n: i32) -> Result<(), Refusal> {
        call!(self, tagrumzil_write_i32, n)
    }

    /// An i64.
    #[inline]
    pub fn write_i64(&mut self, n: i64) -> Result<(), Refusal> {
        call!(self, tagrumzil_write_i64, n)
    }

    /// A double.
    #[inline]
    pub fn write_double(&mut self, n: f64) -> Result<(), Refusal> {
        self.write_double_bits(n.to_bits())
    }

    /// A double by its 64 bits.
    #[inline]
    pub fn write_double_bits(&mut self, bits: u64) -> Result<(), Refusal> {
        call!(self, tagrumzil_write_double, bits)
    }

    /// A uuid.
    pub fn write_uuid(&mut self, uuid: &[u8; 16]) -> Result<(), Refusal> {
        call!(self, tagrumzil_write_uuid, uuid.as_ptr())
    }

    /// A binary.
    pub fn write_bytes(&mut self, bytes: &[u8]) -> Result<(), Refusal> {
        call!(self, tagrumzil_write_bytes, bytes.as_ptr(), bytes.len())
    }

    /// A string.
    pub fn write_string(&mut self, text: &str) -> Result<(), Refusal> {
        call!(self, tagrumzil_write_string, text.as_ptr(), text.len())
    }

    /// A list's header.
    pub fn write_list_begin(&mut self, element_type: TType, size: i32) -> Result<(), Refusal> {
        call!(self, tagrumzil_write_list_begin, element_type as u8, size)
    }

    /// A set's header.
    pub fn write_set_begin(&mut self, element_type: TType, size: i32) -> Result<(), Refusal> {
        call!(self, tagrumzil_write_set_begin, element_type as u8, size)
    }

    /// A map's header. An empty map's types have no say.
    pub fn write_map_begin(&mut self, key_type: TType, value_type: TType, size: i32) -> Result<(), Refusal> {
        call!(self, tagrumzil_write_map_begin, key_type as u8, value_type as u8, size)
    }
}
