//! The ceiling per message, through the Rust crate: where it stops a reader and a writer, and what it leaves.
use tagrumzil::*;

fn under(message: u32) -> TConfiguration {
    TConfiguration { message, ..TConfiguration::default() }
}

const MESSAGE: TMessageIdentifier = TMessageIdentifier { name: "t", message_type: TMessageType::Call, sequence_number: 1 };

// A message: its header of 5 bytes, then the struct of field 1 true, field 2 i32 -1.
const BYTES: [u8; 9] = [0x82, 0x21, 0x01, 0x01, 0x74, 0x11, 0x15, 0x01, 0x00];

// The message is read and its struct skipped; where each call stood, and what the first refused one said.
fn read(input: &[u8], message: u32) -> (Result<(), Refusal>, usize) {
    let mut reader = TCompactInputProtocol::with_config(input, under(message));
    let answer = reader.read_message_begin().and_then(|_| reader.skip(TType::Struct));
    (answer, reader.place())
}

#[test]
fn a_message_at_every_ceiling() {
    let behind = [&BYTES[..], &[0x00; 3]].concat();
    for most in 0..9 {
        // In the header, at its end, and in the struct: input stands behind the ceiling.
        let at = if most < 5 { 0 } else { 5 };
        assert_eq!(read(&BYTES, most), (Err(Refusal::MESSAGE_SIZE), at));
        assert_eq!(read(&behind, most), (Err(Refusal::MESSAGE_SIZE), at));
    }
    for most in [9, 10, i32::MAX as u32] {
        assert_eq!(read(&BYTES, most), (Ok(()), 9));
        assert_eq!(read(&behind, most), (Ok(()), 9));
    }
}

#[test]
fn the_true_end_is_end() {
    // A byte missed at the input's end is END, whether the ceiling stands there too or behind it.
    for most in [4, 5, i32::MAX as u32] {
        assert_eq!(read(&BYTES[..4], most), (Err(Refusal::END), 0));
    }
    for most in [8, 9] {
        assert_eq!(read(&BYTES[..8], most), (Err(Refusal::END), 5));
    }
    assert_eq!(read(&BYTES[..8], 7), (Err(Refusal::MESSAGE_SIZE), 5));
    assert_eq!(TCompactInputProtocol::with_config(&[], under(0)).read_i8(), Err(Refusal::END));
    assert_eq!(TCompactInputProtocol::with_config(&[0], under(0)).read_i8(), Err(Refusal::MESSAGE_SIZE));
}

#[test]
fn counts_up_to_the_ceiling() {
    // Eight i32 need eight bytes: they are there, but the ceiling lies before the last.
    let list = [0x85, 0, 0, 0, 0, 0, 0, 0, 0];
    let header = |most| TCompactInputProtocol::with_config(&list, under(most)).read_list_begin();
    assert_eq!(header(9), Ok(TListIdentifier { element_type: TType::I32, size: 8 }));
    assert_eq!(header(8), Err(Refusal::MESSAGE_SIZE));
    assert_eq!(TCompactInputProtocol::with_config(&list[..8], under(9)).read_list_begin(), Err(Refusal::END));
    let mut found = [Picked::Absent; 1];
    let mut reader = TCompactInputProtocol::with_config(&BYTES[5..], under(3));
    assert_eq!(reader.pick(&[2], &[TType::I32], &mut found), Err(Refusal::MESSAGE_SIZE));
    assert_eq!((found, reader.place()), ([Picked::Absent], 0));
}

#[test]
fn each_message_is_counted_anew() {
    let two = [BYTES, BYTES].concat();
    let mut reader = TCompactInputProtocol::with_config(&two, under(9));
    for end in [9, 18] {
        assert_eq!(reader.read_message_begin(), Ok(MESSAGE));
        reader.skip(TType::Struct).unwrap();
        assert_eq!(reader.place(), end);
    }
    // Without a header the count goes on from where the state was made, or from the last message's.
    let mut reader = TCompactInputProtocol::with_config(&two, under(9));
    reader.read_message_begin().unwrap();
    reader.skip(TType::Struct).unwrap();
    assert_eq!(reader.read_i8(), Err(Refusal::MESSAGE_SIZE));
    assert_eq!(reader.read_message_begin(), Ok(MESSAGE));

    let mut buffer = [0; 18];
    let mut out = TCompactOutputProtocol::with_config(&mut buffer, under(9));
    for end in [9, 18] {
        message(&mut out).unwrap();
        assert_eq!(out.place(), end);
        assert_eq!(out.write_i8(0), Err(Refusal::MESSAGE_SIZE));
    }
    assert_eq!(buffer, two[..]);
}

fn message(out: &mut TCompactOutputProtocol) -> Result<(), Refusal> {
    out.write_message_begin(&MESSAGE)?;
    out.write_struct_begin()?;
    out.write_field_begin(TType::Bool, 1)?;
    out.write_bool(true)?;
    out.write_field_begin(TType::I32, 2)?;
    out.write_i32(-1)?;
    out.write_field_stop()?;
    out.write_struct_end()
}

#[test]
fn a_writer_at_every_ceiling() {
    for most in 0..12 {
        let mut buffer = [0xAA; 12];
        let mut out = TCompactOutputProtocol::with_config(&mut buffer, under(most));
        let answer = message(&mut out);
        assert_eq!(answer, if most < 9 { Err(Refusal::MESSAGE_SIZE) } else { Ok(()) });
        // A call that does not fit has written nothing: the header is one call.
        let end = if most < 5 { 0 } else { most.min(9) as usize };
        assert_eq!(out.place(), end);
        assert_eq!(buffer[..end], BYTES[..end]);
        assert_eq!(buffer[end..], [0xAA; 12][end..]);
    }
}

#[test]
fn nineteen_before_fourteen() {
    // One call of each kind: with n bytes it is refused 19 where the ceiling is n - 1 and there is no room either, 14 where only room is missing.
    type Write = fn(&mut TCompactOutputProtocol) -> Result<(), Refusal>;
    let calls: [(Write, usize); 14] = [
        (|o| o.write_message_begin(&MESSAGE), 5),
        (|o| o.write_field_begin(TType::I32, 14), 1),
        (|o| o.write_field_begin(TType::I32, i16::MIN), 4),
        (|o| o.write_field_stop(), 1),
        (|o| o.write_field_begin(TType::Bool, 15).and_then(|_| o.write_bool(true)), 2),
        (|o| o.write_bool(false), 1),
        (|o| o.write_i8(-1), 1),
        (|o| o.write_i16(i16::MIN), 3),
        (|o| o.write_i32(i32::MIN), 5),
        (|o| o.write_i64(i64::MIN), 10),
        (|o| o.write_double(1.0), 8),
        (|o| o.write_bytes(&[0; 6]), 7),
        (|o| o.write_list_begin(TType::I32, 15), 2),
        (|o| o.write_map_begin(TType::I32, TType::I32, 128), 3),
    ];
    for (write, n) in calls {
        for (most, room, answer) in [
            (n - 1, n - 1, Err(Refusal::MESSAGE_SIZE)),
            (n - 1, 0, Err(Refusal::MESSAGE_SIZE)),
            (n - 1, 64, Err(Refusal::MESSAGE_SIZE)),
            (n, n - 1, Err(Refusal::NO_ROOM)),
            (n, n, Ok(())),
            (i32::MAX as usize, n - 1, Err(Refusal::NO_ROOM)),
        ] {
            let mut buffer = [0xAA; 64];
            let mut out = TCompactOutputProtocol::with_config(&mut buffer[..room], under(most as u32));
            assert_eq!(write(&mut out), answer, "{n} bytes, ceiling {most}, room {room}");
            if answer.is_err() {
                assert_eq!(out.place(), 0);
                assert_eq!(buffer, [0xAA; 64]);
            }
        }
    }
    // Nothing is always let through.
    let mut none = TCompactOutputProtocol::with_config(&mut [], under(0));
    none.write_struct_begin().unwrap();
    none.write_field_begin(TType::Bool, 1).unwrap();
    assert_eq!(none.write_bool(true), Err(Refusal::MESSAGE_SIZE));
    assert_eq!(none.write_string("four"), Err(Refusal::OUT_OF_TURN));
}

#[test]
fn a_ceiling_out_of_range() {
    for message in [1 << 31, u32::MAX] {
        assert_eq!(TCompactInputProtocol::with_config(&[0], under(message)).read_i8(), Err(Refusal::BAD_STATE));
        assert_eq!(TCompactOutputProtocol::with_config(&mut [0], under(message)).write_i8(0), Err(Refusal::BAD_STATE));
    }
    // The depth beside it has its own range.
    let limits = TConfiguration { depth: u32::MAX, ..TConfiguration::default() };
    assert_eq!(TCompactInputProtocol::with_config(&[0], limits).read_i8(), Err(Refusal::BAD_STATE));
    assert_eq!((Refusal::MESSAGE_SIZE.number(), Refusal::MESSAGE_SIZE.name()), (19, "MESSAGE SIZE"));
}
