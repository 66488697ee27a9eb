//! The scope's sample bytes (table T), and what a refusal leaves behind, through the Rust crate.
use tagrumzil::*;

fn written(run: impl FnOnce(&mut TCompactOutputProtocol) -> Result<(), Refusal>) -> Vec<u8> {
    let mut buffer = [0xAA; 64];
    let mut out = TCompactOutputProtocol::new(&mut buffer);
    run(&mut out).unwrap();
    out.written().to_vec()
}

#[test]
fn t1_to_t4_numbers() {
    for (n, bytes) in [(0, vec![0]), (-1, vec![1]), (1, vec![2]), (i32::MIN, vec![0xFF, 0xFF, 0xFF, 0xFF, 0x0F])] {
        assert_eq!(written(|o| o.write_i32(n)), bytes);
        assert_eq!(TCompactInputProtocol::new(&bytes).read_i32(), Ok(n));
    }
    assert_eq!(written(|o| o.write_i16(-32768)), [0xFF, 0xFF, 0x03]);
    assert_eq!(TCompactInputProtocol::new(&[0xFF, 0xFF, 0xFF, 0xFF, 0x7F]).read_i32(), Ok(i32::MIN));
    assert_eq!(TCompactInputProtocol::new(&[0xFF; 5]).read_i32(), Err(Refusal::LONG_VARINT));
    assert_eq!(TCompactInputProtocol::new(&[0xFF; 4]).read_i32(), Err(Refusal::END));
    assert_eq!(TCompactInputProtocol::new(&[0x80, 0x80, 0x04]).read_i16(), Err(Refusal::RANGE));
}

#[test]
fn an_i16_out_of_range() {
    // 65,537 is 82 80 08, 32,768 is 80 80 04: as a value, as a field's id, as a bool field's id, in skip and in the picker.
    let id = [0x05, 0x82, 0x80, 0x08, 0x02, 0x00];
    let bool_id = [0x01, 0x82, 0x80, 0x08, 0x00];
    let list = [0x14, 0x80, 0x80, 0x04];
    let value = [0x14, 0x80, 0x80, 0x04, 0x00];
    assert_eq!(TCompactInputProtocol::new(&list[1..]).read_i16(), Err(Refusal::RANGE));
    assert_eq!(TCompactInputProtocol::new(&[0xFE, 0xFF, 0x03]).read_i16(), Ok(32767));
    for bytes in [&id[..], &bool_id] {
        let mut reader = TCompactInputProtocol::new(bytes);
        assert_eq!(reader.read_field_begin(), Err(Refusal::RANGE));
        // Nothing waits behind the refusal, and the place is as it was.
        assert_eq!((reader.read_i8(), reader.place()), (Ok(bytes[0] as i8), 1));
    }
    assert_eq!(skip(&list, TType::List), Err(Refusal::RANGE));
    for bytes in [&id[..], &bool_id, &value] {
        assert_eq!(skip(bytes, TType::Struct), Err(Refusal::RANGE));
        assert_eq!(picked(bytes, &[1], &[TType::I32]), (Err(Refusal::RANGE), [Picked::Bool(true); 4], 0));
    }
}

fn field(last: i16, bytes: &[u8]) -> Result<TFieldIdentifier, Refusal> {
    // The last id is set by a field read before.
    let input = [written(|o| o.write_field_begin(TType::I32, last)), bytes.to_vec()].concat();
    let mut reader = TCompactInputProtocol::new(&input);
    reader.read_field_begin()?;
    reader.read_field_begin()
}

#[test]
fn t5_to_t8_fields() {
    assert_eq!(written(|o| o.write_field_begin(TType::I32, 14)), [0xE5]);
    assert_eq!(written(|o| o.write_field_begin(TType::I32, 15)), [0x05, 0x1E]);
    assert_eq!(TCompactInputProtocol::new(&[0xF5]).read_field_begin().unwrap().id, Some(15));
    assert_eq!(field(32760, &[0x75]).unwrap().id, Some(32767));
    assert_eq!(field(32760, &[0x85]), Err(Refusal::FIELD_ID));
    let long = written(|o| o.write_field_begin(TType::I32, 32767).and(o.write_field_begin(TType::I32, -32768)));
    assert_eq!(long[4..], [0x05, 0xFF, 0xFF, 0x03]);
    assert_eq!(TCompactInputProtocol::new(&[0x10]).read_field_begin().unwrap().field_type, TType::Stop);
}

#[test]
fn t9_to_t12_headers() {
    assert_eq!(written(|o| o.write_list_begin(TType::I32, 14)), [0xE5]);
    assert_eq!(written(|o| o.write_list_begin(TType::I32, 15)), [0xF5, 0x0F]);
    assert_eq!(TCompactInputProtocol::new(&[0xF5, 0x80, 0x80, 0x80, 0x80, 0x08]).read_list_begin(), Err(Refusal::NEGATIVE_SIZE));
    assert_eq!(TCompactInputProtocol::new(&[0xFF]).read_list_begin(), Err(Refusal::BAD_TYPE));
    assert_eq!(written(|o| o.write_map_begin(TType::String, TType::I32, 0)), [0x00]);
    assert_eq!(written(|o| o.write_map_begin(TType::String, TType::I32, 1)), [0x01, 0x85]);
    let message = TMessageIdentifier { name: "t", message_type: TMessageType::Call, sequence_number: 1 };
    let bytes = written(|o| o.write_message_begin(&message));
    assert_eq!(bytes, [0x82, 0x21, 0x01, 0x01, 0x74]);
    assert_eq!(TCompactInputProtocol::new(&bytes).read_message_begin(), Ok(message));
}

#[test]
fn t13_bool_and_skip() {
    let bytes = [0x11, 0x25, 0x01, 0x00];
    let mut reader = TCompactInputProtocol::new(&bytes);
    reader.read_struct_begin().unwrap();
    assert_eq!(reader.read_field_begin(), Ok(TFieldIdentifier { field_type: TType::Bool, id: Some(1) }));
    assert_eq!(reader.read_i32(), Err(Refusal::OUT_OF_TURN));
    assert_eq!(reader.read_bool(), Ok(true));
    assert_eq!(reader.read_field_begin(), Ok(TFieldIdentifier { field_type: TType::I32, id: Some(3) }));
    assert_eq!(reader.read_i32(), Ok(-1));
    assert_eq!(reader.read_field_begin().unwrap().field_type, TType::Stop);
    reader.read_struct_end().unwrap();
    assert_eq!((reader.place(), reader.rest()), (4, &[][..]));
    assert_eq!(reader.read_struct_end(), Err(Refusal::OUT_OF_TURN));
    assert_eq!(skip(&bytes, TType::Struct), Ok(4));
    assert_eq!(skip(&bytes, TType::Stop), Err(Refusal::BAD_TYPE));
}

#[test]
fn ids_of_outer_structs() {
    let bytes = written(|o| {
        o.write_struct_begin()?;
        o.write_field_begin(TType::Struct, -7)?;
        o.write_struct_begin()?;
        o.write_field_begin(TType::Bool, 2)?;
        o.write_bool(false)?;
        o.write_field_stop()?;
        o.write_struct_end()?;
        o.write_field_begin(TType::I08, -6)?;
        o.write_i8(-1)?;
        o.write_field_stop()?;
        o.write_struct_end()
    });
    assert_eq!(bytes, [0x0C, 0x0D, 0x22, 0x00, 0x13, 0xFF, 0x00]);
    let mut r = TCompactInputProtocol::new(&bytes);
    r.read_struct_begin().unwrap();
    assert_eq!(r.read_field_begin().unwrap().id, Some(-7));
    r.read_struct_begin().unwrap();
    assert_eq!(r.read_field_begin().unwrap().id, Some(2));
    assert_eq!(r.read_bool(), Ok(false));
    assert_eq!(r.read_field_begin().unwrap().id, None);
    r.read_struct_end().unwrap();
    assert_eq!(r.read_field_begin().unwrap().id, Some(-6));
}

#[test]
fn a_refusal_leaves_all_as_it_was() {
    let mut buffer = [0xAA; 4];
    let mut out = TCompactOutputProtocol::with_config(&mut buffer, TConfiguration { depth: 1, string: 3, container: 2, ..TConfiguration::default() });
    assert_eq!(out.write_double(1.0), Err(Refusal::NO_ROOM));
    assert_eq!(out.write_string("four"), Err(Refusal::SIZE_LIMIT));
    assert_eq!(out.write_list_begin(TType::I32, 3), Err(Refusal::SIZE_LIMIT));
    assert_eq!(out.write_list_begin(TType::I32, -1), Err(Refusal::NEGATIVE_SIZE));
    assert_eq!(out.write_list_begin(TType::Stop, 1), Err(Refusal::BAD_TYPE));
    assert_eq!(out.write_field_begin(TType::Stop, 1), Err(Refusal::BAD_TYPE));
    out.write_struct_begin().unwrap();
    assert_eq!(out.write_struct_begin(), Err(Refusal::DEPTH));
    assert_eq!(out.place(), 0);
    out.write_bytes(b"abc").unwrap();
    assert_eq!(buffer, [3, b'a', b'b', b'c']);

    let limits = TConfiguration { depth: 65, string: 0, container: 0, message: 0 };
    let refusal = TCompactInputProtocol::with_config(&[0], limits).read_i8().unwrap_err();
    assert_eq!((refusal, refusal.number(), refusal.to_string()), (Refusal::BAD_STATE, 15, format!("refused 15: BAD STATE, {}", Refusal::BAD_STATE.sentence())));
}

#[test]
fn limits_of_sizes() {
    // Each has a range of its own, and neither runs into the other.
    for (string, container) in [(1 << 31, 0), (0, 1 << 31), (u32::MAX, u32::MAX)] {
        let limits = TConfiguration { string, container, ..TConfiguration::default() };
        assert_eq!(TCompactInputProtocol::with_config(&[0], limits).read_i8(), Err(Refusal::BAD_STATE));
        assert_eq!(TCompactOutputProtocol::with_config(&mut [0], limits).write_i8(0), Err(Refusal::BAD_STATE));
    }
    let limits = TConfiguration { string: i32::MAX as u32, container: 1, ..TConfiguration::default() };
    assert_eq!(TCompactInputProtocol::with_config(&[0x25, 0, 0], limits).read_list_begin(), Err(Refusal::SIZE_LIMIT));
    assert_eq!(TCompactInputProtocol::with_config(&[2, 7, 8], limits).read_bytes(), Ok(&[7, 8][..]));
    let limits = TConfiguration { string: 1, container: i32::MAX as u32, ..TConfiguration::default() };
    assert_eq!(TCompactInputProtocol::with_config(&[2, 7, 8], limits).read_bytes(), Err(Refusal::SIZE_LIMIT));
    assert!(TCompactInputProtocol::with_config(&[0x25, 0, 0], limits).read_list_begin().is_ok());
}

#[test]
fn ids_below_zero() {
    // Last ids of either sign, with bools that wait beside them, and put by while a struct is read or written.
    let fields = [(TType::I32, -2), (TType::Bool, -1), (TType::Struct, 3), (TType::Bool, i16::MAX), (TType::Bool, i16::MIN), (TType::Bool, 0)];
    let mut buffer = [0; 64];
    let mut out = TCompactOutputProtocol::new(&mut buffer);
    out.write_struct_begin().unwrap();
    for (kind, id) in fields {
        out.write_field_begin(kind, id).unwrap();
        match kind {
            TType::I32 => out.write_i32(id as i32).unwrap(),
            TType::Bool => {
                assert_eq!(out.write_field_stop(), Err(Refusal::OUT_OF_TURN));
                out.write_bool(id < 0).unwrap();
            }
            _ => {
                out.write_struct_begin().unwrap();
                out.write_field_begin(TType::Bool, -7).unwrap();
                out.write_bool(true).unwrap();
                out.write_field_stop().unwrap();
                out.write_struct_end().unwrap();
            }
        }
    }
    out.write_field_stop().unwrap();
    out.write_struct_end().unwrap();

    let mut input = TCompactInputProtocol::new(out.written());
    input.read_struct_begin().unwrap();
    for (kind, id) in fields {
        let field = input.read_field_begin().unwrap();
        assert_eq!((field.field_type, field.id), (kind, Some(id)));
        match kind {
            TType::I32 => assert_eq!(input.read_i32(), Ok(id as i32)),
            TType::Bool => {
                assert_eq!(input.read_field_begin(), Err(Refusal::OUT_OF_TURN));
                assert_eq!(input.read_bool(), Ok(id < 0));
            }
            _ => {
                input.read_struct_begin().unwrap();
                assert_eq!(input.read_field_begin().unwrap().id, Some(-7));
                input.skip(TType::Bool).unwrap();
                assert_eq!(input.read_field_begin().unwrap().field_type, TType::Stop);
                input.read_struct_end().unwrap();
            }
        }
    }
    assert_eq!(input.read_field_begin().unwrap().field_type, TType::Stop);
    input.read_struct_end().unwrap();
    assert_eq!(input.rest(), &[] as &[u8]);
}

#[test]
fn bare_numbers() {
    let mut buffer = [0; 10];
    for n in [0, 127, 128, u32::MAX as u64, u64::MAX] {
        let end = write_varint(&mut buffer, 0, n).unwrap();
        assert_eq!((varint_len(n), read_varint64(&buffer, 0)), (end, Ok((n, end))));
    }
    assert_eq!(write_varint(&mut buffer, 9, 128), Err(Refusal::NO_ROOM));
    assert_eq!(read_varint32(&[0x80, 0x01], 0), Ok((128, 2)));
    assert_eq!(read_i16(&[0xFF, 0xFF, 0x03], 0), Ok((-32768, 3)));
    assert_eq!(read_i16(&[0x80, 0x80, 0x04], 0), Err(Refusal::RANGE));
    assert_eq!(read_le64(&[1, 0, 0, 0, 0, 0, 0, 0x80], 0), Ok((0x8000_0000_0000_0001, 8)));
    // a place at the end misses a byte, one past it is no place
    assert_eq!((read_varint32(&[1], 1), read_varint32(&[1], 2)), (Err(Refusal::END), Err(Refusal::BAD_STATE)));
    assert_eq!((read_varint64(&[1], 2), read_i16(&[1], 2), read_le64(&[1], 2)), (Err(Refusal::BAD_STATE), Err(Refusal::BAD_STATE), Err(Refusal::BAD_STATE)));
    assert_eq!((write_varint(&mut [0], 1, 1), write_varint(&mut [0], 2, 1)), (Err(Refusal::NO_ROOM), Err(Refusal::BAD_STATE)));
    for n in [i32::MIN, -1, 0, i32::MAX] {
        assert_eq!(zigzag_to_i32(i32_to_zigzag(n)), n);
        assert_eq!(zigzag_to_i64(i64_to_zigzag(n as i64 * 3)), n as i64 * 3);
    }
}

const TWO: [u8; 4] = [0x11, 0x25, 0x01, 0x00];
const THREE: [u8; 13] = [0x11, 0x17, 0, 0, 0, 0, 0, 0, 0xF0, 0x3F, 0x15, 0x01, 0x00];

fn picked<'a>(bytes: &'a [u8], ids: &[i16], types: &[TType]) -> (Result<(), Refusal>, [Picked<'a>; 4], usize) {
    let mut reader = TCompactInputProtocol::new(bytes);
    let mut found = [Picked::Bool(true); 4];
    let answer = reader.pick(ids, types, &mut found);
    (answer, found, reader.place())
}

#[test]
fn t13_picking() {
    let untouched = Picked::Bool(true);
    assert_eq!(picked(&TWO, &[3], &[TType::I32]), (Ok(()), [Picked::Here(&TWO[2..3]), untouched, untouched, untouched], 4));
    assert_eq!(picked(&THREE, &[3], &[TType::I32]), (Ok(()), [Picked::Here(&THREE[11..12]), untouched, untouched, untouched], 13));
    let (answer, found, end) = picked(&THREE, &[3, 1, 2, 4], &[TType::I64, TType::Bool, TType::Double, TType::I32]);
    assert_eq!((answer, end), (Ok(()), 13));
    assert_eq!(found, [Picked::WrongType, Picked::Bool(true), Picked::Here(&THREE[2..10]), Picked::Absent]);
}

#[test]
fn refused_picks_leave_all() {
    let untouched = ([Picked::Bool(true); 4], 0);
    let refused = |bytes: &[u8], ids: &[i16], types: &[TType], why| {
        let (answer, found, place) = picked(bytes, ids, types);
        assert_eq!((answer, (found, place)), (Err(why), untouched));
    };
    refused(&TWO[..3], &[3], &[TType::I32], Refusal::END);
    refused(&TWO, &[3, 3], &[TType::I32; 2], Refusal::BAD_LIST);
    refused(&TWO, &[3], &[TType::Stop], Refusal::BAD_LIST);
    refused(&TWO, &[3], &[], Refusal::BAD_LIST);
    refused(&TWO, &[], &[TType::I32; 65], Refusal::BAD_LIST);
    refused(&TWO, &[0; 65], &[TType::I32; 65], Refusal::BAD_LIST);
    refused(&TWO, &[1, 2, 3, 4, 5], &[TType::I32; 5], Refusal::NO_ROOM);
    assert_eq!(picked(&TWO, &[], &[]).0, Ok(()));
}
