//! What is there for those who use the crate: a buffer that grows, fields picked with their types, limits checked when they are set, a sentence for each refusal.
use tagrumzil::*;

// One row of calls, on whichever buffer.
fn trial<B: Buffer>(out: &mut CompactWriter<B>, points: i32) -> Result<(), Refusal> {
    out.write_message_begin(&TMessageIdentifier { name: "trial", message_type: TMessageType::Call, sequence_number: 7 })?;
    out.write_struct_begin()?;
    out.write_field_begin(TType::List, 1)?;
    out.write_list_begin(TType::Double, points)?;
    for k in 0..points {
        out.write_double(f64::from(k) / 8.0)?;
    }
    out.write_field_begin(TType::String, 2)?;
    out.write_string(&"m".repeat(points as usize))?;
    out.write_field_begin(TType::Bool, 3)?;
    out.write_bool(false)?;
    out.write_field_stop()?;
    out.write_struct_end()
}

#[test]
fn a_growing_buffer_has_the_bytes_of_a_lent_one() {
    for points in [0, 1, 7, 8, 100, 1000] {
        let mut lent = vec![0; 16_384];
        let mut out = TCompactOutputProtocol::new(&mut lent);
        trial(&mut out, points).unwrap();
        let mut grown = GrowingOutputProtocol::new();
        trial(&mut grown, points).unwrap();
        assert_eq!(grown.written(), out.written());
        assert_eq!(grown.place(), out.place());
        assert_eq!(grown.finish(), out.written());
    }
}

#[test]
fn a_growing_buffer_ends_at_the_ceiling() {
    let limits = TConfiguration::new(64, 1000, 1000, 100).unwrap();
    let mut out = GrowingOutputProtocol::with_config(limits);
    assert_eq!(trial(&mut out, 50), Err(Refusal::MESSAGE_SIZE));
    assert!(out.place() <= 100);
    assert_eq!(out.write_string(&"m".repeat(1001)), Err(Refusal::SIZE_LIMIT));
}

#[test]
fn fields_with_their_types() {
    let mut out = GrowingOutputProtocol::new();
    let uuid = *b"0123456789abcdef";
    out.write_struct_begin().unwrap();
    out.write_field_begin(TType::I08, 1).and_then(|_| out.write_i8(-3)).unwrap();
    out.write_field_begin(TType::I16, 2).and_then(|_| out.write_i16(-300)).unwrap();
    out.write_field_begin(TType::I32, 3).and_then(|_| out.write_i32(70_000)).unwrap();
    out.write_field_begin(TType::I64, 4).and_then(|_| out.write_i64(1 << 40)).unwrap();
    out.write_field_begin(TType::Double, 5).and_then(|_| out.write_double(-0.125)).unwrap();
    out.write_field_begin(TType::Uuid, 6).and_then(|_| out.write_uuid(&uuid)).unwrap();
    out.write_field_begin(TType::String, 7).and_then(|_| out.write_bytes(&[0xFF])).unwrap();
    out.write_field_begin(TType::Bool, 8).and_then(|_| out.write_bool(true)).unwrap();
    out.write_field_begin(TType::List, 9).and_then(|_| out.write_list_begin(TType::I32, 1)).and_then(|_| out.write_i32(5)).unwrap();
    out.write_field_stop().unwrap();
    let bytes = out.finish();

    let mut reader = TCompactInputProtocol::new(&bytes);
    use TType::*;
    let [a, b, c, d, e, f, g, h, i] =
        reader.pick_fields([(1, I08), (2, I16), (3, I32), (4, I64), (5, Double), (6, Uuid), (7, TType::String), (8, Bool), (9, List)]).unwrap();
    assert_eq!(reader.place(), bytes.len());
    assert_eq!((a.as_i8(), b.as_i16(), c.as_i32(), d.as_i64(), e.as_f64()), (Some(-3), Some(-300), Some(70_000), Some(1 << 40), Some(-0.125)));
    assert_eq!((f.as_uuid(), g.as_bytes(), g.as_str(), h.as_bool()), (Some(uuid), Some(&[0xFF][..]), None, Some(true)));
    let mut inside = i.reader().unwrap();
    assert_eq!(inside.read_list_begin(), Ok(TListIdentifier { element_type: I32, size: 1 }));
    assert_eq!(inside.read_i32(), Ok(5));
    // Another type than the field's gives nothing.
    assert_eq!((a.as_i16(), c.as_i64(), d.as_f64(), e.as_i64(), a.as_bool(), h.as_i8()), (None, None, None, None, None, None));

    let [wrong, absent] = TCompactInputProtocol::new(&bytes).pick_fields([(3, I64), (10, I32)]).unwrap();
    assert_eq!((wrong.picked(), absent.picked()), (Picked::WrongType, Picked::Absent));
    assert_eq!((wrong.as_i64(), absent.as_i32()), (None, None));
    assert_eq!(TCompactInputProtocol::new(&bytes).pick_fields([(3, I64), (3, I32)]).unwrap_err(), Refusal::BAD_LIST);
}

#[test]
fn limits_are_checked_when_they_are_set() {
    let most = i32::MAX as u32;
    assert_eq!(TConfiguration::new(64, most, most, most), Ok(TConfiguration { depth: 64, string: most, container: most, message: most }));
    for (depth, string, container, message) in [(65, 1, 1, 1), (1, most + 1, 1, 1), (1, 1, most + 1, 1), (1, 1, 1, most + 1)] {
        assert_eq!(TConfiguration::new(depth, string, container, message), Err(Refusal::BAD_STATE));
        // as the archive has it
        let limits = TConfiguration { depth, string, container, message };
        assert_eq!(TCompactInputProtocol::with_config(&[0], limits).read_i8(), Err(Refusal::BAD_STATE));
    }
}

#[test]
fn a_sentence_for_each_refusal() {
    assert_eq!(Refusal::BAD_BOOL.to_string(), "refused 5: BAD BOOL, an element bool that is not 0, 1 or 2");
    assert_eq!(Refusal::MESSAGE_SIZE.sentence(), "a byte needed lies past the message's ceiling, with input behind it; or a call's bytes would pass it");
    assert_eq!(version(), 1);
}
