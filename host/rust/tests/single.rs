//! Which of a struct's doubles an `f32` holds.
use tagrumzil::*;

// A struct of one list of these doubles.
fn listed(doubles: &[f64]) -> Vec<u8> {
    let mut bytes = vec![0; 16 + 9 * doubles.len()];
    let mut out = TCompactOutputProtocol::new(&mut bytes);
    out.write_struct_begin().unwrap();
    out.write_field_begin(TType::List, 1).unwrap();
    out.write_list_begin(TType::Double, doubles.len() as i32).unwrap();
    for double in doubles {
        out.write_double(*double).unwrap();
    }
    out.write_field_stop().unwrap();
    out.write_struct_end().unwrap();
    out.written().to_vec()
}

#[test]
fn the_request_s_samples() {
    let doubles = [0.5, 16_777_217.0, 2f64.powi(-149), 2f64.powi(-150), 0.0, -0.0, f64::INFINITY, f64::NEG_INFINITY, f64::NAN, 2f64.powi(128), -2f64.powi(127)];
    let bytes = listed(&doubles);
    assert_eq!(TCompactInputProtocol::new(&bytes).f32_counts(), Ok(F32Counts { yes: 7, no: 3, nan: 1 }));
    let mut answers = [9; 12];
    let mut reader = TCompactInputProtocol::new(&bytes);
    assert_eq!(reader.f32_answers(&mut answers), Ok(11));
    assert_eq!(answers, [0, 1, 0, 1, 0, 0, 0, 0, 2, 1, 0, 9]);
    for (double, answer) in doubles.iter().zip(answers) {
        let here = if double.is_nan() { F32Answer::NotANumber } else if *double as f32 as f64 == *double { F32Answer::Yes } else { F32Answer::No };
        assert_eq!(F32Answer::from_number(answer), here, "{double}");
    }
    // The reader stands behind the struct, where there is nothing more.
    assert_eq!(reader.f32_counts(), Err(Refusal::END));
}

#[test]
fn refused() {
    let bytes = listed(&[0.5, 0.1]);
    // One byte short: skip's refusal, and no answer; the reader stays.
    let cut = &bytes[..bytes.len() - 1];
    let mut reader = TCompactInputProtocol::new(cut);
    let mut answers = [9; 4];
    assert_eq!(reader.f32_counts(), Err(Refusal::END));
    assert_eq!(reader.f32_answers(&mut answers), Err(Refusal::END));
    assert_eq!(reader.skip(TType::Struct), Err(Refusal::END));
    assert_eq!(answers, [9; 4]);
    // A row too short.
    let mut reader = TCompactInputProtocol::new(&bytes);
    assert_eq!(reader.f32_answers(&mut answers[..1]), Err(Refusal::NO_ROOM));
    assert_eq!(answers, [9; 4]);
    assert_eq!(reader.f32_answers(&mut answers), Ok(2));
    assert_eq!(answers, [0, 1, 9, 9]);
}

#[test]
fn keys_and_inner_structs() {
    // A map from double to a struct with one double, and a double in a struct behind it: four doubles.
    let mut bytes = vec![0x1b, 0x01, 0x7c];
    bytes.extend(0.5f64.to_le_bytes());
    bytes.push(0x17);
    bytes.extend(0.1f64.to_le_bytes());
    bytes.extend([0x00, 0x1c, 0x17]);
    bytes.extend(f64::NAN.to_le_bytes());
    bytes.extend([0x00, 0x07, 0x01]);
    bytes.extend(3.0f64.to_le_bytes());
    bytes.push(0x00);
    let counts = TCompactInputProtocol::new(&bytes).f32_counts().unwrap();
    assert_eq!(counts, F32Counts { yes: 2, no: 1, nan: 1 });
    assert_eq!(counts.all(), 4);
}
