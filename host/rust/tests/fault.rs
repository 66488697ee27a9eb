//! Where and why a struct is refused.
use tagrumzil::*;

fn why(bytes: &[u8]) -> String {
    TCompactInputProtocol::new(bytes).why().map_or("accepted".to_string(), |fault| fault.to_string())
}

#[test]
fn told() {
    assert_eq!(why(&[0x11, 0x25, 0x01, 0x00]), "accepted");
    assert_eq!(why(&[]), "refused 1 END at byte 0");
    assert_eq!(why(&[0x1e]), "refused 4 BAD TYPE at byte 0");
    // A byte that is missing, and a body cut short.
    assert_eq!(why(&[0x15, 0x80]), "refused 1 END at byte 2, in field 1");
    assert_eq!(why(&[0x17, 0, 0, 0]), "refused 1 END at byte 0, in field 1");
    assert_eq!(why(&[0x18, 0x05, b'a']), "refused 1 END at byte 1, in field 1");
    // Keys and values are counted apart; an element begins before its depth is checked.
    assert_eq!(why(&[0x1b, 0x02, 0x13, 0x01, 0x07, 0x05, 0x07]), "refused 5 BAD BOOL at byte 5, in field 1, key 1");
    assert_eq!(why(&[0x1b, 0x02, 0x31, 0x01, 0x01, 0x07, 0x05]), "refused 5 BAD BOOL at byte 6, in field 1, value 1");
    assert_eq!(why(&[0x05, 0x09, 0xff, 0xff, 0xff, 0xff, 0xff]), "refused 6 LONG VARINT at byte 6, in field -5");
    let deep = [0x1c; 70];
    let fault = TCompactInputProtocol::new(&deep).why().unwrap();
    assert_eq!((fault.refusal(), fault.offset(), fault.path()), (Refusal::DEPTH, 63, &[Step::Field(1); 64][..]));
}

#[test]
fn behind_a_header_and_under_a_ceiling() {
    let bytes = [0x82, 0x21, 0x01, 0x01, b't', 0x19, 0x2c, 0x13, 0x07, 0x00, 0x1e, 0x00, 0x00];
    let mut reader = TCompactInputProtocol::new(&bytes);
    reader.read_message_begin().unwrap();
    assert_eq!(reader.why().unwrap().to_string(), "refused 4 BAD TYPE at byte 10, in field 1, element 1");
    assert_eq!((reader.place(), reader.skip(TType::Struct)), (5, Err(Refusal::BAD_TYPE)));

    let mut reader = TCompactInputProtocol::with_config(&bytes, TConfiguration { message: 9, ..TConfiguration::default() });
    reader.read_message_begin().unwrap();
    assert_eq!(reader.why().unwrap().to_string(), "refused 19 MESSAGE SIZE at byte 9, in field 1, element 0");

    // A bool that waits.
    let mut reader = TCompactInputProtocol::new(&[0x11, 0x00]);
    reader.read_field_begin().unwrap();
    assert_eq!(reader.why().unwrap().to_string(), "refused 12 OUT OF TURN at byte 1");
}
