//! The day file: what is written reads back, each rule broken once, and the writer's refusals.
use tagrumzil::{write_day, Day, DayWriter, Refusal, TCompactInputProtocol, TMessageType};

fn day(messages: &[&[u8]]) -> Result<Vec<u8>, Refusal> {
    let mut writer = DayWriter::new();
    for message in messages {
        writer.push(message);
    }
    writer.finish()
}

/// Numbers of the header, and so many bytes behind them.
fn file(numbers: &[u32], more: usize) -> Vec<u8> {
    let mut bytes: Vec<u8> = numbers.iter().flat_map(|n| n.to_le_bytes()).collect();
    bytes.resize(bytes.len() + more, 0);
    bytes
}

fn refused(bytes: &[u8]) -> bool {
    Day::new(bytes).err() == Some(Refusal::BAD_DAY)
}

#[test]
fn the_empty_day() {
    let bytes = [0, 0, 0, 0, 8, 0, 0, 0];
    assert_eq!(day(&[]).unwrap(), bytes);
    let empty = Day::new(&bytes).unwrap();
    assert!(empty.is_empty());
    assert_eq!(empty.messages().next(), None);
    assert_eq!(empty.message(0), Err(Refusal::BAD_DAY));
}

#[test]
fn reads_back() {
    let messages: [&[u8]; 3] = [b"one", b"x", &[7; 300]];
    let bytes = day(&messages).unwrap();
    let read = Day::new(&bytes).unwrap();
    assert_eq!(read.len(), 3);
    assert_eq!(read.messages().len(), 3);
    assert!(read.into_iter().eq(messages));
    assert_eq!(read.message(1), Ok(messages[1]));
    assert_eq!(read.message(3), Err(Refusal::BAD_DAY));
    assert_eq!(read.message(usize::MAX), Err(Refusal::BAD_DAY));
}

#[test]
fn each_rule() {
    assert!(Day::new(&file(&[2, 16, 19, 21], 5)).is_ok());
    assert!(refused(&[]));
    assert!(refused(&file(&[0], 3)));
    assert!(refused(&file(&[0, 8], 1)));
    assert!(refused(&file(&[2, 15, 19, 21], 5)));
    assert!(refused(&file(&[2, 16, 16, 21], 5)));
    assert!(refused(&file(&[2, 16, 22, 21], 5)));
    assert!(refused(&file(&[2, 16, 19, 20], 5)));
    assert!(refused(&file(&[2, 16, 19, 22], 5)));
    assert!(refused(&file(&[1 << 30, 8], 0)));
}

#[test]
fn as_many_as_may_be() {
    let bytes = vec![1; 4097];
    let ends: Vec<usize> = (1..=4097).collect();
    let mut out = vec![0; 30_000];
    assert_eq!(write_day(&mut out, &bytes[..4096], &ends[..4096]), Ok(4 * 4096 + 8 + 4096));
    assert_eq!(Day::new(&out[..4 * 4096 + 8 + 4096]).unwrap().len(), 4096);
    assert_eq!(write_day(&mut out, &bytes, &ends), Err(Refusal::BAD_DAY));
}

#[test]
fn what_the_writer_refuses() {
    let mut out = [0xaa; 21];
    assert_eq!(day(&[b"a", b""]), Err(Refusal::BAD_DAY));
    assert_eq!(write_day(&mut out, b"abcde", &[3, 2, 5]), Err(Refusal::BAD_DAY));
    assert_eq!(write_day(&mut out, b"abcde", &[3, 6]), Err(Refusal::BAD_DAY));
    assert_eq!(write_day(&mut out, b"abcde", &[3, 4]), Err(Refusal::BAD_DAY));
    assert_eq!(write_day(&mut [], b"abcde", &[3, 3, 5]), Err(Refusal::BAD_DAY));
    assert_eq!(write_day(&mut out[..20], b"abcde", &[3, 5]), Err(Refusal::NO_ROOM));
    assert_eq!(out, [0xaa; 21]);
    assert_eq!(write_day(&mut out, b"abcde", &[3, 5]), Ok(21));
    assert_eq!(Refusal::BAD_DAY.to_string().split(',').next(), Some("refused 18: BAD DAY"));
}

#[test]
fn a_message_is_read_as_a_part() {
    let bytes = day(&[&[0x82], &[0x82, 0x21, 0x07, 0x01, b't', 0x00]]).unwrap();
    let read = Day::new(&bytes).unwrap();
    let mut short = TCompactInputProtocol::new(read.message(0).unwrap());
    assert_eq!(short.read_message_begin().err(), Some(Refusal::END));
    let mut input = TCompactInputProtocol::new(read.message(1).unwrap());
    let message = input.read_message_begin().unwrap();
    assert_eq!((message.message_type, message.sequence_number), (TMessageType::Call, 7));
}
