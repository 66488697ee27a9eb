//! Frames through the Rust crate: however the bytes are cut, the answer is skip's over the whole frame.
use tagrumzil::*;

const LIMITS: TConfiguration = TConfiguration { depth: 64, string: 65_536, container: 65_536, message: i32::MAX as u32 };

// Every type once, in containers too.
const EVERY: [u8; 73] = [
    0x11, 0x12, 0x13, 0x07, 0x14, 0x03, 0x15, 0x80, 0x01, 0x16, 0xFF, 0x01, 0x17, 1, 2, 3, 4, 5, 6, 7, 8, 0x18, 0x03, b'a', b'b', b'c', 0x19, 0x25, 0x02, 0x04,
    0x1A, 0x11, 0x01, 0x1B, 0x02, 0x38, 0x01, 0x01, b'x', 0x02, 0x00, 0x1C, 0x05, 0x06, 0x80, 0x01, 0x00, 0x1D, 0, 1, 2, 3, 4, 5, 6, 7, 8, 9, 10, 11, 12, 13, 14, 15, 0x19, 0x2C, 0x11, 0x00,
    0x11, 0x00, 0x1B, 0x00, 0x00,
];

/// Skip's answer over the whole.
fn whole(frame: &[u8], limits: TConfiguration) -> Progress {
    let mut reader = TCompactInputProtocol::with_config(frame, limits);
    match reader.skip(TType::Struct) {
        Ok(()) => Progress::Done(reader.place()),
        Err(why) => Progress::Refused(why),
    }
}

/// The answers of the bursts between these cuts, one after the other.
fn cut(frame: &[u8], length: usize, limits: TConfiguration, cuts: &[usize]) -> Vec<Progress> {
    let mut skip = FrameSkip::announce(length, limits);
    let mut ends = cuts.to_vec();
    ends.push(frame.len());
    let mut at = 0;
    ends.into_iter().map(|end| { let from = std::mem::replace(&mut at, end); skip.take(&frame[from..end]) }).collect()
}

/// However a frame is cut it answers as skip does; once an answer is final it stays, in answer and state; and a state that was put by goes on as it would have.
fn holds(frame: &[u8], limits: TConfiguration) {
    let n = frame.len();
    let want = whole(frame, limits);
    for at in 0..=n {
        assert_eq!(*cut(frame, n, limits, &[at]).last().unwrap(), want, "{frame:02x?} at {at}");
        assert_eq!(*cut(frame, n, limits, &[at, at, at]).last().unwrap(), want);
    }
    let mut skip = FrameSkip::announce(n, limits);
    let mut last = skip.take(&[]);
    for b in frame {
        skip = FrameSkip::from_numbers(*skip.numbers());
        let before = skip.clone();
        let next = skip.take(std::slice::from_ref(b));
        if last != Progress::More {
            assert_eq!((next, &skip), (last, &before));
        }
        last = next;
    }
    assert_eq!(last, want);
    assert_eq!(skip.close(), want);
    let behind = [frame, &[0xFF; 3]].concat();
    assert_eq!(*cut(&behind, n, limits, &[]).last().unwrap(), want);
}

#[test]
fn however_it_is_cut() {
    assert_eq!(whole(&EVERY, LIMITS), Progress::Done(73));
    holds(&EVERY, LIMITS);
    for end in 0..EVERY.len() {
        holds(&EVERY[..end], LIMITS);
    }
}

#[test]
fn damaged() {
    for at in 0..EVERY.len() {
        for bit in 0..8 {
            let mut frame = EVERY;
            frame[at] ^= 1 << bit;
            holds(&frame, LIMITS);
            holds(&frame, TConfiguration { depth: 2, string: 2, container: 1, message: 60 });
        }
    }
}

#[test]
fn ceilings() {
    for message in 0..80 {
        holds(&EVERY, TConfiguration { message, ..LIMITS });
        holds(&EVERY[..40], TConfiguration { message, ..LIMITS });
    }
}

#[test]
fn as_soon_as_it_is_known() {
    // A string of nine bytes in a frame that has five behind its length; elements that can't be there; a map at the depth limit, whose key has not come.
    assert_eq!(cut(&[0x18, 0x09], 7, LIMITS, &[1]), [Progress::More, Progress::Refused(Refusal::END)]);
    assert_eq!(cut(&[0x19, 0x37], 9, LIMITS, &[1]), [Progress::More, Progress::Refused(Refusal::END)]);
    assert_eq!(cut(&[0x1B, 0x01, 0x39], 6, TConfiguration { depth: 2, ..LIMITS }, &[2]), [Progress::More, Progress::Refused(Refusal::DEPTH)]);
    // A frame of no bytes misses one; so does one under a ceiling of none, with bytes behind it.
    assert_eq!(FrameSkip::announce(0, LIMITS).take(&[]), Progress::Refused(Refusal::END));
    assert_eq!(FrameSkip::announce(1, TConfiguration { message: 0, ..LIMITS }).take(&[]), Progress::Refused(Refusal::MESSAGE_SIZE));
    // Strings are passed over: a body of a mebibyte needs none of its bytes to be told as over.
    let mut skip = FrameSkip::announce(1 << 21, TConfiguration { string: 1 << 20, ..LIMITS });
    assert_eq!(skip.take(&[0x18, 0x80, 0x80, 0x40]), Progress::More);
    assert_eq!(skip.take(&vec![0; 1 << 20]), Progress::More);
    assert_eq!(skip.take(&[0x00]), Progress::Done((1 << 20) + 5));
}

#[test]
fn closing() {
    for end in 0..EVERY.len() {
        let mut skip = FrameSkip::announce(EVERY.len(), LIMITS);
        assert_eq!(skip.take(&EVERY[..end]), Progress::More);
        assert_eq!(skip.close(), Progress::Refused(Refusal::END));
        let closed = skip.clone();
        assert_eq!((skip.take(&EVERY[end..]), &skip), (Progress::Refused(Refusal::END), &closed));
    }
}

#[test]
fn forged() {
    for limits in [TConfiguration { depth: 65, ..LIMITS }, TConfiguration { string: 1 << 31, ..LIMITS }, TConfiguration { container: u32::MAX, ..LIMITS }, TConfiguration { message: 1 << 31, ..LIMITS }] {
        assert_eq!(FrameSkip::announce(9, limits).take(&EVERY), Progress::Refused(Refusal::BAD_STATE));
    }
    // Each number of a state in the middle of a list of structs, in turn, made what it may not be.
    let mut skip = FrameSkip::announce(EVERY.len(), LIMITS);
    assert_eq!(skip.take(&EVERY[..66]), Progress::More);
    let sound = *skip.numbers();
    assert_eq!(FrameSkip::from_numbers(sound).take(&EVERY[66..]), Progress::Done(73));
    for (i, n) in [(0, u64::MAX), (1, u64::MAX), (2, 1), (3, u64::MAX), (4, u64::MAX), (5, 0), (5, 65), (5, u64::MAX), (6, 1 << 40), (7, 8), (7, 6 + (1 << 32)), (12, 4), (15, 65_536), (16, 4), (17, 2), (17, 14), (17, 268), (19, 1 << 32), (20, 1), (23, 65_536)] {
        let mut row = sound;
        row[i] = n;
        let mut skip = FrameSkip::from_numbers(row);
        assert_eq!(skip.take(&EVERY[66..]), Progress::Refused(Refusal::BAD_STATE), "number {i} is {n}");
        assert_eq!(skip.close(), Progress::Refused(Refusal::BAD_STATE));
        assert_eq!(*skip.numbers(), row);
    }
}
