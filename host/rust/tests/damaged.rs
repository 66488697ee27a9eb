//! A damaged header promised two thousand million doubles in a 40-byte frame: every call refuses it, END, before a caller reserves room for them.
use std::alloc::{GlobalAlloc, Layout, System};
use std::sync::atomic::{AtomicUsize, Ordering};
use tagrumzil::*;

/// The system's allocator, which notes the most that was asked for at once.
struct Noting;

static MOST: AtomicUsize = AtomicUsize::new(0);

// SAFETY: it hands every call on as it is.
unsafe impl GlobalAlloc for Noting {
    unsafe fn alloc(&self, layout: Layout) -> *mut u8 {
        MOST.fetch_max(layout.size(), Ordering::Relaxed);
        System.alloc(layout)
    }

    unsafe fn dealloc(&self, at: *mut u8, layout: Layout) {
        System.dealloc(at, layout)
    }
}

#[global_allocator]
static ALLOCATOR: Noting = Noting;

/// The header, where it begins in the frame, behind these bytes.
fn frame(front: &[u8]) -> [u8; 40] {
    let damaged = [front, &[0xF7, 0x80, 0xA8, 0xD6, 0xB9, 0x07]].concat();
    let mut bytes = [0; 40];
    bytes[..damaged.len()].copy_from_slice(&damaged);
    bytes
}

/// A list of doubles, as a caller reads one: room for all that the header says, and then one after the other.
fn doubles(reader: &mut TCompactInputProtocol) -> Result<Vec<f64>, Refusal> {
    let list = reader.read_list_begin()?;
    let mut values = Vec::with_capacity(list.size as usize);
    for _ in 0..list.size {
        values.push(reader.read_double()?);
    }
    Ok(values)
}

#[test]
fn refused_before_room_is_reserved() {
    let bytes = frame(&[]);
    let mut reader = TCompactInputProtocol::new(&bytes);
    assert_eq!(doubles(&mut reader), Err(Refusal::END));
    assert_eq!(reader.read_set_begin().map(|set| set.size), Err(Refusal::END));
    assert_eq!((Refusal::END.number(), reader.place()), (1, 0));
    for kind in [TType::List, TType::Set] {
        assert_eq!(reader.skip(kind), Err(Refusal::END));
    }

    // As field 1 of a struct: passed over, picked, and beside what is picked.
    let bytes = frame(&[0x19]);
    assert_eq!(skip(&bytes, TType::Struct), Err(Refusal::END));
    for (id, kind) in [(1, TType::List), (2, TType::Double)] {
        let mut reader = TCompactInputProtocol::new(&bytes);
        let mut found = [Picked::WrongType];
        assert_eq!(reader.pick(&[id], &[kind], &mut found), Err(Refusal::END));
        assert_eq!((found, reader.place()), ([Picked::WrongType], 0));
    }

    // As a map's, whose keys and values are doubles.
    let mut bytes = [0; 40];
    bytes[..6].copy_from_slice(&[0x80, 0xA8, 0xD6, 0xB9, 0x07, 0x77]);
    assert_eq!(TCompactInputProtocol::new(&bytes).read_map_begin().map(|map| map.size), Err(Refusal::END));
    assert_eq!(skip(&bytes, TType::Map), Err(Refusal::END));

    assert!(MOST.load(Ordering::Relaxed) < 1 << 20);
}

#[test]
fn what_is_there_is_read() {
    // 4 doubles need 32 bytes.
    let mut bytes = [0; 33];
    bytes[0] = 0x47;
    assert_eq!(doubles(&mut TCompactInputProtocol::new(&bytes)), Ok(vec![0.0; 4]));
    assert_eq!(doubles(&mut TCompactInputProtocol::new(&bytes[..32])), Err(Refusal::END));
    // 2^28 uuids would be 2^32 bytes, which are none in 32 bits.
    let uuids = [0xFD, 0x80, 0x80, 0x80, 0x80, 0x01];
    assert_eq!(TCompactInputProtocol::new(&uuids).read_list_begin().map(|list| list.size), Err(Refusal::END));
    // Over the limit and below 0 come first.
    let limits = TConfiguration { depth: 64, string: 100, container: 100, ..TConfiguration::default() };
    assert_eq!(TCompactInputProtocol::with_config(&frame(&[]), limits).read_list_begin().map(|list| list.size), Err(Refusal::SIZE_LIMIT));
    let below = [0xF7, 0xFF, 0xFF, 0xFF, 0xFF, 0x0F];
    assert_eq!(TCompactInputProtocol::new(&below).read_list_begin().map(|list| list.size), Err(Refusal::NEGATIVE_SIZE));
}
