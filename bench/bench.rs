//! The same inputs through the crate thrift 0.25.0 and through the port's Rust crate, in one process. Prints the best of many passes for each, and the ratio.
use std::hint::black_box;
use std::time::Instant;
use tagrumzil as port;
use thrift::protocol::*;

const POINTS: i32 = 2000;

/// A struct of 1000 fields of one byte, of the type with this code.
fn struct_of(code: u8) -> Vec<u8> {
    let mut v: Vec<u8> = (0..1000).flat_map(|i| [0x10 | code, (i % 100) as u8]).collect();
    v.push(0);
    v
}

/// A list of 100,000 elements of one byte, of the type with this code.
fn list_of(code: u8) -> Vec<u8> {
    let mut v = vec![0xF0 | code, 0xA0, 0x8D, 0x06];
    v.extend((0..100_000).map(|i| (i % 100) as u8));
    v
}

/// Numbers of every length, one to ten bytes, in no order that could be foreseen.
fn list_of_i64() -> Vec<u8> {
    let mut v = vec![0xF6, 0xA0, 0x8D, 0x06];
    let mut seed: u64 = 1;
    for _ in 0..100_000 {
        seed = seed.wrapping_mul(6_364_136_223_846_793_005).wrapping_add(1_442_695_040_888_963_407);
        let mut n = seed >> 8 | 1 << 63;
        n >>= (9 - (seed >> 33) % 10) * 7;
        while n > 127 {
            v.push(n as u8 | 128);
            n >>= 7;
        }
        v.push(n as u8);
    }
    v
}

/// A list's numbers by the calls, added up.
macro_rules! adds_list {
    ($name:ident, $protocol:ty, $result:ty, $read:ident) => {
        fn $name(s: &[u8]) -> $result {
            let mut p = <$protocol>::new(s);
            let mut sum = 0i64;
            for _ in 0..p.read_list_begin()?.size {
                sum = sum.wrapping_add(i64::from(p.$read()?));
            }
            Ok(sum)
        }
    };
}

adds_list!(port_adds_i32, port::TCompactInputProtocol, Result<i64, port::Refusal>, read_i32);
adds_list!(crate_adds_i32, TCompactInputProtocol<&[u8]>, thrift::Result<i64>, read_i32);
adds_list!(port_adds_i64, port::TCompactInputProtocol, Result<i64, port::Refusal>, read_i64);
adds_list!(crate_adds_i64, TCompactInputProtocol<&[u8]>, thrift::Result<i64>, read_i64);

/// A struct's i32 fields by the calls, added up.
macro_rules! adds_fields {
    ($name:ident, $protocol:ty, $stop:path, $result:ty) => {
        fn $name(s: &[u8]) -> $result {
            let mut p = <$protocol>::new(s);
            let mut sum = 0i64;
            p.read_struct_begin()?;
            while p.read_field_begin()?.field_type != $stop {
                sum += i64::from(p.read_i32()?);
            }
            p.read_struct_end()?;
            Ok(sum)
        }
    };
}

adds_fields!(port_adds_fields, port::TCompactInputProtocol, port::TType::Stop, Result<i64, port::Refusal>);
adds_fields!(crate_adds_fields, TCompactInputProtocol<&[u8]>, TType::Stop, thrift::Result<i64>);

fn value(i: i32, k: i32) -> f64 {
    f64::from(i) * 0.25 + f64::from(k)
}

fn port_writes(buffer: &mut [u8]) -> Result<usize, port::Refusal> {
    let mut o = port::TCompactOutputProtocol::new(buffer);
    o.write_struct_begin()?;
    o.write_field_begin(port::TType::List, 1)?;
    o.write_list_begin(port::TType::Struct, POINTS)?;
    for i in 0..POINTS {
        o.write_struct_begin()?;
        for k in 1..4 {
            o.write_field_begin(port::TType::Double, k as i16)?;
            o.write_double(value(i, k))?;
        }
        o.write_field_stop()?;
        o.write_struct_end()?;
    }
    o.write_field_stop()?;
    o.write_struct_end()?;
    Ok(o.place())
}

fn field(field_type: TType, id: i16) -> TFieldIdentifier {
    TFieldIdentifier { name: None, field_type, id: Some(id) }
}

fn crate_writes(buffer: &mut Vec<u8>) -> thrift::Result<()> {
    buffer.clear();
    let mut o = TCompactOutputProtocol::new(buffer);
    o.write_struct_begin(&TStructIdentifier::new(String::new()))?;
    o.write_field_begin(&field(TType::List, 1))?;
    o.write_list_begin(&TListIdentifier::new(TType::Struct, POINTS))?;
    for i in 0..POINTS {
        o.write_struct_begin(&TStructIdentifier::new(String::new()))?;
        for k in 1..4 {
            o.write_field_begin(&field(TType::Double, k as i16))?;
            o.write_double(value(i, k))?;
            o.write_field_end()?;
        }
        o.write_field_stop()?;
        o.write_struct_end()?;
    }
    o.write_list_end()?;
    o.write_field_end()?;
    o.write_field_stop()?;
    o.write_struct_end()
}

fn port_reads(s: &[u8]) -> Result<f64, port::Refusal> {
    let mut p = port::TCompactInputProtocol::new(s);
    let mut sum = 0.0;
    p.read_struct_begin()?;
    p.read_field_begin()?;
    let list = p.read_list_begin()?;
    for _ in 0..list.size {
        p.read_struct_begin()?;
        while p.read_field_begin()?.field_type != port::TType::Stop {
            sum += p.read_double()?;
        }
        p.read_struct_end()?;
    }
    p.read_field_begin()?;
    p.read_struct_end()?;
    Ok(sum)
}

fn crate_reads(s: &[u8]) -> thrift::Result<f64> {
    let mut p = TCompactInputProtocol::new(s);
    let mut sum = 0.0;
    p.read_struct_begin()?;
    p.read_field_begin()?;
    let list = p.read_list_begin()?;
    for _ in 0..list.size {
        p.read_struct_begin()?;
        while p.read_field_begin()?.field_type != TType::Stop {
            sum += p.read_double()?;
            p.read_field_end()?;
        }
        p.read_struct_end()?;
    }
    p.read_list_end()?;
    p.read_field_begin()?;
    p.read_struct_end()?;
    Ok(sum)
}

const WANTED: [i16; 3] = [1, 500, 1000];

fn port_picks(s: &[u8]) -> Result<[port::Picked<'_>; 3], port::Refusal> {
    let mut found = [port::Picked::Absent; 3];
    port::TCompactInputProtocol::new(s).pick(&WANTED, &[port::TType::I32; 3], &mut found)?;
    Ok(found)
}

/// The crate has no picker: its reader's calls, field by field, with the wanted values kept.
fn crate_picks(s: &[u8]) -> thrift::Result<[Option<i32>; 3]> {
    let mut p = TCompactInputProtocol::new(s);
    let mut found = [None; 3];
    p.read_struct_begin()?;
    loop {
        let f = p.read_field_begin()?;
        if f.field_type == TType::Stop {
            break;
        }
        match WANTED.iter().position(|id| f.id == Some(*id)) {
            Some(i) if f.field_type == TType::I32 => found[i] = Some(p.read_i32()?),
            _ => p.skip(f.field_type)?,
        }
    }
    p.read_struct_end()?;
    Ok(found)
}

/// The best of the passes, in nanoseconds.
fn best(mut run: impl FnMut()) -> f64 {
    (0..400).map(|_| { let t = Instant::now(); run(); t.elapsed().as_nanos() as f64 }).fold(f64::MAX, f64::min)
}

fn line(what: &str, theirs: f64, ours: f64) {
    println!("| {what} | {:.1} | {:.1} | {:.2} |", theirs / 1000.0, ours / 1000.0, theirs / ours);
}

/// A frame of the announced length, in bursts of so many bytes.
fn frame_takes(s: &[u8], burst: usize) -> port::Progress {
    let mut skip = port::FrameSkip::announce(s.len(), port::TConfiguration::default());
    let mut last = port::Progress::More;
    for piece in s.chunks(burst) {
        last = skip.take(piece);
    }
    last
}

/// Frames beside skip over the same bytes: in one burst, in bursts of 1,024 bytes, and byte by byte.
fn frame_lines(trial: &[u8]) {
    println!("\n| | skip, µs | frame in one burst, µs | times skip's | in bursts of 1,024, µs | byte by byte, ns a byte |\n|---|---|---|---|---|---|");
    let in_field = |code: u8, list: Vec<u8>| [&[0x10 | code][..], &list, &[0]].concat();
    let text = |n: usize| { let mut v = vec![0x18, n as u8 | 128, (n >> 7) as u8 | 128, (n >> 14) as u8 | 128, (n >> 21) as u8]; v.resize(v.len() + n + 1, 0); v };
    for (what, s) in [
        ("a struct of 1000 small i32 fields", struct_of(5)),
        ("a trial of 2000 points of 3 doubles", trial.to_vec()),
        ("a list of 100,000 one-byte i32", in_field(9, list_of(5))),
        ("a struct of 1000 small i16 fields", struct_of(4)),
        ("a list of 100,000 one-byte i16", in_field(9, list_of(4))),
        ("a list of 100,000 i64 of all lengths", in_field(9, list_of_i64())),
        ("a string of 1,000 bytes", text(1_000)),
        ("a string of 1,000,000 bytes", text(1_000_000)),
    ] {
        assert_eq!(frame_takes(&s, 1), port::Progress::Done(s.len()));
        assert_eq!(frame_takes(&s, s.len()), port::Progress::Done(s.len()));
        let a = best(|| drop(black_box(port::skip(black_box(&s), port::TType::Struct))));
        let b = best(|| drop(black_box(frame_takes(black_box(&s), s.len()))));
        let c = best(|| drop(black_box(frame_takes(black_box(&s), 1024))));
        let d = (0..5).map(|_| { let t = Instant::now(); drop(black_box(frame_takes(black_box(&s), 1))); t.elapsed().as_nanos() as f64 }).fold(f64::MAX, f64::min);
        println!("| {what} | {:.2} | {:.2} | {:.2} | {:.1} | {:.1} |", a / 1000.0, b / 1000.0, b / a, c / 1000.0, d / s.len() as f64);
    }
}

fn main() {
    let mut buffer = vec![0; 1 << 17];
    let n = port_writes(&mut buffer).unwrap();
    let trial = buffer[..n].to_vec();
    let mut theirs = Vec::with_capacity(1 << 17);
    crate_writes(&mut theirs).unwrap();
    assert_eq!(trial, theirs, "both sides write the same bytes");
    assert_eq!(port_reads(&trial).unwrap().to_bits(), crate_reads(&trial).unwrap().to_bits());
    println!("| | crate, µs | port, µs | times as fast |\n|---|---|---|---|");
    for (what, s, p, c) in [
        ("skip of a struct of 1000 small i32 fields", struct_of(5), port::TType::Struct, TType::Struct),
        ("skip of a trial of 2000 points of 3 doubles", trial.clone(), port::TType::Struct, TType::Struct),
        ("skip of a list of 100,000 one-byte i32", list_of(5), port::TType::List, TType::List),
        ("skip of a struct of 1000 small i16 fields", struct_of(4), port::TType::Struct, TType::Struct),
        ("skip of a list of 100,000 one-byte i16", list_of(4), port::TType::List, TType::List),
        ("skip of a list of 100,000 i64 of all lengths", list_of_i64(), port::TType::List, TType::List),
    ] {
        assert_eq!(port::skip(&s, p), Ok(s.len()));
        let a = best(|| drop(black_box(TCompactInputProtocol::new(black_box(&s[..])).skip(c))));
        let b = best(|| drop(black_box(port::skip(black_box(&s), p))));
        line(what, a, b);
    }
    let many = struct_of(5);
    line("picking 3 ids of the struct of 1000 fields", best(|| drop(black_box(crate_picks(black_box(&many))))), best(|| drop(black_box(port_picks(black_box(&many))))));
    for (what, s, theirs, ours) in [
        ("reading the struct of 1000 fields call by call", many, crate_adds_fields as fn(&[u8]) -> thrift::Result<i64>, port_adds_fields as fn(&[u8]) -> Result<i64, port::Refusal>),
        ("reading the list of one-byte i32", list_of(5), crate_adds_i32, port_adds_i32),
        ("reading the list of i64 of all lengths", list_of_i64(), crate_adds_i64, port_adds_i64),
    ] {
        assert_eq!(ours(&s), Ok(theirs(&s).unwrap()));
        line(what, best(|| drop(black_box(theirs(black_box(&s))))), best(|| drop(black_box(ours(black_box(&s))))));
    }
    // Why it is refused: nothing, or a byte of its last point. The crate has no such call; beside it stands its skip.
    let mut damaged = trial.clone();
    let at = damaged.len() - 11;
    damaged[at] = 0x1E;
    let why = |s: &[u8]| port::TCompactInputProtocol::new(s).why();
    assert_eq!((why(&trial), why(&damaged).map(|fault| fault.offset())), (None, Some(at)));
    for (what, s) in [("why the trial is refused: it is not", &trial), ("why the trial is refused: a field of its last point", &damaged)] {
        let a = best(|| drop(black_box(TCompactInputProtocol::new(black_box(&s[..])).skip(TType::Struct))));
        line(what, a, best(|| drop(black_box(why(black_box(s))))));
    }
    // The doubles that an f32 holds, beside the port's own skip, which may take half the time.
    let counts = |s: &[u8]| port::TCompactInputProtocol::new(s).f32_counts();
    assert_eq!(counts(&trial).map(|c| c.all()), Ok(3 * POINTS as u64));
    let own = best(|| drop(black_box(port::skip(black_box(&trial), port::TType::Struct))));
    let counted = best(|| drop(black_box(counts(black_box(&trial)))));
    println!("| counting the trial's doubles for f32, {:.2} times skip | – | {:.1} | – |", counted / own, counted / 1000.0);
    line("reading the trial call by call", best(|| drop(black_box(crate_reads(black_box(&trial))))), best(|| drop(black_box(port_reads(black_box(&trial))))));
    line("writing it", best(|| drop(black_box(crate_writes(&mut theirs)))), best(|| drop(black_box(port_writes(&mut buffer)))));
    frame_lines(&trial);
}
