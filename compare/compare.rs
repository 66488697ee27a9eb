//! The crate thrift 0.25.0 and the port, call by call on the same inputs: values, places, refusals, bytes written and not written.
//! A difference is one of docs/DIFFERENCES.md by its number, or it fails the run. `compare [SEED] [MILLIONS]`
use std::cell::Cell;
use std::collections::BTreeMap;
use std::io;
use std::panic::{catch_unwind, AssertUnwindSafe};
use tagrumzil as port;
use thrift::protocol::*;
use thrift::{Error, ProtocolErrorKind as PK, TransportErrorKind as TK};

// ------------------------------------------------------------------ the crate's side

/// A transport over a slice that shows its place.
struct Tap<'a>(&'a [u8], &'a Cell<usize>);
impl io::Read for Tap<'_> {
    fn read(&mut self, b: &mut [u8]) -> io::Result<usize> {
        let rest = &self.0[self.1.get()..];
        let n = b.len().min(rest.len());
        b[..n].copy_from_slice(&rest[..n]);
        self.1.set(self.1.get() + n);
        Ok(n)
    }
}

/// The same, with an end that moves: the input cut where the message must have ended.
struct Cut<'a>(&'a [u8], &'a Cell<usize>, &'a Cell<usize>);
impl io::Read for Cut<'_> {
    fn read(&mut self, b: &mut [u8]) -> io::Result<usize> {
        Tap(&self.0[..self.2.get()], self.1).read(b)
    }
}

/// The scope's number of the crate's error; 99 where the error doesn't tell.
fn number(e: &Error) -> u8 {
    match e {
        Error::Transport(t) if t.kind == TK::EndOfFile => 1,
        Error::Protocol(p) => {
            let m = p.message.as_str();
            match p.kind {
                PK::BadVersion => 2,
                PK::SizeLimit => 8,
                PK::NegativeSize => 9,
                PK::DepthLimit => 10,
                PK::Unknown if m.starts_with("cannot skip field type") => 4,
                PK::InvalidData if m.ends_with("to TMessageType") => 3,
                PK::InvalidData if m.ends_with("to TType") => 4,
                PK::InvalidData if m.ends_with("into bool") => 5,
                PK::InvalidData if m.starts_with("Variable-length int over") => 6,
                PK::InvalidData if m == "field id overflow" => 7,
                PK::InvalidData if m.contains("utf-8") => 11,
                _ => 99,
            }
        }
        _ => 99,
    }
}

fn config(l: port::TConfiguration) -> thrift::TConfiguration {
    thrift::TConfiguration::builder()
        .max_frame_size(None)
        .max_message_size(None)
        .max_recursion_depth(Some(l.depth as usize))
        .max_string_size(Some(l.string as usize))
        .max_container_size(Some(l.container as usize))
        .build()
        .unwrap()
}

const TYPES: [(port::TType, TType); 13] = [
    (port::TType::Stop, TType::Stop),
    (port::TType::Bool, TType::Bool),
    (port::TType::I08, TType::I08),
    (port::TType::I16, TType::I16),
    (port::TType::I32, TType::I32),
    (port::TType::I64, TType::I64),
    (port::TType::Double, TType::Double),
    (port::TType::String, TType::String),
    (port::TType::List, TType::List),
    (port::TType::Set, TType::Set),
    (port::TType::Map, TType::Map),
    (port::TType::Struct, TType::Struct),
    (port::TType::Uuid, TType::Uuid),
];
fn code(t: TType) -> u8 {
    TYPES.iter().find(|x| x.1 == t).map_or(98, |x| x.0 as u8)
}

// ------------------------------------------------------------------ answers

#[derive(Clone, Debug, PartialEq)]
enum V {
    Unit,
    Int(i64),
    Bits(u64),
    Bytes(Vec<u8>),
    Field(u8, i16),
    List(u8, i32),
    Map(u8, u8, i32),
    Message(u8, i32, Vec<u8>),
}
type A = Result<(V, usize), u8>;

#[derive(Clone, Copy, Debug, PartialEq)]
enum Call {
    Message,
    StructBegin,
    StructEnd,
    Field,
    Bool,
    I8,
    I16,
    I32,
    I64,
    Double,
    Uuid,
    Bytes,
    Str,
    List,
    Set,
    Map,
    Skip(usize),
}
use Call::*;
const READS: [Call; 14] = [Message, Field, Bool, I8, I16, I32, I64, Double, Uuid, Bytes, Str, List, Set, Map];
const NAMES: [&str; 17] = ["message", "struct begin", "struct end", "field", "bool", "i8", "i16", "i32", "i64", "double", "uuid", "bytes", "string", "list", "set", "map", "skip"];
fn index(c: Call) -> usize {
    match c {
        Message => 0, StructBegin => 1, StructEnd => 2, Field => 3, Bool => 4, I8 => 5, I16 => 6, I32 => 7, I64 => 8, Double => 9, Uuid => 10, Bytes => 11, Str => 12,
        List => 13, Set => 14, Map => 15, Skip(_) => 16,
    }
}

fn by_crate<P: TInputProtocol>(p: &mut P, at: &Cell<usize>, c: Call) -> A {
    let v = match c {
        Message => p.read_message_begin().map(|m| V::Message(u8::from(m.message_type), m.sequence_number, m.name.into_bytes())),
        StructBegin => p.read_struct_begin().map(|_| V::Unit),
        StructEnd => p.read_struct_end().map(|_| V::Unit),
        Field => p.read_field_begin().map(|f| V::Field(code(f.field_type), if f.field_type == TType::Stop { 0 } else { f.id.unwrap() })),
        Bool => p.read_bool().map(|b| V::Int(b as i64)),
        I8 => p.read_i8().map(|n| V::Int(n as i64)),
        I16 => p.read_i16().map(|n| V::Int(n as i64)),
        I32 => p.read_i32().map(|n| V::Int(n as i64)),
        I64 => p.read_i64().map(V::Int),
        Double => p.read_double().map(|d| V::Bits(d.to_bits())),
        Uuid => p.read_uuid().map(|u| V::Bytes(u.as_bytes().to_vec())),
        Bytes => p.read_bytes().map(V::Bytes),
        Str => p.read_string().map(|s| V::Bytes(s.into_bytes())),
        List => p.read_list_begin().map(|l| V::List(code(l.element_type), l.size)),
        Set => p.read_set_begin().map(|l| V::List(code(l.element_type), l.size)),
        Map => p.read_map_begin().map(|m| V::Map(m.key_type.map_or(0, code), m.value_type.map_or(0, code), m.size)),
        Skip(t) => p.skip(TYPES[t].1).map(|_| V::Unit),
    };
    v.map(|v| (v, at.get())).map_err(|e| number(&e))
}

fn by_port(p: &mut port::TCompactInputProtocol, c: Call) -> A {
    let v = match c {
        Message => p.read_message_begin().map(|m| V::Message(m.message_type as u8, m.sequence_number, m.name.as_bytes().to_vec())),
        StructBegin => p.read_struct_begin().map(|_| V::Unit),
        StructEnd => p.read_struct_end().map(|_| V::Unit),
        Field => p.read_field_begin().map(|f| V::Field(f.field_type as u8, f.id.unwrap_or(0))),
        Bool => p.read_bool().map(|b| V::Int(b as i64)),
        I8 => p.read_i8().map(|n| V::Int(n as i64)),
        I16 => p.read_i16().map(|n| V::Int(n as i64)),
        I32 => p.read_i32().map(|n| V::Int(n as i64)),
        I64 => p.read_i64().map(V::Int),
        Double => p.read_double_bits().map(V::Bits),
        Uuid => p.read_uuid().map(|u| V::Bytes(u.to_vec())),
        Bytes => p.read_bytes().map(|b| V::Bytes(b.to_vec())),
        Str => p.read_string().map(|s| V::Bytes(s.as_bytes().to_vec())),
        List => p.read_list_begin().map(|l| V::List(l.element_type as u8, l.size)),
        Set => p.read_set_begin().map(|l| V::List(l.element_type as u8, l.size)),
        Map => p.read_map_begin().map(|m| V::Map(m.key_type.map_or(0, |t| t as u8), m.value_type.map_or(0, |t| t as u8), m.size)),
        Skip(t) => p.skip(TYPES[t].0).map(|_| V::Unit),
    };
    v.map(|v| (v, p.place())).map_err(|e| e.number())
}

// ------------------------------------------------------------------ what a difference is

/// Whether reading a value by the crate's own headers meets a map with elements and Stop as a type.
fn meets_stop_map<P: TInputProtocol>(p: &mut P, t: TType) -> Result<bool, Error> {
    let seen = |p: &mut P, t, n: i32| -> Result<bool, Error> {
        for _ in 0..n {
            if meets_stop_map(p, t)? {
                return Ok(true);
            }
        }
        Ok(false)
    };
    match t {
        TType::Struct => {
            p.read_struct_begin()?;
            loop {
                let f = p.read_field_begin()?;
                if f.field_type == TType::Stop {
                    p.read_struct_end()?;
                    return Ok(false);
                }
                if meets_stop_map(p, f.field_type)? {
                    return Ok(true);
                }
            }
        }
        TType::List => p.read_list_begin().and_then(|l| seen(p, l.element_type, l.size)),
        TType::Set => p.read_set_begin().and_then(|l| seen(p, l.element_type, l.size)),
        TType::Map => {
            let m = p.read_map_begin()?;
            let (k, v) = (m.key_type.unwrap_or(TType::Stop), m.value_type.unwrap_or(TType::Stop));
            if m.size > 0 && (k == TType::Stop || v == TType::Stop) {
                return Ok(true);
            }
            for _ in 0..m.size {
                if meets_stop_map(p, k)? || meets_stop_map(p, v)? {
                    return Ok(true);
                }
            }
            Ok(false)
        }
        other => p.skip(other).map(|_| false),
    }
}

/// Whether the crate reads a number outside 16 bits at a place, by its call for 32.
fn is_wide(s: &[u8], at: usize) -> bool {
    let place = Cell::new(at);
    TCompactInputProtocol::new(Tap(s, &place)).read_i32().is_ok_and(|n| i16::try_from(n).is_err())
}

/// Whether the field header at a place has an id of its own, and that is wide.
fn is_wide_id(s: &[u8], at: usize) -> bool {
    s.get(at).is_some_and(|b| (1..14).contains(b)) && is_wide(s, at + 1)
}

/// The fewest bytes of a container's elements.
fn least(kinds: &[TType], n: i32) -> usize {
    kinds.iter().map(|t| match t { TType::Double => 8, TType::Uuid => 16, _ => 1 }).sum::<usize>() * n as usize
}

/// A container's header by the crate: its types, none in an empty map, and its count.
fn header<P: TInputProtocol>(p: &mut P, t: TType) -> Result<(Vec<TType>, i32), Error> {
    match t {
        TType::List => p.read_list_begin().map(|l| (vec![l.element_type], l.size)),
        TType::Set => p.read_set_begin().map(|l| (vec![l.element_type], l.size)),
        _ => p.read_map_begin().map(|m| (m.key_type.into_iter().chain(m.value_type).collect(), m.size)),
    }
}

/// Reads a value by the crate's own headers. The refusal of a rule that the crate does not have, where one is broken before elements of type Stop, the depth limit or anything
/// that the crate refuses: 17 where an i16 or a field's id is wide, 1 where a container's elements can't be in the bytes left.
fn meets<P: TInputProtocol>(p: &mut P, s: &[u8], at: &Cell<usize>, t: TType, room: u32) -> Result<Option<u8>, Error> {
    let refused = |kind| Error::Protocol(thrift::ProtocolError { kind, message: String::new() });
    let inner = if matches!(t, TType::List | TType::Set | TType::Map | TType::Struct) { room.checked_sub(1).ok_or_else(|| refused(PK::DepthLimit))? } else { room };
    match t {
        TType::Struct => {
            p.read_struct_begin()?;
            loop {
                if is_wide_id(s, at.get()) {
                    return Ok(Some(17));
                }
                let f = p.read_field_begin()?;
                if f.field_type == TType::Stop {
                    return p.read_struct_end().map(|_| None);
                }
                if let Some(why) = meets(p, s, at, f.field_type, inner)? {
                    return Ok(Some(why));
                }
            }
        }
        TType::List | TType::Set | TType::Map => {
            let (kinds, n) = header(p, t)?;
            if least(&kinds, n) > s.len() - at.get() {
                return Ok(Some(1));
            }
            if n > 0 && kinds.contains(&TType::Stop) {
                return Err(refused(PK::InvalidData));
            }
            for _ in 0..n {
                for t in &kinds {
                    if let Some(why) = meets(p, s, at, *t, inner)? {
                        return Ok(Some(why));
                    }
                }
            }
            Ok(None)
        }
        TType::I16 if is_wide(s, at.get()) => Ok(Some(17)),
        other => p.skip(other).map(|_| None),
    }
}

/// The refusal of a rule that the crate does not have, where a call breaks it before anything else is refused: the cause of D28 and D29, found by the crate's own reading.
fn broken(s: &[u8], at: usize, c: Call, limits: port::TConfiguration, depth: u32) -> Option<u8> {
    let place = Cell::new(at);
    let reader = || TCompactInputProtocol::with_config(Tap(s, &place), free(limits));
    let counted = |t| header(&mut reader(), t).ok().filter(|(kinds, n)| least(kinds, *n) > s.len() - place.get()).map(|_| 1);
    match c {
        I16 => is_wide(s, at).then_some(17),
        Field => is_wide_id(s, at).then_some(17),
        List => counted(TType::List),
        Set => counted(TType::Set),
        Map => counted(TType::Map),
        Skip(t) => meets(&mut reader(), s, &place, TYPES[t].1, limits.depth - depth).unwrap_or(None),
        _ => None,
    }
}

/// The number of the difference that such a refusal is.
fn ruled(why: u8) -> &'static str {
    if why == 17 { "D28" } else { "D29" }
}

/// The crate's limits with none on depth.
fn free(limits: port::TConfiguration) -> thrift::TConfiguration {
    thrift::TConfiguration::builder().max_frame_size(None).max_message_size(None).max_recursion_depth(None)
        .max_string_size(Some(limits.string as usize)).max_container_size(Some(limits.container as usize)).build().unwrap()
}

/// The number of the difference between two answers of a skip that starts at a place, if it is a known one.
fn skip_difference(s: &[u8], at: usize, limits: port::TConfiguration, t: usize, depth: u32, theirs: &A, ours: &A) -> Option<&'static str> {
    let free = free(limits);
    let place = Cell::new(at);
    let again = |till: i8| {
        let place = Cell::new(at);
        let mut p = TCompactInputProtocol::with_config(Tap(s, &place), free.clone());
        p.skip_till_depth(TYPES[t].1, till).map(|_| (V::Unit, place.get())).map_err(|e| number(&e))
    };
    match (theirs, ours) {
        // The crate's own count of levels stops it: with more of them it answers as the port.
        (Err(10), _) if again(127) == *ours => Some(if *ours == Err(4) { "D6" } else { "D5" }),
        // The port stops at the depth limit, where the crate counts structs alone, or anew at each call.
        (_, Err(10)) => {
            let mut wide = port::TCompactInputProtocol::with_config(&s[at..], port::TConfiguration { depth: 64, ..limits });
            let unlimited = wide.skip(TYPES[t].0).map(|_| (V::Unit, at + wide.place())).map_err(|e| e.number());
            let rule = broken(s, at, Skip(t), port::TConfiguration { depth: 64, ..limits }, 0);
            if unlimited == *theirs || rule.is_some_and(|why| unlimited == Err(why)) {
                return Some(if depth > 0 { "D4" } else if limits.depth == 0 { "D2" } else { "D3" });
            }
            let mut p = TCompactInputProtocol::with_config(Tap(s, &place), free);
            if let Ok(true) = meets_stop_map(&mut p, TYPES[t].1) {
                return Some("D1");
            }
            None
        }
        (_, Err(4)) => {
            let mut p = TCompactInputProtocol::with_config(Tap(s, &place), free);
            if let Ok(true) = meets_stop_map(&mut p, TYPES[t].1) { Some("D1") } else { None }
        }
        _ => None,
    }
}

// ------------------------------------------------------------------ counting

#[derive(Default)]
struct Tally {
    read: [u64; 17],
    picked: u64,
    framed: u64,
    asked: u64,
    settled: u64,
    wrote: BTreeMap<&'static str, u64>,
    differences: BTreeMap<&'static str, u64>,
    refusals: [u64; 20],
    failed: u64,
}
impl Tally {
    fn fail(&mut self, what: String) {
        self.failed += 1;
        if self.failed < 20 {
            println!("DIFFERENCE {what}");
        }
    }
    fn difference(&mut self, d: &'static str) {
        *self.differences.entry(d).or_default() += 1;
    }
}

struct Rng(u64);
impl Rng {
    fn next(&mut self) -> u64 {
        self.0 = self.0.wrapping_add(0x9E37_79B9_7F4A_7C15);
        let mut z = self.0;
        z = (z ^ (z >> 30)).wrapping_mul(0xBF58_476D_1CE4_E5B9);
        z = (z ^ (z >> 27)).wrapping_mul(0x94D0_49BB_1331_11EB);
        z ^ (z >> 31)
    }
    fn below(&mut self, n: u64) -> u64 {
        self.next() % n
    }
    fn pick<T: Copy>(&mut self, of: &[T]) -> T {
        of[self.below(of.len() as u64) as usize]
    }
}

/// Where a call's input ends under a ceiling, for a message that began at a place.
fn cut_of(s: &[u8], begin: usize, limits: port::TConfiguration) -> usize {
    s.len().min(begin.saturating_add(limits.message as usize))
}

/// A byte missed at the cut is MESSAGE SIZE where there is input behind it.
fn missing(why: u8, more: bool) -> u8 {
    if more && why == 1 { 19 } else { why }
}

/// The calls in turn on one input, up to the first refusal of either side. After a refusal the port's state is as it was: it answers the same again.
/// The crate, which has no ceiling, reads the input cut where the port's message must have ended.
fn reads(t: &mut Tally, s: &[u8], limits: port::TConfiguration, calls: &mut dyn FnMut(Option<&V>) -> Option<Call>) {
    let (at, end) = (Cell::new(0), Cell::new(0));
    let mut theirs = TCompactInputProtocol::with_config(Cut(s, &at, &end), config(limits));
    let mut ours = port::TCompactInputProtocol::with_config(s, limits);
    let mut before: Option<V> = None;
    let mut begin = 0;
    let mut depth = 0;
    let mut pending = false;
    let mut made = Vec::new();
    while let Some(c) = calls(before.as_ref()) {
        made.push(c);
        let start = ours.place();
        t.read[index(c)] += 1;
        let from = if c == Message { start } else { begin };
        let cut = cut_of(s, from, limits);
        let (seen, more) = (&s[..cut], cut < s.len());
        end.set(cut);
        let a = by_crate(&mut theirs, &at, c);
        let b = by_port(&mut ours, c);
        if let Err(n) = b {
            t.refusals[n as usize] += 1;
            if ours.place() != start || by_port(&mut ours, c) != b {
                t.fail(format!("a refusal moved the state: {made:?} on {s:02x?}"));
            }
        }
        let rule = if pending { None } else { broken(seen, start, c, limits, depth) };
        if rule.map_or(b == Err(17), |why| b != Err(missing(why, more))) {
            t.fail(format!("{made:?} limits {limits:?} on {s:02x?}: the rule says {rule:?}, port {b:?}"));
        }
        if b == Err(19) || more && b == Err(1) {
            // The crate misses a byte at the cut, or a rule says that one is missed there; or the crate's own count of levels stops it before.
            let known = match c {
                _ if a == Err(1) || rule == Some(1) => Some("D30"),
                Skip(k) => skip_difference(seen, start, limits, k, depth, &a, &Err(1)),
                _ => None,
            };
            match known {
                Some(d) if more && b == Err(19) => t.difference(d),
                _ => t.fail(format!("{made:?} limits {limits:?} on {s:02x?}: crate {a:?}, port {b:?}")),
            }
            return;
        }
        if a != b {
            let known = match c {
                _ if rule.is_some() => rule.map(ruled),
                // A bool field's value waits, and another call comes: out of the grammar's order, since the bytes are not what the caller takes them for.
                Skip(0) if pending && b == Err(12) => Some("D10"),
                _ if pending && b == Err(12) && c != Bool => Some("D8"),
                Skip(k) => skip_difference(seen, start, limits, k, depth, &a, &b),
                _ => None,
            };
            match known {
                Some(d) => t.difference(d),
                None => t.fail(format!("{made:?} limits {limits:?} on {s:02x?}: crate {a:?}, port {b:?}")),
            }
            return;
        }
        pending = match (&b, c) {
            (Ok((V::Field(1, _), _)), Field) => true,
            (_, Bool | Skip(1)) => false,
            _ => pending,
        };
        begin = from;
        match (b, c) {
            (Err(_), _) => return,
            (Ok(_), StructBegin) => depth += 1,
            (Ok(_), StructEnd) => depth -= 1,
            _ => (),
        }
        before = a.ok().map(|x| x.0);
    }
}

fn once(c: Call) -> impl FnMut(Option<&V>) -> Option<Call> {
    let mut left = Some(c);
    move |_| left.take()
}

// ------------------------------------------------------------------ trees

#[derive(Clone, Debug)]
enum Tree {
    Bool(bool),
    I8(i8),
    I16(i16),
    I32(i32),
    I64(i64),
    Double(u64),
    Str(Vec<u8>),
    Uuid([u8; 16]),
    List(bool, usize, Vec<Tree>),
    Map(usize, usize, Vec<(Tree, Tree)>),
    Struct(Vec<(i16, Tree)>),
}

const EDGES: [i64; 24] = [0, 1, -1, 14, 15, 16, 63, 64, -64, -65, 127, 128, 8191, 8192, 32767, -32768, 65535, 1 << 20, (1 << 27) - 1, i32::MAX as i64, i32::MIN as i64, 1 << 55, i64::MAX, i64::MIN];

fn number_near(r: &mut Rng) -> i64 {
    match r.below(4) {
        0 => r.next() as i64 >> r.below(64),
        1 => r.below(20) as i64 - 10,
        _ => r.pick(&EDGES).wrapping_add(r.below(5) as i64 - 2),
    }
}

fn kind_of(t: &Tree) -> usize {
    match t {
        Tree::Bool(_) => 1, Tree::I8(_) => 2, Tree::I16(_) => 3, Tree::I32(_) => 4, Tree::I64(_) => 5, Tree::Double(_) => 6, Tree::Str(_) => 7,
        Tree::List(set, _, _) => if *set { 9 } else { 8 }, Tree::Map(..) => 10, Tree::Struct(_) => 11, Tree::Uuid(_) => 12,
    }
}

fn tree(r: &mut Rng, kind: usize, room: u64) -> Tree {
    let some = |r: &mut Rng| if room == 0 { 1 + r.below(7) as usize } else { 1 + r.below(12) as usize };
    let count = |r: &mut Rng| match r.below(12) { 0 => 14, 1 => 15, 2 => 16, 3 => 0, _ => r.below(4) };
    match kind {
        1 => Tree::Bool(r.below(2) == 0),
        2 => Tree::I8(r.next() as i8),
        3 => Tree::I16(number_near(r) as i16),
        4 => Tree::I32(number_near(r) as i32),
        5 => Tree::I64(number_near(r)),
        6 => Tree::Double(r.next()),
        7 => Tree::Str((0..r.pick(&[0, 1, 2, 5, 127, 128])).map(|_| b'a' + r.below(26) as u8).collect()),
        12 => Tree::Uuid([(); 16].map(|_| r.next() as u8)),
        8 | 9 => {
            let of = some(r);
            let n = count(r);
            Tree::List(kind == 9, of, (0..n).map(|_| tree(r, of, room.saturating_sub(1))).collect())
        }
        10 => {
            let (k, v) = (some(r), some(r));
            let n = count(r);
            Tree::Map(k, v, (0..n).map(|_| (tree(r, k, room.saturating_sub(1)), tree(r, v, room.saturating_sub(1)))).collect())
        }
        _ => {
            let mut id = 0i16;
            let mut fields = Vec::new();
            for _ in 0..r.below(6) {
                // ids whose difference from the last fits 16 signed bits: the scope's domain
                let step = r.pick(&[1, 1, 2, 14, 15, 16, -1, 300, -300, 20000]);
                id = match id.checked_add(step) { Some(n) => n, None => break };
                let of = some(r);
                fields.push((id, tree(r, of, room.saturating_sub(1))));
            }
            Tree::Struct(fields)
        }
    }
}

#[derive(Clone, Debug)]
enum W {
    Message(usize, i32, String),
    StructBegin,
    StructEnd,
    Field(usize, i16),
    Stop,
    Bool(bool),
    I8(i8),
    I16(i16),
    I32(i32),
    I64(i64),
    Double(u64),
    Uuid([u8; 16]),
    Bytes(Vec<u8>),
    Str(String),
    List(usize, i32),
    Set(usize, i32),
    Map(usize, usize, i32),
}
fn wname(w: &W) -> &'static str {
    match w {
        W::Message(..) => "message", W::StructBegin => "struct begin", W::StructEnd => "struct end", W::Field(..) => "field", W::Stop => "stop", W::Bool(_) => "bool",
        W::I8(_) => "i8", W::I16(_) => "i16", W::I32(_) => "i32", W::I64(_) => "i64", W::Double(_) => "double", W::Uuid(_) => "uuid", W::Bytes(_) => "bytes",
        W::Str(_) => "string", W::List(..) => "list", W::Set(..) => "set", W::Map(..) => "map",
    }
}

/// The writer's calls for a tree, and the reader's.
fn calls(t: &Tree, w: &mut Vec<W>, r: &mut Vec<Call>) {
    match t {
        Tree::Bool(b) => { w.push(W::Bool(*b)); r.push(Bool) }
        Tree::I8(n) => { w.push(W::I8(*n)); r.push(I8) }
        Tree::I16(n) => { w.push(W::I16(*n)); r.push(I16) }
        Tree::I32(n) => { w.push(W::I32(*n)); r.push(I32) }
        Tree::I64(n) => { w.push(W::I64(*n)); r.push(I64) }
        Tree::Double(n) => { w.push(W::Double(*n)); r.push(Double) }
        Tree::Uuid(u) => { w.push(W::Uuid(*u)); r.push(Uuid) }
        Tree::Str(s) => {
            if s.len() % 2 == 0 { w.push(W::Bytes(s.clone())); r.push(Bytes) } else { w.push(W::Str(String::from_utf8(s.clone()).unwrap())); r.push(Str) }
        }
        Tree::List(set, of, xs) => {
            w.push(if *set { W::Set(*of, xs.len() as i32) } else { W::List(*of, xs.len() as i32) });
            r.push(if *set { Set } else { List });
            xs.iter().for_each(|x| calls(x, w, r));
        }
        Tree::Map(k, v, xs) => {
            w.push(W::Map(*k, *v, xs.len() as i32));
            r.push(Map);
            xs.iter().for_each(|(a, b)| { calls(a, w, r); calls(b, w, r) });
        }
        Tree::Struct(fs) => {
            w.push(W::StructBegin);
            r.push(StructBegin);
            for (id, x) in fs {
                w.push(W::Field(kind_of(x), *id));
                r.push(Field);
                calls(x, w, r);
            }
            w.push(W::Stop);
            r.push(Field);
            w.push(W::StructEnd);
            r.push(StructEnd);
        }
    }
}

#[derive(Clone)]
struct Sink<'a>(&'a std::cell::RefCell<Vec<u8>>);
impl io::Write for Sink<'_> {
    fn write(&mut self, b: &[u8]) -> io::Result<usize> {
        self.0.borrow_mut().extend_from_slice(b);
        Ok(b.len())
    }
    fn flush(&mut self) -> io::Result<()> {
        Ok(())
    }
}

fn crate_writes<P: TOutputProtocol>(p: &mut P, w: &W) -> Result<(), u8> {
    let t = |k: usize| TYPES[k].1;
    match w {
        W::Message(k, n, name) => p.write_message_begin(&TMessageIdentifier::new(name.clone(), [TMessageType::Call, TMessageType::Reply, TMessageType::Exception, TMessageType::OneWay][*k], *n)),
        W::StructBegin => p.write_struct_begin(&TStructIdentifier::new("")),
        W::StructEnd => p.write_struct_end(),
        W::Field(k, id) => p.write_field_begin(&TFieldIdentifier::new("", t(*k), *id)),
        W::Stop => p.write_field_stop(),
        W::Bool(b) => p.write_bool(*b),
        W::I8(n) => p.write_i8(*n),
        W::I16(n) => p.write_i16(*n),
        W::I32(n) => p.write_i32(*n),
        W::I64(n) => p.write_i64(*n),
        W::Double(n) => p.write_double(f64::from_bits(*n)),
        W::Uuid(u) => p.write_uuid(&uuid::Uuid::from_bytes(*u)),
        W::Bytes(b) => p.write_bytes(b),
        W::Str(s) => p.write_string(s),
        W::List(k, n) => p.write_list_begin(&TListIdentifier::new(t(*k), *n)),
        W::Set(k, n) => p.write_set_begin(&TSetIdentifier::new(t(*k), *n)),
        W::Map(k, v, n) => p.write_map_begin(&TMapIdentifier::new(t(*k), t(*v), *n)),
    }
    .map_err(|e| number(&e))
}

fn port_writes(p: &mut port::TCompactOutputProtocol, w: &W) -> Result<(), u8> {
    use port::TMessageType as M;
    let t = |k: usize| TYPES[k].0;
    match w {
        W::Message(k, n, name) => p.write_message_begin(&port::TMessageIdentifier { name, message_type: [M::Call, M::Reply, M::Exception, M::OneWay][*k], sequence_number: *n }),
        W::StructBegin => p.write_struct_begin(),
        W::StructEnd => p.write_struct_end(),
        W::Field(k, id) => p.write_field_begin(t(*k), *id),
        W::Stop => p.write_field_stop(),
        W::Bool(b) => p.write_bool(*b),
        W::I8(n) => p.write_i8(*n),
        W::I16(n) => p.write_i16(*n),
        W::I32(n) => p.write_i32(*n),
        W::I64(n) => p.write_i64(*n),
        W::Double(n) => p.write_double_bits(*n),
        W::Uuid(u) => p.write_uuid(u),
        W::Bytes(b) => p.write_bytes(b),
        W::Str(s) => p.write_string(s),
        W::List(k, n) => p.write_list_begin(t(*k), *n),
        W::Set(k, n) => p.write_set_begin(t(*k), *n),
        W::Map(k, v, n) => p.write_map_begin(t(*k), t(*v), *n),
    }
    .map_err(|e| e.number())
}

const FILL: u8 = 0xAA;

/// Where the scope says otherwise than the crate of a call that both make in the same state.
fn write_difference(w: &W, last: i16, limits: port::TConfiguration, ours: Result<(), u8>) -> Option<&'static str> {
    match (w, ours) {
        (W::Field(k, id), Ok(())) if *k != 1 && (*id as i32 - last as i32) < -32768 && (1..15).contains(&id.wrapping_sub(last)) => Some("D16"),
        (W::List(_, n) | W::Set(_, n), Err(9)) if *n < 0 => Some("D18"),
        (W::Map(_, _, n), Err(9)) if *n < 0 => Some("D19"),
        (W::List(0, n) | W::Set(0, n), Err(4)) if *n > 0 => Some("D20"),
        (W::Map(k, v, n), Err(4)) if *n > 0 && (*k == 0 || *v == 0) => Some("D20"),
        (W::Field(0, _), Err(4)) => Some("D21"),
        (W::List(_, n) | W::Set(_, n) | W::Map(_, _, n), Err(8)) if *n as u32 > limits.container => Some("D26"),
        (W::Bytes(b), Err(8)) if b.len() > limits.string as usize => Some("D26"),
        (W::Str(s) | W::Message(_, _, s), Err(8)) if s.len() > limits.string as usize => Some("D26"),
        _ => None,
    }
}

/// The calls in turn on both sides; `room` bytes are lent to the port. Answers the bytes where nothing was refused.
fn writes(t: &mut Tally, ws: &[W], limits: port::TConfiguration, room: usize) -> Option<Vec<u8>> {
    let sink = std::cell::RefCell::new(Vec::new());
    let mut theirs = TCompactOutputProtocol::with_config(Sink(&sink), config(limits));
    let mut buffer = vec![FILL; room];
    let mut ours = port::TCompactOutputProtocol::with_config(&mut buffer, limits);
    let mut last = 0;
    let mut begin = 0;
    let mut outer = Vec::new();
    for (i, w) in ws.iter().enumerate() {
        *t.wrote.entry(wname(w)).or_default() += 1;
        let start = ours.place();
        let a = crate_writes(&mut theirs, w);
        let b = port_writes(&mut ours, w);
        let end = ours.place();
        let bytes = sink.borrow().clone();
        let from = if matches!(w, W::Message(..)) { start } else { begin };
        let over = a == Ok(()) && bytes.len() > from + limits.message as usize;
        if let Err(n) = b {
            t.refusals[n as usize] += 1;
            let again = port_writes(&mut ours, w);
            if end != start || again != b || buffer[..start] != bytes[..start] || buffer[start..].iter().any(|x| *x != FILL) {
                t.fail(format!("a refusal changed something: {:?}", &ws[..=i]));
            } else if n == 19 && over {
                t.difference("D30");
            } else if n == 14 && a == Ok(()) && bytes.len() > room && !over {
                t.difference("D25");
            } else if a != b {
                match write_difference(w, last, limits, b) {
                    Some(d) => t.difference(d),
                    None => t.fail(format!("{:?} limits {limits:?}: crate {a:?} {:02x?}, port {b:?}", &ws[..=i], &bytes[start..])),
                }
            }
            return None;
        }
        if over {
            t.fail(format!("{:?} limits {limits:?}: written past the ceiling", &ws[..=i]));
        }
        begin = from;
        let same = a == b && bytes == ours.written();
        if !same {
            match write_difference(w, last, limits, b) {
                Some(d) => t.difference(d),
                None => {
                    let got = ours.written()[start..].to_vec();
                    t.fail(format!("{:?} limits {limits:?}: crate {a:?} {:02x?}, port {b:?} {got:02x?}", &ws[..=i], &bytes[start..]))
                }
            }
            return None;
        }
        match w {
            W::Field(_, id) => last = *id,
            W::StructBegin => { outer.push(last); last = 0 }
            W::StructEnd => last = outer.pop().unwrap_or(0),
            _ => (),
        }
    }
    let bytes = sink.into_inner();
    if buffer[bytes.len()..].iter().any(|x| *x != FILL) {
        t.fail(format!("bytes behind were written: {ws:?}"));
    }
    Some(bytes)
}

// ------------------------------------------------------------------ the picker

/// The crate's own reading of a struct, field by field, with the last of each wanted id and type kept, and where it ends.
fn crate_picks<'a>(s: &'a [u8], limits: port::TConfiguration, ids: &[i16], kinds: &[usize]) -> Result<(Vec<port::Picked<'a>>, usize), Error> {
    let at = Cell::new(0);
    let mut p = TCompactInputProtocol::with_config(Tap(s, &at), config(limits));
    let mut found = vec![port::Picked::Absent; ids.len()];
    p.read_struct_begin()?;
    loop {
        let f = p.read_field_begin()?;
        if f.field_type == TType::Stop {
            break;
        }
        let start = at.get();
        let value = if f.field_type == TType::Bool {
            port::Picked::Bool(p.read_bool()?)
        } else {
            p.skip(f.field_type)?;
            port::Picked::Here(&s[start..at.get()])
        };
        for (i, row) in found.iter_mut().enumerate().filter(|(i, _)| f.id == Some(ids[*i])) {
            if TYPES[kinds[i]].1 == f.field_type {
                *row = value;
            } else if *row == port::Picked::Absent {
                *row = port::Picked::WrongType;
            }
        }
    }
    p.read_struct_end()?;
    Ok((found, at.get()))
}

/// A pick of some ids, most of them of the struct's own. It accepts and refuses as the port's skip does, which is compared with the crate's apart.
fn picks(t: &mut Tally, r: &mut Rng, s: &[u8], limits: port::TConfiguration) {
    let (mut ids, mut kinds) = (Vec::new(), Vec::new());
    for _ in 0..r.below(6) {
        let id = if r.below(8) == 0 { r.next() as i16 } else { r.below(20) as i16 - 2 };
        if !ids.contains(&id) {
            ids.push(id);
            kinds.push(1 + r.below(12) as usize);
        }
    }
    let types: Vec<_> = kinds.iter().map(|k| TYPES[*k].0).collect();
    let mut found = [port::Picked::Bool(true); 8];
    let mut ours = port::TCompactInputProtocol::with_config(s, limits);
    let answer = ours.pick(&ids, &types, &mut found).map_err(|e| e.number());
    let mut skips = port::TCompactInputProtocol::with_config(s, limits);
    let skipped = skips.skip(port::TType::Struct).map_err(|e| e.number());
    t.picked += 1;
    let cut = cut_of(s, 0, limits);
    if let Some(why) = broken(&s[..cut], 0, Skip(11), limits, 0) {
        let why = missing(why, cut < s.len());
        if answer == Err(why) { t.difference(if why == 19 { "D30" } else { ruled(why) }) } else { t.fail(format!("pick {answer:?} where the rule says {why}, limits {limits:?} on {s:02x?}")) }
    }
    if (answer, ours.place()) != (skipped, skips.place()) {
        t.fail(format!("pick {answer:?} where skip is {skipped:?}, limits {limits:?} on {s:02x?}"));
    } else if found[if answer.is_ok() { ids.len() } else { 0 }..].iter().any(|x| *x != port::Picked::Bool(true)) {
        t.fail(format!("pick wrote what it should not, on {s:02x?}"));
    } else if answer.is_ok() {
        match crate_picks(&s[..cut], limits, &ids, &kinds) {
            Ok(theirs) if theirs != (found[..ids.len()].to_vec(), ours.place()) => t.fail(format!("pick {ids:?} {types:?} on {s:02x?}: crate {theirs:?}, port {found:?}")),
            _ => (),
        }
    }
}

// ------------------------------------------------------------------ why

/// Why the struct at the input's start is refused: with skip's number, which `reads` holds against the crate's, or not at all. Other bytes behind the offset, the length kept, change neither number,
/// offset nor path; cut anywhere up to the offset, a byte is missed, by both sides.
fn whys(t: &mut Tally, r: &mut Rng, s: &[u8], limits: port::TConfiguration) {
    t.asked += 1;
    let reader = port::TCompactInputProtocol::with_config(s, limits);
    reads(t, s, limits, &mut once(Skip(11)));
    let fault = reader.why();
    if fault.map_or(Ok(()), |f| Err(f.refusal())) != reader.clone().skip(port::TType::Struct) {
        t.fail(format!("limits {limits:?} on {s:02x?}: {fault:?}, and skip says otherwise"));
    }
    let Some(fault) = fault else { return };
    let offset = fault.offset();
    if offset > cut_of(s, 0, limits) || fault.path().len() > limits.depth as usize {
        t.fail(format!("limits {limits:?} on {s:02x?}: {fault:?}, out of the input or too deep"));
    }
    let mut other = s.to_vec();
    other.iter_mut().skip(offset + 1).for_each(|b| *b = r.next() as u8);
    let again = port::TCompactInputProtocol::with_config(&other, limits).why();
    if again != Some(fault) {
        t.fail(format!("limits {limits:?}: {fault:?} on {s:02x?}, {again:?} on {other:02x?}"));
    }
    // Where there is no room for the struct itself, no byte is read.
    if limits.depth > 0 {
        let part = &s[..r.below(offset as u64 + 1) as usize];
        reads(t, part, limits, &mut once(Skip(11)));
        let short = port::TCompactInputProtocol::with_config(part, limits).skip(port::TType::Struct);
        if short != Err(port::Refusal::END) {
            t.fail(format!("limits {limits:?}: {fault:?} on {s:02x?}, {short:?} on its first {}", part.len()));
        }
    }
}

// ------------------------------------------------------------------ f32

/// Whether an f32 holds the number of these bits, by Rust's own casts: 0 yes, 1 no, 2 not a number.
fn settled(bits: u64) -> u8 {
    let double = f64::from_bits(bits);
    if double.is_nan() {
        return 2;
    }
    u8::from(f64::from(double as f32) != double)
}

/// Both f32 calls on a struct: they refuse and move as skip does, the answers are those of these doubles, where they are known, and the counts are the answers'.
fn singles(t: &mut Tally, s: &[u8], limits: port::TConfiguration, doubles: Option<&[u64]>) {
    t.settled += 1;
    let reader = port::TCompactInputProtocol::with_config(s, limits);
    let (mut skipped, mut counted, mut answered) = (reader.clone(), reader.clone(), reader);
    let mut row = vec![9; s.len() / 8 + 1];
    let (a, b, c) = (skipped.skip(port::TType::Struct), counted.f32_counts(), answered.f32_answers(&mut row));
    if (a.err(), a.err(), skipped.place(), skipped.place()) != (b.err(), c.err(), counted.place(), answered.place()) {
        t.fail(format!("limits {limits:?} on {s:02x?}: skip {a:?}, counts {b:?}, answers {c:?}"));
    }
    let (Ok(b), Ok(n)) = (b, c) else {
        if row.iter().any(|x| *x != 9) {
            t.fail(format!("limits {limits:?} on {s:02x?}: answers in a refused call's row"));
        }
        return;
    };
    let count = |k: u8| row[..n].iter().filter(|x| **x == k).count() as u64;
    if (b.yes, b.no, b.nan, b.all()) != (count(0), count(1), count(2), n as u64) || row[n..].iter().any(|x| *x != 9) {
        t.fail(format!("limits {limits:?} on {s:02x?}: {b:?} and {:?}", &row[..n]));
    }
    if let Some(doubles) = doubles {
        if row[..n] != doubles.iter().map(|d| settled(*d)).collect::<Vec<u8>>()[..] {
            t.fail(format!("on {s:02x?}: {:?} of {doubles:016x?}", &row[..n]));
        }
    }
}

/// Patterns around every edge of the rule, and anywhere, a list of them at a time.
fn patterns(t: &mut Tally, r: &mut Rng, lists: u64) {
    for _ in 0..lists {
        let doubles: Vec<u64> = (0..4096)
            .map(|_| match r.below(4) {
                0 => r.next(),
                1 => f64::from(f32::from_bits(r.next() as u32)).to_bits(),
                2 => f64::from(f32::from_bits(r.next() as u32)).to_bits() ^ (1 << r.below(64)),
                _ => r.below(2) << 63 | r.pick(&[0, 1, 872, 873, 874, 896, 897, 1022, 1023, 1150, 1151, 2046, 2047]) << 52 | (r.next() & ((1 << 52) - 1)) >> r.below(52) << r.below(52) & ((1 << 52) - 1),
            })
            .collect();
        let mut s = vec![0x19, 0xF7, 0x80, 0x20];
        doubles.iter().for_each(|d| s.extend(d.to_le_bytes()));
        s.push(0);
        singles(t, &s, WIDE, Some(&doubles));
    }
}

// ------------------------------------------------------------------ the run

const WIDE: port::TConfiguration = port::TConfiguration { depth: 64, string: i32::MAX as u32, container: i32::MAX as u32, message: i32::MAX as u32 };

// ------------------------------------------------------------------ frames

/// A frame's answer, the bytes handed over in bursts that end at these places; once it is final it stays, whatever bursts come.
fn by_bursts(t: &mut Tally, s: &[u8], limits: port::TConfiguration, ends: impl Iterator<Item = usize>) -> A {
    let mut skip = port::FrameSkip::announce(s.len(), limits);
    let (mut last, mut from) = (skip.take(&[]), 0);
    for end in ends.chain([s.len()]) {
        let next = skip.take(&s[from..end]);
        if last != port::Progress::More && last != next {
            t.fail(format!("a final answer of a frame changed: {last:?}, {next:?} limits {limits:?} on {s:02x?}"));
        }
        (last, from) = (next, end);
    }
    t.framed += 1;
    match last {
        port::Progress::Done(used) => Ok((V::Unit, used)),
        port::Progress::Refused(why) => Err(why.number()),
        port::Progress::More => Err(0),
    }
}

/// The crate's skip over a whole frame of the announced length, cut where the ceiling is, and the frame in bursts: all at once, one byte at a time, with empty bursts, in
/// two halves at every place (at 40 of them in a long one), and anyhow. A known difference is looked for as in `reads`.
fn frames(t: &mut Tally, r: &mut Rng, s: &[u8], limits: port::TConfiguration) {
    let cut = cut_of(s, 0, limits);
    let (seen, more, at) = (&s[..cut], cut < s.len(), Cell::new(0));
    let a = by_crate(&mut TCompactInputProtocol::with_config(Tap(seen, &at), config(limits)), &at, Skip(11));
    let n = s.len();
    let b = by_bursts(t, s, limits, [].into_iter());
    let mut ways = vec![by_bursts(t, s, limits, 1..n), by_bursts(t, s, limits, (0..n).flat_map(|i| [i, i]))];
    let places: Vec<usize> = if n <= 40 { (0..=n).collect() } else { (0..40).map(|_| r.below(n as u64 + 1) as usize).collect() };
    ways.extend(places.into_iter().map(|i| by_bursts(t, s, limits, [i].into_iter())));
    let mut any: Vec<usize> = (0..r.below(9)).map(|_| r.below(n as u64 + 1) as usize).collect();
    any.sort_unstable();
    ways.push(by_bursts(t, s, limits, any.into_iter()));
    if let Some(other) = ways.iter().find(|x| **x != b) {
        t.fail(format!("cut otherwise, a frame answers {other:?}, not {b:?}: limits {limits:?} on {s:02x?}"));
    }
    let rule = broken(seen, 0, Skip(11), limits, 0);
    if rule.map_or(b == Err(17), |why| b != Err(missing(why, more))) {
        t.fail(format!("a frame, limits {limits:?} on {s:02x?}: the rule says {rule:?}, port {b:?}"));
    }
    let missed = b == Err(19) || more && b == Err(1);
    let known = match rule {
        _ if !missed && a == b => return,
        _ if missed && a == Err(1) => Some("D30"),
        Some(1) if missed => Some("D30"),
        Some(why) if !missed => Some(ruled(why)),
        _ => skip_difference(seen, 0, limits, 11, 0, &a, &if missed { Err(1) } else { b.clone() }),
    };
    match known {
        Some(d) if !missed || more && b == Err(19) => t.difference(d),
        _ => t.fail(format!("a frame, limits {limits:?} on {s:02x?}: crate {a:?}, port {b:?}")),
    }
}

fn some_limits(r: &mut Rng) -> port::TConfiguration {
    let size = |r: &mut Rng| r.pick(&[0, 1, 2, 3, 14, 15, 16, 127, 128, 1000, 1 << 20, 0x7fff_fffe, 0x7fff_ffff]);
    let (string, container) = (size(r), size(r));
    let message = if r.below(4) == 0 { r.below(60) as u32 } else { i32::MAX as u32 };
    port::TConfiguration { depth: r.pick(&[0, 1, 2, 3, 4, 63, 64]), string, container, message }
}

/// A message, alone and with another behind it, under ceilings at the ends of its calls and a byte to either side, within them, 0 and the largest; and written under them.
fn ceilings(t: &mut Tally, r: &mut Rng, bytes: &[u8], w: &[W], c: &[Call]) {
    let mut reader = port::TCompactInputProtocol::with_config(bytes, WIDE);
    let mut ends: Vec<usize> = c.iter().map(|c| { by_port(&mut reader, *c).ok(); reader.place() }).collect();
    ends.extend([0, bytes.len(), bytes.len() + 1, i32::MAX as usize, r.below(bytes.len() as u64) as usize]);
    let two = [bytes, bytes].concat();
    let (twice, both) = ([w, w].concat(), [c, c].concat());
    for _ in 0..3 {
        let most = r.pick(&ends) + r.below(3) as usize;
        let limits = port::TConfiguration { message: most.saturating_sub(1).min(i32::MAX as usize) as u32, ..WIDE };
        for s in [bytes, &two] {
            let mut i = 0;
            reads(t, s, limits, &mut |_| { i += 1; both.get(i - 1).copied() });
            let mut i = 0;
            reads(t, s, limits, &mut |_| { i += 1; [Message, Skip(11), Message].get(i - 1).copied() });
        }
        writes(t, &twice, limits, if r.below(3) == 0 { r.below(two.len() as u64 + 1) as usize } else { two.len() });
    }
}

fn every_call(t: &mut Tally, s: &[u8], limits: port::TConfiguration) {
    for c in READS {
        reads(t, s, limits, &mut once(c));
    }
    for k in 0..13 {
        reads(t, s, limits, &mut once(Skip(k)));
    }
}

fn main() {
    std::panic::set_hook(Box::new(|_| ()));
    let arg = |i: usize, d: u64| std::env::args().nth(i).and_then(|x| x.parse().ok()).unwrap_or(d);
    let (seed, millions) = (arg(1, 1), arg(2, 100));
    let mut t = Tally::default();
    let mut r = Rng(seed);

    // all inputs of 0 to 2 bytes, for each call
    every_call(&mut t, &[], WIDE);
    for a in 0..=255 {
        every_call(&mut t, &[a], WIDE);
        for b in 0..=255 {
            every_call(&mut t, &[a, b], WIDE);
        }
    }
    // numbers of an i16 about the ends of its range, in every length, as a value and as an id, alone and within each container
    for n in [0u32, 1, 2, 65534, 65535, 65536, 65537, 131_073, 131_074, 1 << 31, u32::MAX - 1, u32::MAX] {
        for long in 0..6 {
            for last in [0, 0x10, 0x70] {
                let mut z: Vec<u8> = (0..5).map(|k| (n >> (7 * k)) as u8 & 0x7f).collect();
                z.truncate(if long == 5 { 5 } else { (1..6).find(|k| *k >= long && (*k == 5 || n >> (7 * k) == 0)).unwrap() });
                let end = z.len() - 1;
                z[..end].iter_mut().for_each(|b| *b |= 0x80);
                if end == 4 { z[4] |= last }
                for (head, tail) in [(&[][..], &[][..]), (&[0x14], &[0]), (&[0x24, 2], &[]), (&[1, 0x44], &[2]), (&[1, 0x34, 5], &[])] {
                    every_call(&mut t, &[head, &z, tail].concat(), WIDE);
                }
                for code in 0..16 {
                    every_call(&mut t, &[&[code], &z[..], &[5, 0, 0]].concat(), WIDE);
                    every_call(&mut t, &[&[0x1c, code], &z[..], &[5, 0, 0, 0]].concat(), WIDE);
                }
            }
        }
    }
    // counts about the bytes left: each type, alone, as an element and as a field; each pair of types
    let padded = |head: &[u8], n: usize| { let mut s = head.to_vec(); s.resize(head.len() + n, 0); s };
    for kind in 0..14u8 {
        for count in [1u8, 2, 3, 14] {
            let need = count as usize * if kind == 7 { 8 } else if kind == 13 { 16 } else { 1 };
            for have in [0, need - 1, need, need + 1] {
                for head in [&[count << 4 | kind][..], &[0xf0 | kind, count], &[0xf0 | kind, 0x80 | count, 0x00], &[0x19, count << 4 | kind], &[0x1a, 0xf0 | kind, count]] {
                    every_call(&mut t, &padded(head, have), WIDE);
                }
            }
        }
        for other in 0..14u8 {
            for count in [1u8, 2] {
                let need = count as usize * [kind, other].map(|k| if k == 7 { 8 } else if k == 13 { 16 } else { 1 }).iter().sum::<usize>();
                for have in [0, need - 1, need, need + 1] {
                    every_call(&mut t, &padded(&[count, kind << 4 | other], have), WIDE);
                    every_call(&mut t, &padded(&[0x1b, count, kind << 4 | other], have), WIDE);
                }
            }
        }
        // products of 32 bits and more, and counts over a limit or below 0
        for count in [&[0x80, 0x80, 0x80, 0x80, 0x01][..], &[0x80, 0x80, 0x80, 0x80, 0x02], &[0x80, 0xa8, 0xd6, 0xb9, 0x07], &[0xff, 0xff, 0xff, 0xff, 0x07], &[0xff, 0xff, 0xff, 0xff, 0x0f], &[0x65], &[0x64]] {
            for limits in [WIDE, port::TConfiguration { container: 100, ..WIDE }] {
                for have in [0, 16, 34] {
                    every_call(&mut t, &padded(&[&[0xf0 | kind], count].concat(), have), limits);
                    every_call(&mut t, &padded(&[count, &[kind << 4 | 13]].concat(), have), limits);
                    every_call(&mut t, &padded(&[&[0x19, 0xf0 | kind], count].concat(), have), limits);
                }
            }
        }
    }
    // each header and each scalar under every ceiling, with and without bytes behind
    for s in [&[0x82, 0x21, 0x01, 0x01, 0x74, 0x11, 0x15, 0x01, 0x00][..], &[0x15, 0x02, 0x00], &[0x05, 0xFE, 0xFF, 0x03], &[0x35, 1, 2, 3], &[0xF3, 0x0F, 1, 2, 3, 4, 5, 6, 7, 8, 9, 10, 11, 12, 13, 14, 15],
        &[0x01, 0x85, 0x01, 0x61, 0x02], &[0x03, 0x61, 0x62, 0x63], &[0x80, 0x80, 0x80, 0x80, 0x08], &[0x1C, 0x11, 0x00, 0x00], &[0x19, 0x25, 0x01, 0x02, 0x00], &[1; 18], &[0x27; 17]] {
        for more in 0..3 {
            for message in (0..s.len() as u32 + 2).chain([i32::MAX as u32]) {
                every_call(&mut t, &padded(s, more), port::TConfiguration { message, ..WIDE });
            }
        }
    }
    // every id before every first byte of a field, at the bounds
    for last in [-32768i16, -32767, -15, -14, -1, 0, 1, 32752, 32753, 32754, 32759, 32760, 32766, 32767] {
        let mut head = vec![5];
        let z = ((last << 1) ^ (last >> 15)) as u16;
        head.extend([z as u8 | 0x80, (z >> 7) as u8 | 0x80, (z >> 14) as u8]);
        for b in 0..=255u8 {
            for tail in [&[][..], &[0], &[1], &[0xFF, 0xFF, 0x03], &[0xFE, 0xFF, 0x03], &[0x80; 5]] {
                let s = [&head[..], &[b], tail].concat();
                let mut n = 0;
                reads(&mut t, &s, WIDE, &mut |_| { n += 1; if n < 3 { Some(Field) } else { None } });
            }
        }
    }
    // all i16, and every id after ids at the bounds
    for n in i16::MIN..=i16::MAX {
        if let Some(bytes) = writes(&mut t, &[W::I16(n)], WIDE, 8) {
            reads(&mut t, &bytes, WIDE, &mut once(I16));
        }
        for last in [0i16, -32768, 32767, -1, 100, 20000] {
            writes(&mut t, &[W::Field(4, last), W::Field(4, n)], WIDE, 12);
        }
        writes(&mut t, &[W::Field(1, n), W::Bool(n % 2 == 0)], WIDE, 12);
    }
    // single calls at every boundary, with every little room
    for n in EDGES.iter().flat_map(|e| (-3..4).map(move |d| e.wrapping_add(d))) {
        let z = n as i32;
        for room in [0, 1, 2, 3, 4, 5, 9, 10, 11, 40] {
            for w in [W::I8(n as i8), W::I16(n as i16), W::I32(z), W::I64(n), W::Double(n as u64), W::Bool(z & 1 == 0), W::Stop, W::Uuid([n as u8; 16]), W::Field(4, n as i16)] {
                writes(&mut t, &[w], WIDE, room);
            }
            for k in 0..13 {
                for limits in [WIDE, port::TConfiguration { depth: 1, string: 3, container: 15, message: 9 }] {
                    writes(&mut t, &[W::List(k, z)], limits, room);
                    writes(&mut t, &[W::Set(k, z)], limits, room);
                    writes(&mut t, &[W::Map(k, (k + z.unsigned_abs() as usize) % 13, z)], limits, room);
                    writes(&mut t, &[W::Field(k, z as i16)], limits, room);
                }
            }
            let text: String = "é".repeat((z & 0xff) as usize % 70);
            for limits in [WIDE, port::TConfiguration { depth: 1, string: 60, container: 15, message: 70 }] {
                for w in [W::Str(text.clone()), W::Bytes(vec![7; (z & 0x1ff) as usize]), W::Message((z & 3) as usize, z, text.clone())] {
                    writes(&mut t, &[w], limits, room * 16);
                }
            }
        }
    }
    // doubles that an f32 holds or not: 8 million patterns
    patterns(&mut t, &mut r, 2000);
    // random bytes, and whole messages, by each side, and damaged copies of them
    let total = |t: &Tally| t.read.iter().sum::<u64>() + t.wrote.values().sum::<u64>() + t.picked + t.framed + t.asked + t.settled;
    while total(&t) < millions * 1_000_000 {
        let s: Vec<u8> = (0..r.below(12)).map(|_| if r.below(3) == 0 { r.pick(&[0, 1, 2, 0x7F, 0x80, 0xFF, 0x82, 0x21, 0x15, 0x1C, 0x19]) } else { r.next() as u8 }).collect();
        let limits = if r.below(2) == 0 { WIDE } else { some_limits(&mut r) };
        every_call(&mut t, &s, limits);
        frames(&mut t, &mut r, &s, limits);
        whys(&mut t, &mut r, &s, limits);
        singles(&mut t, &s, limits, None);

        let kind = r.pick(&[11, 11, 11, 8, 9, 10]);
        let value = tree(&mut r, kind, 4);
        let (mut w, mut c) = (vec![W::Message(r.below(4) as usize, number_near(&mut r) as i32, "trial".into())], vec![Message]);
        calls(&value, &mut w, &mut c);
        let limits = if r.below(3) > 0 { WIDE } else { some_limits(&mut r) };
        let room = if r.below(4) == 0 { r.below(400) as usize } else { 1 << 16 };
        let Some(bytes) = writes(&mut t, &w, limits, room) else { continue };
        let run = |t: &mut Tally, s: &[u8], limits| {
            let mut i = 0;
            reads(t, s, limits, &mut |_| { i += 1; c.get(i - 1).copied() });
            let mut i = 0;
            reads(t, s, limits, &mut |_| { i += 1; [Message, Skip(kind)].get(i - 1).copied() });
        };
        run(&mut t, &bytes, limits);
        let other = some_limits(&mut r);
        run(&mut t, &bytes, other);
        ceilings(&mut t, &mut r, &bytes, &w, &c);
        // the struct by itself, picked, and copies of it that are damaged
        if kind == 11 {
            let (mut w, mut c) = (Vec::new(), Vec::new());
            calls(&value, &mut w, &mut c);
            if let Some(own) = writes(&mut t, &w, WIDE, 1 << 16) {
                let doubles: Vec<u64> = w.iter().filter_map(|w| if let W::Double(d) = w { Some(*d) } else { None }).collect();
                singles(&mut t, &own, WIDE, Some(&doubles));
                for i in 0..12 {
                    let mut s = own.clone();
                    if i > 5 {
                        let j = r.below(s.len() as u64) as usize;
                        s[j] ^= 1 << r.below(8);
                    }
                    let limits = if i % 3 == 0 { some_limits(&mut r) } else { WIDE };
                    picks(&mut t, &mut r, &s, limits);
                    singles(&mut t, &s, limits, None);
                    if i == 8 { s.truncate(r.below(own.len() as u64) as usize) }
                    if i % 2 == 0 { frames(&mut t, &mut r, &s, limits) }
                    if i % 2 == 0 {
                        s.truncate(r.below(s.len() as u64 + 1) as usize + 1);
                    }
                    whys(&mut t, &mut r, &s, limits);
                }
            }
        }
        for _ in 0..4 {
            let mut bad = bytes.clone();
            match r.below(3) {
                0 => bad.truncate(r.below(bytes.len() as u64 + 1) as usize),
                1 => { let i = r.below(bad.len() as u64) as usize; bad[i] ^= 1 << r.below(8) }
                _ => { let i = r.below(bad.len() as u64) as usize; bad[i] = r.next() as u8 }
            }
            run(&mut t, &bad, WIDE);
        }
    }
    // nestings around the limit, entered by skip and by struct calls
    for (depth, begun) in [(64, 0), (64, 1), (64, 2), (3, 0), (3, 1), (0, 0), (1, 1)] {
        for n in 0..70usize {
            for inner in [&[0x13, 0][..], &[0x03], &[0x10], &[0x10, 0], &[0x1C, 0], &[0x15, 2], &[0x11, 1], &[0x1B, 1, 0x30], &[0x1B, 1, 0x30, 0, 0]] {
                let s = [&vec![0x19; n][..], inner].concat();
                let limits = port::TConfiguration { depth, ..WIDE };
                let mut i = 0;
                reads(&mut t, &s, limits, &mut |_| { i += 1; if i <= begun { Some(StructBegin) } else if i == begun + 1 { Some(Skip(8)) } else { None } });
            }
        }
    }
    // calls out of the grammar's order, where the crate panics
    for ws in [vec![W::StructEnd], vec![W::Field(1, 1), W::Stop], vec![W::Field(1, 1), W::Field(1, 2)], vec![W::Field(1, 1), W::StructEnd]] {
        let sink = std::cell::RefCell::new(Vec::new());
        let mut theirs = TCompactOutputProtocol::with_config(Sink(&sink), config(WIDE));
        let panics = catch_unwind(AssertUnwindSafe(|| ws.iter().for_each(|w| drop(crate_writes(&mut theirs, w))))).is_err();
        let mut buffer = [FILL; 16];
        let mut ours = port::TCompactOutputProtocol::with_config(&mut buffer, WIDE);
        let b = ws.iter().map(|w| port_writes(&mut ours, w)).last().unwrap();
        if panics && b == Err(12) { t.difference(if ws.len() == 1 { "D24" } else { "D23" }) } else { t.fail(format!("{ws:?}: panics {panics}, port {b:?}")) }
    }

    // a bool that waits, and another call
    for c in READS.into_iter().chain((0..13).map(Skip)).chain([StructBegin, StructEnd]).filter(|c| !matches!(c, Bool | Skip(1))) {
        let mut i = 0;
        reads(&mut t, &[0x11, 0x05, 1, 2, 3, 4, 5, 6, 7, 8, 9, 10, 11, 12, 13, 14, 15, 16, 17], WIDE, &mut |_| { i += 1; [StructBegin, Field, c].get(i - 1).copied() });
    }
    for w in [W::I8(1), W::Field(4, 2), W::StructBegin, W::Message(0, 0, "t".into()), W::List(4, 0)] {
        let mut buffer = [FILL; 16];
        let mut ours = port::TCompactOutputProtocol::with_config(&mut buffer, WIDE);
        port_writes(&mut ours, &W::Field(1, 1)).unwrap();
        let sink = std::cell::RefCell::new(Vec::new());
        let mut theirs = TCompactOutputProtocol::with_config(Sink(&sink), config(WIDE));
        crate_writes(&mut theirs, &W::Field(1, 1)).unwrap();
        match (crate_writes(&mut theirs, &w), port_writes(&mut ours, &w)) {
            (Ok(()), Err(12)) => t.difference("D22"),
            other => t.fail(format!("{w:?} while a bool waits: {other:?}")),
        }
    }
    // a struct ended that was not begun
    let place = Cell::new(0);
    let panics = catch_unwind(AssertUnwindSafe(|| TCompactInputProtocol::with_config(Tap(&[], &place), config(WIDE)).read_struct_end().is_ok())).is_err();
    let b = port::TCompactInputProtocol::with_config(&[], WIDE).read_struct_end().map_err(|e| e.number());
    if panics && b == Err(12) { t.difference("D11") } else { t.fail(format!("struct end at depth 0: panics {panics}, port {b:?}")) }
    // limits that no state may have
    for limits in [port::TConfiguration { depth: 65, ..WIDE }, port::TConfiguration { string: 1 << 31, ..WIDE }, port::TConfiguration { container: u32::MAX, ..WIDE }, port::TConfiguration { message: 1 << 31, ..WIDE }] {
        for c in READS {
            let b = by_port(&mut port::TCompactInputProtocol::with_config(&[0; 32], limits), c);
            if b == Err(15) { t.difference("D13") } else { t.fail(format!("{c:?} under {limits:?}: port {b:?}")) }
        }
    }
    // the crate's limit on a message, which has no equal in the port; the elements are there
    for (c, head) in [(List, &[0xf7, 0x81, 0x80, 0xa0, 0x06][..]), (List, &[0xf3, 0x81, 0x80, 0x80, 0x32]), (Map, &[0x81, 0x80, 0xc8, 0x01, 0xdd])] {
        let s = &padded(head, 104_857_632)[..];
        let place = Cell::new(0);
        let a = by_crate(&mut TCompactInputProtocol::with_config(Tap(s, &place), thrift::TConfiguration::default()), &place, c);
        let b = by_port(&mut port::TCompactInputProtocol::with_config(s, WIDE), c);
        if a == Err(8) && b.is_ok() { t.difference("D7") } else { t.fail(format!("{c:?} on {head:02x?}: crate {a:?}, port {b:?}")) }
    }

    println!("seed {seed}");
    for (n, k) in NAMES.iter().zip(t.read) {
        println!("read {n}: {k}");
    }
    for (n, k) in &t.wrote {
        println!("write {n}: {k}");
    }
    println!("pick: {}", t.picked);
    println!("frame in bursts: {}", t.framed);
    println!("why: {}", t.asked);
    println!("f32: {}", t.settled);
    for (n, k) in t.refusals.iter().enumerate().filter(|x| *x.1 > 0) {
        println!("refused {n}: {k}");
    }
    for (d, k) in &t.differences {
        println!("difference {d}: {k}");
    }
    println!("{} cases, {} unexplained", total(&t), t.failed);
    std::process::exit((t.failed > 0) as i32);
}
