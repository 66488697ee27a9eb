//! The traits of the crate thrift over the port, so that a program that the crate's compiler has written runs on the proved core. `In` and `Out` are all there is to take
//! over; `main` runs generated code on both.
use std::collections::BTreeMap;
use tagrumzil as tz;
use thrift::protocol::*;
use thrift::{Error, ProtocolError, ProtocolErrorKind as K, Result};

fn err(r: tz::Refusal) -> Error {
    use tz::Refusal as R;
    let kind = match r {
        R::END => return Error::Transport(thrift::TransportError::new(thrift::TransportErrorKind::EndOfFile, r.to_string())),
        R::BAD_VERSION => K::BadVersion,
        R::SIZE_LIMIT => K::SizeLimit,
        R::NEGATIVE_SIZE => K::NegativeSize,
        R::DEPTH => K::DepthLimit,
        _ => K::InvalidData,
    };
    Error::Protocol(ProtocolError::new(kind, r.to_string()))
}
fn ty(t: tz::TType) -> TType {
    use tz::TType as P;
    match t {
        P::Stop => TType::Stop,
        P::Bool => TType::Bool,
        P::I08 => TType::I08,
        P::I16 => TType::I16,
        P::I32 => TType::I32,
        P::I64 => TType::I64,
        P::Double => TType::Double,
        P::String => TType::String,
        P::List => TType::List,
        P::Set => TType::Set,
        P::Map => TType::Map,
        P::Struct => TType::Struct,
        P::Uuid => TType::Uuid,
    }
}
fn yt(t: TType) -> Result<tz::TType> {
    use tz::TType as P;
    Ok(match t {
        TType::Stop => P::Stop,
        TType::Bool => P::Bool,
        TType::I08 => P::I08,
        TType::I16 => P::I16,
        TType::I32 => P::I32,
        TType::I64 => P::I64,
        TType::Double => P::Double,
        TType::String => P::String,
        TType::List => P::List,
        TType::Set => P::Set,
        TType::Map => P::Map,
        TType::Struct => P::Struct,
        TType::Uuid => P::Uuid,
        _ => return Err(err(tz::Refusal::BAD_TYPE)),
    })
}
fn mt(t: tz::TMessageType) -> TMessageType {
    match t {
        tz::TMessageType::Call => TMessageType::Call,
        tz::TMessageType::Reply => TMessageType::Reply,
        tz::TMessageType::Exception => TMessageType::Exception,
        tz::TMessageType::OneWay => TMessageType::OneWay,
    }
}
fn tm(t: TMessageType) -> tz::TMessageType {
    match t {
        TMessageType::Call => tz::TMessageType::Call,
        TMessageType::Reply => tz::TMessageType::Reply,
        TMessageType::Exception => tz::TMessageType::Exception,
        TMessageType::OneWay => tz::TMessageType::OneWay,
    }
}

pub struct In<'a>(pub tz::TCompactInputProtocol<'a>);
impl TInputProtocol for In<'_> {
    fn read_message_begin(&mut self) -> Result<TMessageIdentifier> {
        let m = self.0.read_message_begin().map_err(err)?;
        Ok(TMessageIdentifier::new(m.name, mt(m.message_type), m.sequence_number))
    }
    fn read_message_end(&mut self) -> Result<()> {
        Ok(())
    }
    fn read_struct_begin(&mut self) -> Result<Option<TStructIdentifier>> {
        self.0.read_struct_begin().map_err(err)?;
        Ok(None)
    }
    fn read_struct_end(&mut self) -> Result<()> {
        self.0.read_struct_end().map_err(err)
    }
    fn read_field_begin(&mut self) -> Result<TFieldIdentifier> {
        let f = self.0.read_field_begin().map_err(err)?;
        Ok(TFieldIdentifier {
            name: None,
            field_type: ty(f.field_type),
            id: f.id,
        })
    }
    fn read_field_end(&mut self) -> Result<()> {
        Ok(())
    }
    fn read_bool(&mut self) -> Result<bool> {
        self.0.read_bool().map_err(err)
    }
    fn read_bytes(&mut self) -> Result<Vec<u8>> {
        Ok(self.0.read_bytes().map_err(err)?.to_vec())
    }
    fn read_i8(&mut self) -> Result<i8> {
        self.0.read_i8().map_err(err)
    }
    fn read_i16(&mut self) -> Result<i16> {
        self.0.read_i16().map_err(err)
    }
    fn read_i32(&mut self) -> Result<i32> {
        self.0.read_i32().map_err(err)
    }
    fn read_i64(&mut self) -> Result<i64> {
        self.0.read_i64().map_err(err)
    }
    fn read_double(&mut self) -> Result<f64> {
        self.0.read_double().map_err(err)
    }
    fn read_uuid(&mut self) -> Result<uuid::Uuid> {
        Ok(uuid::Uuid::from_bytes(self.0.read_uuid().map_err(err)?))
    }
    fn read_string(&mut self) -> Result<String> {
        Ok(self.0.read_string().map_err(err)?.to_owned())
    }
    fn read_list_begin(&mut self) -> Result<TListIdentifier> {
        let l = self.0.read_list_begin().map_err(err)?;
        Ok(TListIdentifier::new(ty(l.element_type), l.size))
    }
    fn read_list_end(&mut self) -> Result<()> {
        Ok(())
    }
    fn read_set_begin(&mut self) -> Result<TSetIdentifier> {
        let l = self.0.read_set_begin().map_err(err)?;
        Ok(TSetIdentifier::new(ty(l.element_type), l.size))
    }
    fn read_set_end(&mut self) -> Result<()> {
        Ok(())
    }
    fn read_map_begin(&mut self) -> Result<TMapIdentifier> {
        let m = self.0.read_map_begin().map_err(err)?;
        Ok(TMapIdentifier {
            key_type: m.key_type.map(ty),
            value_type: m.value_type.map(ty),
            size: m.size,
        })
    }
    fn read_map_end(&mut self) -> Result<()> {
        Ok(())
    }
    fn skip(&mut self, t: TType) -> Result<()> {
        self.0.skip(yt(t)?).map_err(err)
    }
    fn read_byte(&mut self) -> Result<u8> {
        Ok(self.0.read_i8().map_err(err)? as u8)
    }
}
pub struct Out<'a>(pub tz::TCompactOutputProtocol<'a>);
impl TOutputProtocol for Out<'_> {
    fn write_message_begin(&mut self, i: &TMessageIdentifier) -> Result<()> {
        self.0
            .write_message_begin(&tz::TMessageIdentifier {
                name: &i.name,
                message_type: tm(i.message_type),
                sequence_number: i.sequence_number,
            })
            .map_err(err)
    }
    fn write_message_end(&mut self) -> Result<()> {
        Ok(())
    }
    fn write_struct_begin(&mut self, _: &TStructIdentifier) -> Result<()> {
        self.0.write_struct_begin().map_err(err)
    }
    fn write_struct_end(&mut self) -> Result<()> {
        self.0.write_struct_end().map_err(err)
    }
    fn write_field_begin(&mut self, i: &TFieldIdentifier) -> Result<()> {
        self.0.write_field_begin(yt(i.field_type)?, field_id(i)?).map_err(err)
    }
    fn write_field_end(&mut self) -> Result<()> {
        Ok(())
    }
    fn write_field_stop(&mut self) -> Result<()> {
        self.0.write_field_stop().map_err(err)
    }
    fn write_bool(&mut self, b: bool) -> Result<()> {
        self.0.write_bool(b).map_err(err)
    }
    fn write_bytes(&mut self, b: &[u8]) -> Result<()> {
        self.0.write_bytes(b).map_err(err)
    }
    fn write_i8(&mut self, n: i8) -> Result<()> {
        self.0.write_i8(n).map_err(err)
    }
    fn write_i16(&mut self, n: i16) -> Result<()> {
        self.0.write_i16(n).map_err(err)
    }
    fn write_i32(&mut self, n: i32) -> Result<()> {
        self.0.write_i32(n).map_err(err)
    }
    fn write_i64(&mut self, n: i64) -> Result<()> {
        self.0.write_i64(n).map_err(err)
    }
    fn write_double(&mut self, d: f64) -> Result<()> {
        self.0.write_double(d).map_err(err)
    }
    fn write_uuid(&mut self, u: &uuid::Uuid) -> Result<()> {
        self.0.write_uuid(u.as_bytes()).map_err(err)
    }
    fn write_string(&mut self, s: &str) -> Result<()> {
        self.0.write_string(s).map_err(err)
    }
    fn write_list_begin(&mut self, i: &TListIdentifier) -> Result<()> {
        self.0.write_list_begin(yt(i.element_type)?, i.size).map_err(err)
    }
    fn write_list_end(&mut self) -> Result<()> {
        Ok(())
    }
    fn write_set_begin(&mut self, i: &TSetIdentifier) -> Result<()> {
        self.0.write_set_begin(yt(i.element_type)?, i.size).map_err(err)
    }
    fn write_set_end(&mut self) -> Result<()> {
        Ok(())
    }
    fn write_map_begin(&mut self, i: &TMapIdentifier) -> Result<()> {
        let t = |t: Option<TType>| t.map_or(Ok(tz::TType::Stop), yt);
        self.0.write_map_begin(t(i.key_type)?, t(i.value_type)?, i.size).map_err(err)
    }
    fn write_map_end(&mut self) -> Result<()> {
        Ok(())
    }
    fn flush(&mut self) -> Result<()> {
        Ok(())
    }
    fn write_byte(&mut self, b: u8) -> Result<()> {
        self.0.write_i8(b as i8).map_err(err)
    }
}

// ------------------------------------------------------------------ a run of it

// As generated code has it: a struct that reads and writes itself by whichever protocol.
#[derive(Clone, Debug, PartialEq)]
struct Point {
    time: Option<f64>,
    pressure: Option<f64>,
    name: Option<String>,
    good: Option<bool>,
    tags: Option<BTreeMap<i64, Vec<i16>>>,
}

fn head(o: &mut dyn TOutputProtocol, name: &str, kind: TType, id: i16) -> Result<()> {
    o.write_field_begin(&TFieldIdentifier::new(name, kind, id))
}

impl TSerializable for Point {
    fn read_from_in_protocol(i: &mut dyn TInputProtocol) -> Result<Point> {
        let mut point = Point {
            time: None,
            pressure: None,
            name: None,
            good: None,
            tags: None,
        };
        i.read_struct_begin()?;
        loop {
            let field = i.read_field_begin()?;
            if field.field_type == TType::Stop {
                break;
            }
            match field_id(&field)? {
                1 => point.time = Some(i.read_double()?),
                2 => point.pressure = Some(i.read_double()?),
                3 => point.name = Some(i.read_string()?),
                4 => point.good = Some(i.read_bool()?),
                40 => {
                    let map = i.read_map_begin()?;
                    let mut tags = BTreeMap::new();
                    for _ in 0..map.size {
                        let key = i.read_i64()?;
                        let list = i.read_list_begin()?;
                        let values = (0..list.size).map(|_| i.read_i16()).collect::<Result<Vec<i16>>>()?;
                        i.read_list_end()?;
                        tags.insert(key, values);
                    }
                    i.read_map_end()?;
                    point.tags = Some(tags);
                }
                _ => i.skip(field.field_type)?,
            }
            i.read_field_end()?;
        }
        i.read_struct_end()?;
        Ok(point)
    }

    fn write_to_out_protocol(&self, o: &mut dyn TOutputProtocol) -> Result<()> {
        o.write_struct_begin(&TStructIdentifier::new("Point"))?;
        if let Some(v) = self.time {
            head(o, "time", TType::Double, 1)?;
            o.write_double(v)?;
        }
        if let Some(v) = self.pressure {
            head(o, "pressure", TType::Double, 2)?;
            o.write_double(v)?;
        }
        if let Some(v) = &self.name {
            head(o, "name", TType::String, 3)?;
            o.write_string(v)?;
        }
        if let Some(v) = self.good {
            head(o, "good", TType::Bool, 4)?;
            o.write_bool(v)?;
        }
        if let Some(v) = &self.tags {
            head(o, "tags", TType::Map, 40)?;
            o.write_map_begin(&TMapIdentifier::new(TType::I64, TType::List, v.len() as i32))?;
            for (key, values) in v {
                o.write_i64(*key)?;
                o.write_list_begin(&TListIdentifier::new(TType::I16, values.len() as i32))?;
                values.iter().try_for_each(|n| o.write_i16(*n))?;
            }
        }
        o.write_field_stop()?;
        o.write_struct_end()
    }
}

// A number after another, all of them told by the first.
fn next(seed: &mut u64) -> u64 {
    *seed ^= *seed << 13;
    *seed ^= *seed >> 7;
    *seed ^= *seed << 17;
    *seed
}

fn some_point(seed: &mut u64) -> Point {
    let there = next(seed);
    let double = f64::from_bits(next(seed));
    Point {
        time: (there & 1 != 0).then_some(if double.is_nan() { 0.5 } else { double }),
        pressure: (there & 2 != 0).then_some((next(seed) % 1000) as f64 / 8.0),
        name: (there & 4 != 0).then(|| "m".repeat((next(seed) % 300) as usize)),
        good: (there & 8 != 0).then_some(there & 16 != 0),
        tags: (there & 32 != 0).then(|| {
            (0..next(seed) % 5)
                .map(|_| (next(seed) as i64, (0..next(seed) % 20).map(|_| next(seed) as i16).collect()))
                .collect()
        }),
    }
}

/// Generated code on the port through the adapter, and on the crate: the bytes written, the struct read back, and that both refuse where it is cut short.
fn main() {
    let (mut seed, mut failed, mut cuts) = (88_172_645_463_325_252, 0, 0);
    let count = 100_000;
    for _ in 0..count {
        let point = some_point(&mut seed);
        let mut theirs = Vec::new();
        point.write_to_out_protocol(&mut TCompactOutputProtocol::new(&mut theirs)).unwrap();
        let mut buffer = vec![0; theirs.len()];
        let mut out = Out(tz::TCompactOutputProtocol::new(&mut buffer));
        point.write_to_out_protocol(&mut out).unwrap();
        let ours = out.0.written().to_vec();
        let back = Point::read_from_in_protocol(&mut In(tz::TCompactInputProtocol::new(&ours))).unwrap();
        failed += u32::from(ours != theirs || back != point);
        let cut = &ours[..next(&mut seed) as usize % ours.len()];
        let by_port = Point::read_from_in_protocol(&mut In(tz::TCompactInputProtocol::new(cut)));
        let by_crate = Point::read_from_in_protocol(&mut TCompactInputProtocol::new(cut));
        failed += u32::from(by_port.is_ok() || by_crate.is_ok());
        cuts += 1;
    }
    println!("{count} structs and {cuts} cut short, {failed} differ");
    std::process::exit(i32::from(failed != 0));
}
