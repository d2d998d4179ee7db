//! AMQP's octets: texts, tables and values, written and read where they lie. Nothing here knows what they are for.
//!
//! A reader goes never behind its end. Tables may lie in each other `DEEPEST` deep: what is deeper is malformed, so that no peer makes this side's
//! stack run over.

use crate::types::{AMQPValue, ByteArray, DecimalValue, FieldArray, FieldTable, LongString, ShortString};
use std::collections::BTreeMap;

/// So deep values may lie in each other.
const DEEPEST: usize = 200;

/// Why something can't be written.
pub type Unwritable = &'static str;

// ---- written

pub fn put_short(out: &mut Vec<u8>, text: &ShortString) -> Result<(), Unwritable> {
    let octets = text.as_bytes();
    out.push(u8::try_from(octets.len()).map_err(|_| "a text is longer than 255 octets")?);
    out.extend_from_slice(octets);
    Ok(())
}

fn put_long(out: &mut Vec<u8>, octets: &[u8]) -> Result<(), Unwritable> {
    let length = u32::try_from(octets.len()).map_err(|_| "a value is longer than a table may be")?;
    out.extend_from_slice(&length.to_be_bytes());
    out.extend_from_slice(octets);
    Ok(())
}

// What `put` writes, behind its length.
fn put_within(out: &mut Vec<u8>, put: impl FnOnce(&mut Vec<u8>) -> Result<(), Unwritable>) -> Result<(), Unwritable> {
    let at = out.len();
    out.extend_from_slice(&[0; 4]);
    put(out)?;
    let length = u32::try_from(out.len() - at - 4).map_err(|_| "a table is too long")?;
    out[at..at + 4].copy_from_slice(&length.to_be_bytes());
    Ok(())
}

/// A table behind its length.
pub fn put_table(out: &mut Vec<u8>, table: &FieldTable) -> Result<(), Unwritable> {
    put_within(out, |out| put_pairs(out, table, 0))
}

/// The pairs of a table.
pub fn put_pairs(out: &mut Vec<u8>, table: &FieldTable, depth: usize) -> Result<(), Unwritable> {
    if depth > DEEPEST {
        return Err("tables lie too deep in each other");
    }
    for (key, value) in table {
        put_short(out, key)?;
        put_value(out, value, depth)?;
    }
    Ok(())
}

fn put_value(out: &mut Vec<u8>, value: &AMQPValue, depth: usize) -> Result<(), Unwritable> {
    let mut number = |letter: u8, octets: &[u8]| {
        out.push(letter);
        out.extend_from_slice(octets);
        Ok(())
    };
    const ENDLESS: Unwritable = "a float that is no number, or without an end";
    match value {
        AMQPValue::Boolean(it) => number(b't', &[u8::from(*it)]),
        AMQPValue::ShortShortInt(it) => number(b'b', &it.to_be_bytes()),
        AMQPValue::ShortShortUInt(it) => number(b'B', &[*it]),
        AMQPValue::ShortInt(it) => number(b's', &it.to_be_bytes()),
        AMQPValue::ShortUInt(it) => number(b'u', &it.to_be_bytes()),
        AMQPValue::LongInt(it) => number(b'I', &it.to_be_bytes()),
        AMQPValue::LongUInt(it) => number(b'i', &it.to_be_bytes()),
        AMQPValue::LongLongInt(it) => number(b'l', &it.to_be_bytes()),
        AMQPValue::Timestamp(it) => number(b'T', &it.to_be_bytes()),
        AMQPValue::Void => number(b'V', &[]),
        AMQPValue::Float(it) if it.is_finite() => number(b'f', &it.to_be_bytes()),
        AMQPValue::Double(it) if it.is_finite() => number(b'd', &it.to_be_bytes()),
        AMQPValue::Float(_) | AMQPValue::Double(_) => Err(ENDLESS),
        AMQPValue::DecimalValue(it) => {
            number(b'D', &[it.scale])?;
            out.extend_from_slice(&it.value.to_be_bytes());
            Ok(())
        }
        AMQPValue::ShortString(it) => {
            number(b'S', &[])?;
            put_long(out, it.as_bytes())
        }
        AMQPValue::LongString(it) => {
            number(b'S', &[])?;
            put_long(out, it.as_bytes())
        }
        AMQPValue::ByteArray(it) => {
            number(b'x', &[])?;
            put_long(out, it.as_slice())
        }
        AMQPValue::FieldTable(it) => {
            number(b'F', &[])?;
            put_within(out, |out| put_pairs(out, it, depth + 1))
        }
        AMQPValue::FieldArray(it) => {
            number(b'A', &[])?;
            put_within(out, |out| put_array(out, it, depth + 1))
        }
    }
}

fn put_array(out: &mut Vec<u8>, array: &FieldArray, depth: usize) -> Result<(), Unwritable> {
    if depth > DEEPEST {
        return Err("arrays lie too deep in each other");
    }
    array.as_slice().iter().try_for_each(|it| put_value(out, it, depth))
}

// ---- read

/// Octets that are read from their front.
#[derive(Clone, Copy)]
pub struct Reader<'a>(pub &'a [u8]);

/// What can't be read: octets that are no table, no value, or too deep.
#[derive(Debug)]
pub struct Malformed;

type Read<T> = Result<T, Malformed>;

impl<'a> Reader<'a> {
    pub fn octets(&mut self, length: usize) -> Read<&'a [u8]> {
        let (found, rest) = self.0.split_at_checked(length).ok_or(Malformed)?;
        self.0 = rest;
        Ok(found)
    }

    fn array<const N: usize>(&mut self) -> Read<[u8; N]> {
        self.octets(N).map(|it| it.try_into().unwrap_or([0; N]))
    }

    pub fn u8(&mut self) -> Read<u8> {
        self.array::<1>().map(|it| it[0])
    }

    pub fn u16(&mut self) -> Read<u16> {
        self.array().map(u16::from_be_bytes)
    }

    pub fn u64(&mut self) -> Read<u64> {
        self.array().map(u64::from_be_bytes)
    }

    pub fn short(&mut self) -> Read<ShortString> {
        let length = self.u8()?;
        self.octets(length.into()).map(ShortString::from)
    }

    fn long(&mut self) -> Read<&'a [u8]> {
        let length = u32::from_be_bytes(self.array()?);
        self.octets(usize::try_from(length).map_err(|_| Malformed)?)
    }

    pub fn table(&mut self) -> Read<FieldTable> {
        Reader(self.long()?).pairs(0)
    }

    /// The pairs of a table, up to the end.
    pub fn pairs(&mut self, depth: usize) -> Read<FieldTable> {
        let mut pairs = BTreeMap::new();
        while !self.0.is_empty() {
            let key = self.short()?;
            pairs.insert(key, self.value(depth)?);
        }
        Ok(pairs.into())
    }

    fn values(&mut self, depth: usize) -> Read<FieldArray> {
        let mut values = FieldArray::default();
        while !self.0.is_empty() {
            values.push(self.value(depth)?);
        }
        Ok(values)
    }

    fn value(&mut self, depth: usize) -> Read<AMQPValue> {
        Ok(match self.u8()? {
            b't' => AMQPValue::Boolean(self.u8()? != 0),
            b'b' => AMQPValue::ShortShortInt(i8::from_be_bytes(self.array()?)),
            b'B' => AMQPValue::ShortShortUInt(self.u8()?),
            b's' | b'U' => AMQPValue::ShortInt(i16::from_be_bytes(self.array()?)),
            b'u' => AMQPValue::ShortUInt(self.u16()?),
            b'I' => AMQPValue::LongInt(i32::from_be_bytes(self.array()?)),
            b'i' => AMQPValue::LongUInt(u32::from_be_bytes(self.array()?)),
            b'l' | b'L' => AMQPValue::LongLongInt(i64::from_be_bytes(self.array()?)),
            b'f' => AMQPValue::Float(f32::from_be_bytes(self.array()?)),
            b'd' => AMQPValue::Double(f64::from_be_bytes(self.array()?)),
            b'D' => AMQPValue::DecimalValue(DecimalValue { scale: self.u8()?, value: u32::from_be_bytes(self.array()?) }),
            b'T' => AMQPValue::Timestamp(self.u64()?),
            b'V' => AMQPValue::Void,
            b'S' => AMQPValue::LongString(LongString::from(self.long()?)),
            b'x' => AMQPValue::ByteArray(ByteArray::from(self.long()?)),
            b'F' if depth < DEEPEST => AMQPValue::FieldTable(Reader(self.long()?).pairs(depth + 1)?),
            b'A' if depth < DEEPEST => AMQPValue::FieldArray(Reader(self.long()?).values(depth + 1)?),
            _ => return Err(Malformed),
        })
    }
}
