//! Values of the protocol: what tables hold, and texts. Texts are what the protocol has, octets; they are shown as UTF-8 where they are that.

use std::{borrow::Borrow, cmp::Ordering, collections::BTreeMap, fmt, hash};

macro_rules! names {
    ($($(#[$of:meta])* $name:ident = $kind:ty;)*) => {$(
        $(#[$of])*
        pub type $name = $kind;
    )*};
}

names! {
    /// An octet with a sign.
    ShortShortInt = i8;
    /// An octet.
    ShortShortUInt = u8;
    /// Two octets with a sign.
    ShortInt = i16;
    /// Two octets.
    ShortUInt = u16;
    /// Four octets with a sign.
    LongInt = i32;
    /// Four octets.
    LongUInt = u32;
    /// Eight octets with a sign.
    LongLongInt = i64;
    /// Eight octets.
    LongLongUInt = u64;
    /// A float of four octets.
    Float = f32;
    /// A float of eight octets.
    Double = f64;
    /// A mark.
    Boolean = bool;
    /// Seconds since 1970.
    Timestamp = u64;
    /// The number of a channel.
    ChannelId = u16;
    /// The number of a delivery on its channel.
    DeliveryTag = u64;
    /// How many messages.
    MessageCount = u32;
    /// How many consumers.
    ConsumerCount = u32;
    /// How many octets a body has.
    PayloadSize = u64;
    /// A code of the standard's.
    ReplyCode = u16;
    /// How many octets a frame may have.
    FrameSize = u32;
    /// Seconds between heartbeats.
    Heartbeat = u16;
    /// The number of a class or a method.
    Identifier = u16;
}

/// A text of at most 255 octets; of one that is longer the call that is given it fails. A broker's may be no UTF-8: `as_str` shows it as far as it is,
/// `as_bytes` has its octets, and it goes out as it came.
///
/// ```
/// use lapin::types::ShortString;
/// let latin = ShortString::from(&b"caf\xe9"[..]);
/// assert_eq!((latin.as_str(), latin.as_bytes()), ("caf\u{fffd}", &b"caf\xe9"[..]));
/// assert_eq!(ShortString::from("hello").as_str(), "hello");
/// ```
#[derive(Clone, Default)]
pub struct ShortString {
    text: String,
    // Where the octets are no UTF-8.
    octets: Option<Box<[u8]>>,
}

impl ShortString {
    /// The text, with U+FFFD in the place of what is no UTF-8.
    pub fn as_str(&self) -> &str {
        &self.text
    }

    /// Its octets.
    pub fn as_bytes(&self) -> &[u8] {
        self.octets.as_deref().unwrap_or(self.text.as_bytes())
    }
}

impl PartialEq for ShortString {
    fn eq(&self, other: &Self) -> bool {
        self.as_bytes() == other.as_bytes()
    }
}

impl Eq for ShortString {}

impl PartialOrd for ShortString {
    fn partial_cmp(&self, other: &Self) -> Option<Ordering> {
        Some(self.cmp(other))
    }
}

// By the text, as a map that is asked by `str` orders its keys; texts that are shown alike by their octets.
impl Ord for ShortString {
    fn cmp(&self, other: &Self) -> Ordering {
        self.text.cmp(&other.text).then_with(|| self.octets.cmp(&other.octets))
    }
}

impl hash::Hash for ShortString {
    fn hash<H: hash::Hasher>(&self, state: &mut H) {
        self.text.hash(state)
    }
}

impl fmt::Debug for ShortString {
    fn fmt(&self, f: &mut fmt::Formatter<'_>) -> fmt::Result {
        self.text.fmt(f)
    }
}

impl fmt::Display for ShortString {
    fn fmt(&self, f: &mut fmt::Formatter<'_>) -> fmt::Result {
        f.write_str(&self.text)
    }
}

impl From<&str> for ShortString {
    fn from(text: &str) -> Self {
        text.to_owned().into()
    }
}

impl From<String> for ShortString {
    fn from(text: String) -> Self {
        ShortString { text, octets: None }
    }
}

impl From<&[u8]> for ShortString {
    fn from(octets: &[u8]) -> Self {
        match std::str::from_utf8(octets) {
            Ok(text) => text.into(),
            Err(_) => ShortString { text: String::from_utf8_lossy(octets).into_owned(), octets: Some(octets.into()) },
        }
    }
}

impl From<ShortString> for String {
    fn from(text: ShortString) -> Self {
        text.text
    }
}

impl Borrow<str> for ShortString {
    fn borrow(&self) -> &str {
        &self.text
    }
}

impl AsRef<str> for ShortString {
    fn as_ref(&self) -> &str {
        &self.text
    }
}

/// Octets that a peer may take for a text.
#[derive(Clone, Default, PartialEq, Eq, Hash, PartialOrd, Ord)]
pub struct LongString(Vec<u8>);

impl LongString {
    /// Its octets.
    pub fn as_bytes(&self) -> &[u8] {
        &self.0
    }
}

impl fmt::Debug for LongString {
    fn fmt(&self, f: &mut fmt::Formatter<'_>) -> fmt::Result {
        String::from_utf8_lossy(&self.0).fmt(f)
    }
}

impl fmt::Display for LongString {
    fn fmt(&self, f: &mut fmt::Formatter<'_>) -> fmt::Result {
        f.write_str(&String::from_utf8_lossy(&self.0))
    }
}

/// Octets.
#[derive(Clone, Debug, Default, PartialEq, Eq)]
pub struct ByteArray(Vec<u8>);

impl ByteArray {
    /// The octets.
    pub fn as_slice(&self) -> &[u8] {
        &self.0
    }
}

macro_rules! of_octets {
    ($($kind:ident from $($of:ty)*;)*) => {$($(
        impl From<$of> for $kind {
            fn from(octets: $of) -> Self {
                $kind(octets.into())
            }
        }
    )*)*};
}

of_octets! {
    LongString from &str String &[u8] Vec<u8>;
    ByteArray from &[u8] Vec<u8>;
}

/// A decimal: digits, of which so many stand behind the point.
#[derive(Clone, Copy, Debug, PartialEq, Eq)]
pub struct DecimalValue {
    /// How many digits stand behind the point.
    pub scale: ShortShortUInt,
    /// The digits; brokers read them with a sign.
    pub value: LongUInt,
}

macro_rules! values {
    ($($(#[$doc:meta])* $kind:ident($of:ident $(by $get:ident)?),)*) => {
        /// A value of a table. A float that is no number, or without an end, can't be sent; a `ShortString` goes out as a `LongString`.
        #[derive(Clone, Debug, PartialEq)]
        pub enum AMQPValue {
            $($(#[$doc])* $kind($of),)*
            /// Nothing.
            Void,
        }

        impl AMQPValue {
            $($(
                #[doc = concat!("The `", stringify!($of), "`, where it is one.")]
                pub fn $get(&self) -> Option<&$of> {
                    match self {
                        AMQPValue::$kind(value) => Some(value),
                        _ => None,
                    }
                }
            )?)*
        }
    };
}

values! {
    /// `t`
    Boolean(Boolean),
    /// `b`
    ShortShortInt(ShortShortInt),
    /// `B`
    ShortShortUInt(ShortShortUInt),
    /// `s`, and `U` as it is read
    ShortInt(ShortInt),
    /// `u`
    ShortUInt(ShortUInt),
    /// `I`
    LongInt(LongInt),
    /// `i`
    LongUInt(LongUInt),
    /// `l`, and `L` as it is read
    LongLongInt(LongLongInt),
    /// `f`
    Float(Float),
    /// `d`
    Double(Double),
    /// `D`
    DecimalValue(DecimalValue),
    /// sent as `S`
    ShortString(ShortString),
    /// `S`
    LongString(LongString by as_long_string),
    /// `A`
    FieldArray(FieldArray by as_array),
    /// `T`
    Timestamp(Timestamp),
    /// `F`
    FieldTable(FieldTable by as_field_table),
    /// `x`
    ByteArray(ByteArray by as_byte_array),
}

macro_rules! from {
    ($($of:ident: $kind:ident),*) => {$(
        impl From<$of> for AMQPValue {
            fn from(value: $of) -> Self {
                AMQPValue::$kind(value)
            }
        }
    )*};
}

from!(bool: Boolean, i8: ShortShortInt, u8: ShortShortUInt, i16: ShortInt, u16: ShortUInt, i32: LongInt, u32: LongUInt, i64: LongLongInt, f32: Float,
    f64: Double, DecimalValue: DecimalValue, ShortString: ShortString, LongString: LongString, FieldArray: FieldArray, FieldTable: FieldTable,
    ByteArray: ByteArray);

/// Values in their order.
#[derive(Clone, Debug, Default, PartialEq)]
pub struct FieldArray(Vec<AMQPValue>);

impl FieldArray {
    /// The values.
    pub fn as_slice(&self) -> &[AMQPValue] {
        &self.0
    }

    /// Adds a value.
    pub fn push(&mut self, value: AMQPValue) {
        self.0.push(value);
    }
}

impl From<Vec<AMQPValue>> for FieldArray {
    fn from(values: Vec<AMQPValue>) -> Self {
        FieldArray(values)
    }
}

/// Values by their keys. Of a key that comes twice the last value stays.
///
/// ```
/// use lapin::types::{AMQPValue, FieldTable};
/// let mut headers = FieldTable::default();
/// headers.insert("price".into(), AMQPValue::Double(1.5));
/// assert!(headers.contains_key("price"));
/// ```
#[derive(Clone, Debug, Default, PartialEq)]
pub struct FieldTable(BTreeMap<ShortString, AMQPValue>);

impl FieldTable {
    /// Adds a value, or puts it in the place of its key's.
    pub fn insert(&mut self, key: ShortString, value: AMQPValue) {
        self.0.insert(key, value);
    }

    /// All of them.
    pub fn inner(&self) -> &BTreeMap<ShortString, AMQPValue> {
        &self.0
    }

    /// Whether there is a value of this key.
    pub fn contains_key(&self, key: &str) -> bool {
        self.0.contains_key(key)
    }
}

impl From<BTreeMap<ShortString, AMQPValue>> for FieldTable {
    fn from(pairs: BTreeMap<ShortString, AMQPValue>) -> Self {
        FieldTable(pairs)
    }
}

impl<'a> IntoIterator for &'a FieldTable {
    type Item = (&'a ShortString, &'a AMQPValue);
    type IntoIter = std::collections::btree_map::Iter<'a, ShortString, AMQPValue>;

    fn into_iter(self) -> Self::IntoIter {
        self.0.iter()
    }
}
