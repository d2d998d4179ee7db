//! What a message carries beside its body, and the errors that the standard numbers.

use crate::{
    octets::{put_short, put_table, Malformed, Reader, Unwritable},
    types::{FieldTable, ShortString},
};
use std::{error, fmt};

macro_rules! properties {
    ($($place:literal $name:ident $with:ident $without:ident: $kind:ty, $write:ident, $read:ident;)*) => {
        /// The properties of a message.
        ///
        /// ```
        /// use lapin::BasicProperties;
        /// let properties = BasicProperties::default().with_delivery_mode(2).with_message_id("17".into());
        /// assert_eq!(properties.message_id().as_ref().map(|it| it.as_str()), Some("17"));
        /// ```
        #[derive(Clone, Default)]
        pub struct BasicProperties(Option<Box<Fields>>);

        // Most messages have none, and are moved all the same: the fields stand in a place of their own.
        #[derive(Clone, Debug, Default, PartialEq)]
        struct Fields {
            $($name: Option<$kind>,)*
            malformed: Option<Box<[u8]>>,
        }

        static EMPTY: Fields = Fields { $($name: None,)* malformed: None };

        impl BasicProperties {
            $(
                #[doc = concat!("With this `", stringify!($name), "`.")]
                pub fn $with(mut self, value: $kind) -> Self {
                    self.0.get_or_insert_default().$name = Some(value);
                    self
                }

                #[doc = concat!("Without a `", stringify!($name), "`.")]
                pub fn $without(mut self) -> Self {
                    self.0.iter_mut().for_each(|it| it.$name = None);
                    self
                }

                #[doc = concat!("Its `", stringify!($name), "`, where it has one.")]
                pub fn $name(&self) -> &Option<$kind> {
                    &self.fields().$name
                }
            )*

            fn fields(&self) -> &Fields {
                self.0.as_deref().unwrap_or(&EMPTY)
            }

            /// The octets of a list that came and is none: the properties that stood in front of the fault are there.
            pub fn malformed(&self) -> Option<&[u8]> {
                self.fields().malformed.as_deref()
            }

            /// Their list, as a content header has it, in the place of what stood there.
            pub(crate) fn write(&self, out: &mut Vec<u8>) -> Result<(), Unwritable> {
                out.clear();
                let Some(fields) = &self.0 else {
                    out.extend_from_slice(&[0, 0]);
                    return Ok(());
                };
                let flags = 0u16 $(| if fields.$name.is_some() { 0x8000 >> $place } else { 0 })*;
                out.extend_from_slice(&flags.to_be_bytes());
                $(if let Some(value) = &fields.$name {
                    $write(out, value)?;
                })*
                Ok(())
            }

            pub(crate) fn read(list: &[u8]) -> BasicProperties {
                if list == [0, 0] {
                    return BasicProperties::default();
                }
                let mut fields = Box::<Fields>::default();
                if fields.fill(Reader(list)).is_err() {
                    fields.malformed = Some(list.into());
                }
                BasicProperties(Some(fields))
            }
        }

        impl Fields {
            fn fill(&mut self, mut reader: Reader<'_>) -> Result<(), Malformed> {
                let flags = reader.u16()?;
                $(if flags & 0x8000 >> $place != 0 {
                    self.$name = Some(reader.$read()?);
                })*
                if flags & 3 == 0 && reader.0.is_empty() { Ok(()) } else { Err(Malformed) }
            }
        }

        impl PartialEq for BasicProperties {
            fn eq(&self, other: &Self) -> bool {
                self.fields() == other.fields()
            }
        }

        impl fmt::Debug for BasicProperties {
            fn fmt(&self, f: &mut fmt::Formatter<'_>) -> fmt::Result {
                f.debug_tuple("BasicProperties").field(self.fields()).finish()
            }
        }
    };
}

properties! {
    0 content_type with_content_type without_content_type: ShortString, put_short, short;
    1 content_encoding with_content_encoding without_content_encoding: ShortString, put_short, short;
    2 headers with_headers without_headers: FieldTable, put_table, table;
    3 delivery_mode with_delivery_mode without_delivery_mode: u8, put_octet, u8;
    4 priority with_priority without_priority: u8, put_octet, u8;
    5 correlation_id with_correlation_id without_correlation_id: ShortString, put_short, short;
    6 reply_to with_reply_to without_reply_to: ShortString, put_short, short;
    7 expiration with_expiration without_expiration: ShortString, put_short, short;
    8 message_id with_message_id without_message_id: ShortString, put_short, short;
    9 timestamp with_timestamp without_timestamp: u64, put_time, u64;
    10 kind with_type without_type: ShortString, put_short, short;
    11 user_id with_user_id without_user_id: ShortString, put_short, short;
    12 app_id with_app_id without_app_id: ShortString, put_short, short;
    13 cluster_id with_cluster_id without_cluster_id: ShortString, put_short, short;
}

fn put_octet(out: &mut Vec<u8>, number: &u8) -> Result<(), Unwritable> {
    out.push(*number);
    Ok(())
}

fn put_time(out: &mut Vec<u8>, number: &u64) -> Result<(), Unwritable> {
    out.extend_from_slice(&number.to_be_bytes());
    Ok(())
}

macro_rules! codes {
    ($(#[$doc:meta])* $name:ident { $($kind:ident = $code:literal),* }) => {
        $(#[$doc])*
        #[derive(Clone, Debug, PartialEq, Eq)]
        pub enum $name {
            $(#[doc = concat!("The code ", stringify!($code), ".")] $kind),*
        }

        impl $name {
            /// Its code.
            pub fn get_id(&self) -> u16 {
                match self {
                    $($name::$kind => $code),*
                }
            }

            /// That of a code.
            pub fn from_id(code: u16) -> Option<$name> {
                match code {
                    $($code => Some($name::$kind),)*
                    _ => None,
                }
            }
        }
    };
}

codes!(
    /// An error that ends a channel.
    AMQPSoftError {
    CONTENTTOOLARGE = 311, NOROUTE = 312, NOCONSUMERS = 313, ACCESSREFUSED = 403, NOTFOUND = 404, RESOURCELOCKED = 405, PRECONDITIONFAILED = 406
});
codes!(
    /// An error that ends the connection.
    AMQPHardError {
    CONNECTIONFORCED = 320, INVALIDPATH = 402, FRAMEERROR = 501, SYNTAXERROR = 502, COMMANDINVALID = 503, CHANNELERROR = 504,
    UNEXPECTEDFRAME = 505, RESOURCEERROR = 506, NOTALLOWED = 530, NOTIMPLEMENTED = 540, INTERNALERROR = 541
});

/// What an error ends.
#[derive(Clone, Debug, PartialEq, Eq)]
pub enum AMQPErrorKind {
    /// A channel.
    Soft(AMQPSoftError),
    /// The connection.
    Hard(AMQPHardError),
}

/// An error of the broker, with its words.
#[derive(Clone, Debug, PartialEq, Eq)]
pub struct AMQPError {
    kind: AMQPErrorKind,
    message: ShortString,
}

impl AMQPError {
    /// An error with these words.
    pub fn new(kind: AMQPErrorKind, message: ShortString) -> Self {
        AMQPError { kind, message }
    }

    /// That of a code; none where the standard has no such code.
    pub fn from_id(code: u16, message: ShortString) -> Option<AMQPError> {
        let kind = AMQPSoftError::from_id(code).map(AMQPErrorKind::Soft).or_else(|| AMQPHardError::from_id(code).map(AMQPErrorKind::Hard))?;
        Some(AMQPError { kind, message })
    }

    /// Which it is.
    pub fn kind(&self) -> &AMQPErrorKind {
        &self.kind
    }

    /// Its code.
    pub fn get_id(&self) -> u16 {
        match &self.kind {
            AMQPErrorKind::Soft(it) => it.get_id(),
            AMQPErrorKind::Hard(it) => it.get_id(),
        }
    }

    /// The broker's words.
    pub fn get_message(&self) -> &ShortString {
        &self.message
    }
}

impl fmt::Display for AMQPError {
    fn fmt(&self, f: &mut fmt::Formatter<'_>) -> fmt::Result {
        // (a broker's text moves no terminal)
        let words: String = self.message.as_str().chars().map(|it| if it.is_control() { ' ' } else { it }).collect();
        write!(f, "{:?} ({}) {words}", self.kind, self.get_id())
    }
}

impl error::Error for AMQPError {}
