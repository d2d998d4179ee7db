//! The octets of calls: a method's class, its number and its arguments, as they stand in a method's frame. What a call does is the session's.

use crate::{
    error::{ErrorKind, Result},
    octets::{put_short, put_table, Unwritable},
    types::{FieldTable, ShortString},
};

/// A method that is written argument by argument. Where one can't be written the whole is an error.
pub struct Method {
    octets: Vec<u8>,
    wrong: Option<Unwritable>,
}

impl Method {
    pub fn new(class: u16, number: u16) -> Method {
        let mut octets = Vec::with_capacity(64);
        octets.extend_from_slice(&class.to_be_bytes());
        octets.extend_from_slice(&number.to_be_bytes());
        Method { octets, wrong: None }
    }

    /// One whose first argument is a ticket, of which brokers know nothing.
    pub fn with_ticket(class: u16, number: u16) -> Method {
        Method::new(class, number).u16(0)
    }

    pub fn u16(mut self, number: u16) -> Method {
        self.octets.extend_from_slice(&number.to_be_bytes());
        self
    }

    pub fn u32(mut self, number: u32) -> Method {
        self.octets.extend_from_slice(&number.to_be_bytes());
        self
    }

    pub fn u64(mut self, number: u64) -> Method {
        self.octets.extend_from_slice(&number.to_be_bytes());
        self
    }

    /// Up to eight marks in an octet, the first one lowest.
    pub fn bits<const N: usize>(mut self, marks: [bool; N]) -> Method {
        self.octets.push(marks.iter().enumerate().fold(0, |octet, (place, mark)| octet | u8::from(*mark) << place));
        self
    }

    pub fn short(mut self, text: &ShortString) -> Method {
        self.wrong = self.wrong.or(put_short(&mut self.octets, text).err());
        self
    }

    pub fn table(mut self, table: &FieldTable) -> Method {
        self.wrong = self.wrong.or(put_table(&mut self.octets, table).err());
        self
    }

    pub fn octets(self) -> Result<Vec<u8>> {
        match self.wrong {
            Some(why) => Err(ErrorKind::SerialisationError(why.into()).into()),
            None => Ok(self.octets),
        }
    }
}

/// Closes a channel (20, 40) or the connection (10, 50), for no method that failed.
pub fn close(class: u16, number: u16, code: u16, text: &ShortString) -> Method {
    Method::new(class, number).u16(code).short(text).u32(0)
}
