//! The values that channels carry.

use crate::sys;
use std::error::Error;
use std::fmt;

/// A value that a channel carries.
#[derive(Clone, Copy, Debug, PartialEq, Eq)]
pub enum Value {
    /// A number.
    Number(u64),
    /// A byte string. It requires a hub of another edition than [`Edition::One`](crate::Edition::One).
    Bytes(Bytes),
}

/// A byte string of 0 to 32 bytes.
///
/// To send a byte slice, convert it with `Value::try_from`.
#[derive(Clone, Copy, PartialEq, Eq)]
pub struct Bytes {
    length: u8,
    places: [u8; 32],
}

/// The error for a byte slice that does not fit into a [`Value`], since it has more than 32 bytes.
#[derive(Clone, Copy, Debug, PartialEq, Eq)]
pub struct TooLong;

impl fmt::Display for TooLong {
    fn fmt(&self, f: &mut fmt::Formatter<'_>) -> fmt::Result {
        f.write_str("a value has at most 32 bytes")
    }
}

impl Error for TooLong {}

impl Bytes {
    /// Returns the bytes as a slice.
    pub fn as_slice(&self) -> &[u8] {
        &self.places[..usize::from(self.length)]
    }
}

impl fmt::Debug for Bytes {
    fn fmt(&self, f: &mut fmt::Formatter<'_>) -> fmt::Result {
        self.as_slice().fmt(f)
    }
}

impl Value {
    /// Returns the number, or `None` if the value is bytes.
    #[inline]
    pub fn number(self) -> Option<u64> {
        match self {
            Value::Number(number) => Some(number),
            Value::Bytes(_) => None,
        }
    }

    #[inline]
    pub(crate) fn raw(self) -> sys::Value {
        match self {
            Value::Number(number) => sys::Value {
                number,
                ..sys::Value::default()
            },
            Value::Bytes(Bytes { length, places }) => sys::Value {
                number: 0,
                is_bytes: true,
                length,
                bytes: places,
            },
        }
    }

    #[inline]
    pub(crate) fn of(raw: sys::Value) -> Value {
        if raw.is_bytes {
            Value::Bytes(Bytes {
                length: raw.length,
                places: raw.bytes,
            })
        } else {
            Value::Number(raw.number)
        }
    }
}

impl From<u64> for Value {
    #[inline]
    fn from(number: u64) -> Value {
        Value::Number(number)
    }
}

impl TryFrom<&[u8]> for Value {
    type Error = TooLong;

    fn try_from(bytes: &[u8]) -> Result<Value, TooLong> {
        let mut places = [0; 32];
        places
            .get_mut(..bytes.len())
            .ok_or(TooLong)?
            .copy_from_slice(bytes);
        Ok(Value::Bytes(Bytes {
            length: bytes.len() as u8,
            places,
        }))
    }
}
