//! What a channel carries: a number; with the feature `bytes` it has room for 32 bytes too, as a value of the proved hub has.

use std::fmt::{self, Display, Formatter};

#[cfg(not(feature = "bytes"))]
#[derive(Clone, Copy, Debug, PartialEq)]
pub struct Value(u64);

/// Without alignment, as a value of the proved hub is, so that the cases of an entry take no more bytes than they need.
#[cfg(feature = "bytes")]
#[derive(Clone, Copy, Debug, PartialEq)]
pub struct Value {
    /// 0 for a number, and else one more than there are bytes.
    form: u8,
    /// The number, its lowest byte first, or the bytes.
    bytes: [u8; 32],
}

#[cfg(not(feature = "bytes"))]
impl Value {
    pub const fn number(number: u64) -> Value {
        Value(number)
    }

    pub fn as_number(self) -> Option<u64> {
        Some(self.0)
    }
}

#[cfg(feature = "bytes")]
impl Value {
    pub const fn number(number: u64) -> Value {
        let mut bytes = [0; 32];
        let [a, b, c, d, e, f, g, h] = number.to_le_bytes();
        (bytes[0], bytes[1], bytes[2], bytes[3]) = (a, b, c, d);
        (bytes[4], bytes[5], bytes[6], bytes[7]) = (e, f, g, h);
        Value { form: 0, bytes }
    }

    pub fn as_number(self) -> Option<u64> {
        match (self.form, self.bytes.first_chunk()) {
            (0, Some(number)) => Some(u64::from_le_bytes(*number)),
            _ => None,
        }
    }
}

impl Display for Value {
    fn fmt(&self, f: &mut Formatter<'_>) -> fmt::Result {
        match self.as_number() {
            Some(number) => write!(f, "{number}"),
            None => write!(f, "bytes"),
        }
    }
}
