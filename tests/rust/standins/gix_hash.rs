//! Stands in for gix-hash: ids of 20 bytes. An object of the scope is a number of 64 bits; its id is twelve zeros and the number's eight
//! bytes, big-endian, as docs/PACKED-TEXT.md has it.

use std::fmt;

#[derive(PartialEq, Eq, Hash, Ord, PartialOrd, Clone, Copy)]
pub struct ObjectId([u8; 20]);

/// A borrowed id. In gix-hash it is a type of its own, without a size; nothing here depends on that.
#[allow(non_camel_case_types)]
pub type oid = ObjectId;

#[derive(PartialEq, Eq, Debug, Clone, Copy)]
pub enum Kind {
    Sha1,
}

impl Kind {
    pub fn null(self) -> ObjectId {
        ObjectId::null(self)
    }
}

impl ObjectId {
    pub fn null(_: Kind) -> Self {
        ObjectId([0; 20])
    }

    pub fn kind(&self) -> Kind {
        Kind::Sha1
    }

    pub fn is_null(&self) -> bool {
        self.0 == [0; 20]
    }

    pub fn from_number(number: u64) -> Self {
        let mut bytes = [0; 20];
        bytes[12..].copy_from_slice(&number.to_be_bytes());
        ObjectId(bytes)
    }

    pub fn number(&self) -> u64 {
        let mut last = [0; 8];
        last.copy_from_slice(&self.0[12..]);
        u64::from_be_bytes(last)
    }

    /// Reads 40 hexadecimal digits.
    pub fn from_hex(text: &str) -> Option<Self> {
        let mut bytes = [0; 20];
        if text.len() != 40 || !text.is_ascii() {
            return None;
        }
        for (at, byte) in bytes.iter_mut().enumerate() {
            *byte = u8::from_str_radix(&text[2 * at..2 * at + 2], 16).ok()?;
        }
        Some(ObjectId(bytes))
    }
}

impl PartialEq<&ObjectId> for ObjectId {
    fn eq(&self, other: &&ObjectId) -> bool {
        self == *other
    }
}

impl fmt::Display for ObjectId {
    fn fmt(&self, f: &mut fmt::Formatter<'_>) -> fmt::Result {
        let mut text = [0; 40];
        for (at, byte) in self.0.iter().enumerate() {
            text[2 * at] = b"0123456789abcdef"[usize::from(byte >> 4)];
            text[2 * at + 1] = b"0123456789abcdef"[usize::from(byte & 15)];
        }
        f.write_str(&String::from_utf8_lossy(&text))
    }
}

impl fmt::Debug for ObjectId {
    fn fmt(&self, f: &mut fmt::Formatter<'_>) -> fmt::Result {
        fmt::Display::fmt(self, f)
    }
}
