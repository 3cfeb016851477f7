//! Reading fields from the front of a byte string.

use crate::member::MemberNumber;
use crate::public_half::{PublicHalf, SealedBox};

/// The bytes that are not yet read. Every read gives `None` where too few are left.
pub struct Reader<'a> {
    rest: &'a [u8],
}

impl<'a> Reader<'a> {
    pub fn new(bytes: &'a [u8]) -> Self {
        Reader { rest: bytes }
    }

    pub fn is_at_end(&self) -> bool {
        self.rest.is_empty()
    }

    fn array<const N: usize>(&mut self) -> Option<[u8; N]> {
        let (front, rest) = self.rest.split_first_chunk::<N>()?;
        self.rest = rest;
        Some(*front)
    }

    pub fn byte(&mut self) -> Option<u8> {
        self.array::<1>().map(|[byte]| byte)
    }

    pub fn u16(&mut self) -> Option<u16> {
        self.array().map(u16::from_be_bytes)
    }

    pub fn u32(&mut self) -> Option<u32> {
        self.array().map(u32::from_be_bytes)
    }

    pub fn member(&mut self) -> Option<MemberNumber> {
        self.u16().map(MemberNumber)
    }

    pub fn public_half(&mut self) -> Option<PublicHalf> {
        self.array().map(PublicHalf)
    }

    pub fn sealed_box(&mut self) -> Option<SealedBox> {
        self.array().map(SealedBox)
    }

    /// The same read, `count` times.
    pub fn list<T>(
        &mut self,
        count: usize,
        read: impl Fn(&mut Self) -> Option<T>,
    ) -> Option<Vec<T>> {
        (0..count).map(|_| read(self)).collect()
    }
}
