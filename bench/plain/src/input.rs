//! The bytes of a piece from the next record on, and why reading them stops.

use crate::answer::FormatFault;

/// Why no further record is read from a piece.
#[derive(Clone, Copy, PartialEq, Eq, Debug)]
pub enum Stop {
    /// The record goes on in the next piece.
    More,
    /// The end record has been read.
    End,
    Fault(FormatFault),
}

impl From<FormatFault> for Stop {
    fn from(fault: FormatFault) -> Stop {
        Stop::Fault(fault)
    }
}

/// The bytes that were not read yet. Numbers are little-endian.
#[derive(Clone, Copy)]
pub struct Input<'piece> {
    rest: &'piece [u8],
}

impl<'piece> Input<'piece> {
    /// All bytes of a piece.
    pub fn new(rest: &'piece [u8]) -> Input<'piece> {
        Input { rest }
    }

    /// How many bytes are left.
    #[inline(always)]
    pub fn left(&self) -> usize {
        self.rest.len()
    }

    /// The bytes from here to a later place of the same piece.
    #[inline(always)]
    pub fn until(&self, later: &Input<'piece>) -> &'piece [u8] {
        &self.rest[..self.left() - later.left()]
    }

    /// The next N bytes.
    #[inline(always)]
    pub fn array<const N: usize>(&mut self) -> Result<[u8; N], Stop> {
        let (array, rest) = self.rest.split_first_chunk().ok_or(Stop::More)?;
        self.rest = rest;
        Ok(*array)
    }

    /// The next 2 bytes as a number.
    #[inline(always)]
    pub fn u16(&mut self) -> Result<u16, Stop> {
        self.array().map(u16::from_le_bytes)
    }

    /// The next 4 bytes as a number.
    #[inline(always)]
    pub fn u32(&mut self) -> Result<u32, Stop> {
        self.array().map(u32::from_le_bytes)
    }

    /// The next 8 bytes as a number.
    #[inline(always)]
    pub fn u64(&mut self) -> Result<u64, Stop> {
        self.array().map(u64::from_le_bytes)
    }

    /// The next bytes, where they stand.
    #[inline(always)]
    pub fn slice(&mut self, length: usize) -> Result<&'piece [u8], Stop> {
        let (slice, rest) = self.rest.split_at_checked(length).ok_or(Stop::More)?;
        self.rest = rest;
        Ok(slice)
    }

    /// The number that the next 0, 1, 2, 4 or 8 bytes are, lowest byte first.
    #[inline(always)]
    pub fn value(&mut self, size: u8) -> Result<u64, Stop> {
        self.slice(usize::from(size)).map(value)
    }
}

/// The number that at most 8 bytes are, lowest byte first.
#[inline(always)]
pub fn value(bytes: &[u8]) -> u64 {
    match bytes.len() {
        1 => u64::from(bytes[0]),
        2 => u64::from(u16::from_le_bytes(first(bytes))),
        4 => u64::from(u32::from_le_bytes(first(bytes))),
        8 => u64::from_le_bytes(first(bytes)),
        _ => bytes
            .iter()
            .rev()
            .fold(0, |number, &byte| number << 8 | u64::from(byte)),
    }
}

#[inline(always)]
fn first<const N: usize>(bytes: &[u8]) -> [u8; N] {
    let mut array = [0; N];
    array.copy_from_slice(&bytes[..N]);
    array
}
