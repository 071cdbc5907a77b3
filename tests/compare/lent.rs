//! A slice as it is lent to a call: within a larger buffer, or in memory of its own.

use crate::random::Random;
use std::ops::Range;

/// What a slice holds; nothing where it is NULL.
pub type Slice = Option<Vec<u8>>;

/// How slices are lent.
#[derive(Clone, Copy, PartialEq, Eq)]
pub enum Lending {
    /// Within larger buffers, all bytes of which are compared.
    Within,
    /// In memory of their own, where valgrind sees what is read or written outside.
    Alone,
}

impl Lending {
    pub fn lend(self, slice: &Slice, random: &mut Random) -> LentSlice {
        match self {
            Lending::Within => LentSlice::within(slice, random),
            Lending::Alone => LentSlice::of(slice, &[], &[]),
        }
    }
}

pub struct LentSlice {
    buffer: Vec<u8>,
    /// What the buffer held before the call.
    before: Vec<u8>,
    place: Range<usize>,
    is_null: bool,
}

impl LentSlice {
    /// Within a buffer, with so many other bytes before it and behind it that odd and
    /// even addresses come alike.
    fn within(slice: &Slice, random: &mut Random) -> LentSlice {
        let mut other = || {
            let length = random.between(8, 23);
            random.bytes(length)
        };
        LentSlice::of(slice, &other(), &other())
    }

    fn of(slice: &Slice, before: &[u8], behind: &[u8]) -> LentSlice {
        let bytes = slice.as_deref().unwrap_or_default();
        let buffer = [before, bytes, behind].concat();
        let place = before.len()..before.len() + bytes.len();
        LentSlice { before: buffer.clone(), buffer, place, is_null: slice.is_none() }
    }

    pub fn read(&self) -> Option<&[u8]> {
        (!self.is_null).then(|| &self.buffer[self.place.clone()])
    }

    pub fn write(&mut self) -> Option<&mut [u8]> {
        (!self.is_null).then(|| &mut self.buffer[self.place.clone()])
    }

    pub fn has_odd_address(&self) -> bool {
        self.read().is_some_and(|slice| slice.as_ptr() as usize % 2 == 1)
    }

    /// Holds all bytes to what is due: those of the slice, and those around it, which
    /// are to be as they were.
    pub fn hold(&self, due: &Slice) -> Result<(), String> {
        let mut expected = self.before.clone();
        expected[self.place.clone()].copy_from_slice(due.as_deref().unwrap_or_default());
        let mut all = expected.iter().zip(&self.buffer);
        let Some(at) = all.position(|(due, came)| due != came) else {
            return Ok(());
        };
        let place = match at {
            at if at < self.place.start => format!("{} before the first", self.place.start - at),
            at if at < self.place.end => format!("{}", at - self.place.start),
            at => format!("{} behind the last", at + 1 - self.place.end),
        };
        let length = self.place.len();
        let (due, came) = (expected[at], self.buffer[at]);
        Err(format!("byte {place} of {length}: due {due}, came {came}"))
    }
}
