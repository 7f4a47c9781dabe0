//! Records that are read before their turn. They are kept as their own bytes until the records before them
//! in their bank were read.

use std::collections::BTreeMap;
use std::num::NonZeroU32;

/// The bytes of a chunk.
const CHUNK: usize = 1 << 16;

/// Records begin at multiples of so many bytes in their chunk.
const STEP: usize = 4;

/// Where a record is: the steps before it in all chunks, and one more, so that no place is 0. There are
/// enough places, since all records of a bank have less than 2^34 bytes: those of its own log have at most
/// 300 each, those of 16 ports at most 28 each, and a log has at most 2^24.
#[derive(Clone, Copy)]
struct Place(NonZeroU32);

impl Place {
    fn new(chunk: usize, start: usize) -> Place {
        let steps = (chunk * CHUNK + start) / STEP + 1;
        let place = u32::try_from(steps).ok().and_then(NonZeroU32::new);
        Place(place.expect("the records of a bank have less than 2^34 bytes"))
    }

    #[inline(always)]
    fn steps(self) -> usize {
        self.0.get() as usize - 1
    }

    /// The chunk that the record is in.
    #[inline(always)]
    fn chunk(self) -> usize {
        self.steps() / (CHUNK / STEP)
    }

    /// Where the record begins in its chunk.
    #[inline(always)]
    fn start(self) -> usize {
        self.steps() % (CHUNK / STEP) * STEP
    }
}

/// The bytes of records one behind the other, in the order in which they were read. A chunk whose records
/// have all gone is used again.
#[derive(Default)]
struct Chunks {
    chunks: Vec<Chunk>,
    /// The chunks without records, but for the last one that records were put into.
    free: Vec<usize>,
    /// The chunk that records are put into, and how much of it is used.
    current: usize,
    used: usize,
}

struct Chunk {
    bytes: Box<[u8]>,
    /// How many of its records wait.
    records: u32,
}

impl Chunks {
    /// Keeps the bytes of a record.
    fn put(&mut self, bytes: &[u8]) -> Place {
        if self.chunks.is_empty() || self.used + bytes.len() > CHUNK {
            self.open_chunk();
        }
        let start = self.used;
        let chunk = &mut self.chunks[self.current];
        chunk.bytes[start..][..bytes.len()].copy_from_slice(bytes);
        chunk.records += 1;
        self.used = (start + bytes.len()).next_multiple_of(STEP);
        Place::new(self.current, start)
    }

    /// Goes on in a chunk without records, or in a new one.
    fn open_chunk(&mut self) {
        if self.chunks.get(self.current).is_some_and(|chunk| chunk.records == 0) {
            self.free.push(self.current);
        }
        self.current = self.free.pop().unwrap_or(self.chunks.len());
        if self.current == self.chunks.len() {
            self.chunks.push(Chunk {
                bytes: vec![0; CHUNK].into_boxed_slice(),
                records: 0,
            });
        }
        self.used = 0;
    }

    /// Gives the room of a record back. The bytes from its first on stay until the next record is put.
    #[inline(always)]
    fn take(&mut self, place: Place) -> &[u8] {
        let number = place.chunk();
        let chunk = &mut self.chunks[number];
        chunk.records -= 1;
        if chunk.records == 0 && number != self.current {
            self.free.push(number);
        }
        &chunk.bytes[place.start()..]
    }
}

/// A slot of the table of early records: the record with a number, if there is one.
#[derive(Clone, Copy, Default)]
struct Slot {
    number: u32,
    place: Option<Place>,
}

/// The early records of a bank. Each number has one slot, which is enough if the numbers that wait are not
/// far apart. A number whose slot is taken in a large table is kept aside.
#[derive(Default)]
pub struct Early {
    chunks: Chunks,
    /// As many as a power of two, or none.
    slots: Vec<Slot>,
    /// How many slots are taken.
    taken: usize,
    aside: BTreeMap<u32, Place>,
}

impl Early {
    /// Whether no record waits.
    pub fn is_empty(&self) -> bool {
        self.taken == 0 && self.aside.is_empty()
    }

    /// False only if no record with this number waits. It is faster than to find the record.
    #[inline(always)]
    pub fn may_hold(&self, number: u32) -> bool {
        self.is_taken(number) || !self.aside.is_empty()
    }

    #[inline(always)]
    fn index(&self, number: u32) -> usize {
        number as usize & self.slots.len().wrapping_sub(1)
    }

    /// Whether some record is in the slot of this number.
    #[inline(always)]
    fn is_taken(&self, number: u32) -> bool {
        let slot = self.slots.get(self.index(number));
        slot.is_some_and(|slot| slot.place.is_some())
    }

    fn holds(&self, number: u32) -> bool {
        let in_slot = self.is_taken(number) && self.slots[self.index(number)].number == number;
        in_slot || self.aside.contains_key(&number)
    }

    /// Keeps the bytes of a record. False if a record with this number waits.
    pub fn keep(&mut self, number: u32, bytes: &[u8]) -> bool {
        if self.holds(number) {
            return false;
        }
        let place = self.chunks.put(bytes);
        if self.make_slot(number) {
            let index = self.index(number);
            self.slots[index] = Slot {
                number,
                place: Some(place),
            };
            self.taken += 1;
        } else {
            self.aside.insert(number, place);
        }
        true
    }

    /// Grows the table until the slot of a number is free. False if it would become too large for what it
    /// holds.
    fn make_slot(&mut self, number: u32) -> bool {
        while self.slots.is_empty() || self.is_taken(number) {
            if self.slots.len() / 16 >= self.taken + 64 {
                return false;
            }
            self.grow();
        }
        true
    }

    /// Doubles the slots. Records of different slots stay in different slots.
    fn grow(&mut self) {
        let longer = vec![Slot::default(); (2 * self.slots.len()).max(64)];
        let shorter = std::mem::replace(&mut self.slots, longer);
        for slot in shorter.into_iter().filter(|slot| slot.place.is_some()) {
            let index = self.index(slot.number);
            self.slots[index] = slot;
        }
    }

    /// The bytes from the first of the record with this number on, if it waits. It waits no longer.
    #[inline(always)]
    pub fn take(&mut self, number: u32) -> Option<&[u8]> {
        let index = self.index(number);
        let slot = self.slots.get_mut(index)?;
        let place = match slot.place {
            Some(place) if slot.number == number => {
                slot.place = None;
                self.taken -= 1;
                place
            }
            _ if self.aside.is_empty() => return None,
            _ => self.aside.remove(&number)?,
        };
        Some(self.chunks.take(place))
    }
}

#[cfg(test)]
mod tests {
    use super::*;

    #[test]
    fn each_record_is_found_once() {
        let record = |number: u32| number.to_be_bytes().repeat(2 + number as usize % 70);
        let numbers = || [7, 71, 135, u32::MAX, 0, 1 << 30].into_iter().chain(1000..9000);
        let mut early = Early::default();
        for number in numbers() {
            assert!(early.keep(number, &record(number)));
            assert!(!early.keep(number, &record(number)));
        }
        let is_found = |number| {
            let bytes = early.take(number);
            bytes.is_some_and(|bytes| bytes.starts_with(&record(number)))
        };
        assert!(numbers().all(is_found));
        assert!(numbers().all(|number| early.take(number).is_none()) && early.is_empty());
    }
}
