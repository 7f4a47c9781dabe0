//! A trace file: its header, its memory records and its event records, read in pieces.

use crate::answer::{FormatFault, Refusal};
use crate::input::{Input, Stop};
use crate::record::{Counts, Header, Layout, Record};
use std::io::{self, ErrorKind, Read};

/// The bytes of a piece. It is longer than any record.
const PIECE: usize = 1 << 16;

/// The bytes of a source, a piece at a time.
struct Pieces<R> {
    source: R,
    buffer: Box<[u8]>,
    /// The unread bytes of the buffer go from `start` to `end`.
    start: usize,
    end: usize,
    /// The offset in the source of the buffer's first byte.
    base: u64,
}

impl<R: Read> Pieces<R> {
    fn new(source: R) -> Pieces<R> {
        Pieces {
            source,
            buffer: vec![0; PIECE].into_boxed_slice(),
            start: 0,
            end: 0,
            base: 0,
        }
    }

    /// The offset of the first unread byte.
    fn offset(&self) -> u64 {
        self.base + self.start as u64
    }

    /// Moves the unread bytes to the front and reads on behind them. False at the end of the source.
    fn read_more(&mut self) -> io::Result<bool> {
        self.buffer.copy_within(self.start..self.end, 0);
        self.base += self.start as u64;
        self.end -= self.start;
        self.start = 0;
        loop {
            match self.source.read(&mut self.buffer[self.end..]) {
                Ok(length) => {
                    self.end += length;
                    return Ok(length > 0);
                }
                Err(error) if error.kind() == ErrorKind::Interrupted => {}
                Err(error) => return Err(error),
            }
        }
    }

    /// The next bytes, if the source has so many. They are unread before and after.
    fn peek(&mut self, length: usize) -> io::Result<Option<&[u8]>> {
        while self.end - self.start < length {
            if !self.read_more()? {
                return Ok(None);
            }
        }
        Ok(Some(&self.buffer[self.start..self.start + length]))
    }
}

/// The memory before the first event: the blocks that memory records name.
pub struct Memory {
    /// The numbers of the blocks, rising.
    blocks: Vec<u32>,
    /// The bytes of the blocks, in the same order.
    bytes: Vec<u8>,
    /// The bytes of one block.
    length: usize,
}

impl Memory {
    /// The bytes of a block that is named. A block that is not named is zero.
    pub fn find(&self, block: u32) -> Option<&[u8]> {
        let place = self.blocks.binary_search(&block).ok()?;
        Some(&self.bytes[place * self.length..][..self.length])
    }
}

/// A trace that is being read.
pub struct Trace<R> {
    pieces: Pieces<R>,
    counts: Counts,
}

impl<R: Read> Trace<R> {
    /// A trace of which nothing was read yet.
    pub fn new(source: R) -> Trace<R> {
        Trace {
            pieces: Pieces::new(source),
            counts: Counts::default(),
        }
    }

    fn refused(&self, fault: FormatFault) -> Refusal {
        Refusal::Format {
            fault,
            offset: self.pieces.offset(),
        }
    }

    /// The next bytes of a part that begins with them. The errors are Truncated and a failed read.
    fn part(&mut self, length: usize) -> Result<&[u8], Refusal> {
        let truncated = self.refused(FormatFault::Truncated);
        let part = self.pieces.peek(length).map_err(|_| Refusal::ReadTrace)?;
        part.ok_or(truncated)
    }

    /// Reads the header, which comes first. The errors are those of its bytes, Truncated and a failed read.
    pub fn header(&mut self) -> Result<Header, Refusal> {
        let mut bytes = [0; Header::LENGTH];
        bytes.copy_from_slice(self.part(Header::LENGTH)?);
        let header = Header::read(&bytes).map_err(|fault| self.refused(fault))?;
        self.pieces.start += Header::LENGTH;
        Ok(header)
    }

    /// Reads the memory records, which follow the header. Their count in the header may be wrong, so the
    /// memory grows only with the bytes that were read.
    pub fn memory(&mut self, header: &Header) -> Result<Memory, Refusal> {
        let mut memory = Memory {
            blocks: Vec::new(),
            bytes: Vec::new(),
            length: header.block as usize,
        };
        for _ in 0..header.memory_records {
            self.memory_record(&mut memory)?;
        }
        Ok(memory)
    }

    fn memory_record(&mut self, memory: &mut Memory) -> Result<(), Refusal> {
        let mut number = [0; 4];
        number.copy_from_slice(self.part(4)?);
        let block = u32::from_le_bytes(number);
        if memory.blocks.last().is_some_and(|&before| block <= before) {
            return Err(self.refused(FormatFault::MemoryOrder));
        }
        let record = self.part(4 + memory.length)?;
        memory.blocks.push(block);
        memory.bytes.extend_from_slice(&record[4..]);
        self.pieces.start += 4 + memory.length;
        Ok(())
    }

    /// Reads the event records and the end record, and visits each event. The number of events.
    #[inline(always)]
    pub fn events(&mut self, layout: &Layout, mut visit: impl FnMut(&Record<'_>)) -> Result<u32, Refusal> {
        loop {
            match self.visit_piece(layout, &mut visit) {
                Stop::More => {
                    if !self.pieces.read_more().map_err(|_| Refusal::ReadTrace)? {
                        return Err(self.refused(FormatFault::Truncated));
                    }
                }
                Stop::End => return self.finish(),
                Stop::Fault(fault) => return Err(self.refused(fault)),
            }
        }
    }

    /// Visits the records that are whole in the buffer.
    #[inline(always)]
    fn visit_piece(&mut self, layout: &Layout, visit: &mut impl FnMut(&Record<'_>)) -> Stop {
        let mut input = Input::new(&self.pieces.buffer[self.pieces.start..self.pieces.end]);
        let stop = loop {
            match layout.record(&self.counts, &mut input) {
                Ok(record) => {
                    self.counts.add(record.log);
                    visit(&record);
                }
                Err(stop) => break stop,
            }
        };
        self.pieces.start = self.pieces.end - input.left();
        stop
    }

    /// Checks that nothing follows the end record.
    fn finish(&mut self) -> Result<u32, Refusal> {
        const END: usize = 8;
        self.pieces.start += END;
        match self.pieces.peek(1).map_err(|_| Refusal::ReadTrace)? {
            Some(_) => Err(self.refused(FormatFault::Trailing)),
            None => Ok(self.counts.events),
        }
    }
}
