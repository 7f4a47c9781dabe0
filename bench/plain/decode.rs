//! Reads a trace, decodes each record and counts them by kind: what merely reading a trace costs. It
//! proves nothing and judges nothing. `bench/run.sh` builds and times it where `rustc` is at hand:
//!
//!     rustc -O bench/plain/decode.rs -o decode && ./decode TRACE

use std::fs::File;
use std::io::{self, BufReader, Read};

const MOST_BYTES: usize = 256;

/// A record, its data in place.
#[allow(dead_code)]
enum Event {
    Issue { op: u8, tag: u8, size: u8, address: u64, data: [u8; 8] },
    Reply { tag: u8, size: u8, data: [u8; 8] },
    Access { kind: u8, port: u8, tag: u8, register: u16 },
    Block { kind: u8, block: u32, register: u16 },
    Line { kind: u8, block: u32, masks: [u64; 4], data: [u8; MOST_BYTES], length: usize },
    Fence,
}

struct Decoder<R> {
    input: R,
    block: usize,
    factor: usize,
}

impl<R: Read> Decoder<R> {
    fn bytes<const N: usize>(&mut self) -> io::Result<[u8; N]> {
        let mut bytes = [0; N];
        self.input.read_exact(&mut bytes)?;
        Ok(bytes)
    }

    /// So many bytes, and zeros behind them.
    fn data<const N: usize>(&mut self, length: usize) -> io::Result<[u8; N]> {
        let mut data = [0; N];
        self.input.read_exact(&mut data[..length])?;
        Ok(data)
    }

    fn line(&mut self, kind: u8, masks: usize, whole: usize) -> io::Result<Event> {
        let block = u32::from_le_bytes(self.bytes()?);
        let mut all = [0; 4];
        for mask in &mut all[..masks] {
            *mask = u64::from_le_bytes(self.bytes()?);
        }
        let written = all.iter().map(|mask| mask.count_ones() as usize).sum();
        let length = if masks == 0 { whole } else { written };
        Ok(Event::Line { kind, block, masks: all, data: self.data(length)?, length })
    }

    fn event(&mut self, kind: u8) -> io::Result<Event> {
        Ok(match kind {
            1 => {
                let [op, tag, size, _] = self.bytes()?;
                let address = u64::from_le_bytes(self.bytes()?);
                let length = if op == 1 { size as usize } else { 0 };
                Event::Issue { op, tag, size, address, data: self.data(length)? }
            }
            2 => {
                let [tag, size, _, _] = self.bytes()?;
                Event::Reply { tag, size, data: self.data(size as usize)? }
            }
            3..=6 => {
                let [port, tag, low, high] = self.bytes()?;
                Event::Access { kind, port, tag, register: u16::from_le_bytes([low, high]) }
            }
            7 => self.line(kind, 0, self.block)?,
            8 => self.line(kind, 1, self.block)?,
            9 | 11 => Event::Block { kind, block: u32::from_le_bytes(self.bytes()?), register: 0 },
            10 | 15 => {
                let block = u32::from_le_bytes(self.bytes()?);
                let [low, high, _, _] = self.bytes()?;
                Event::Block { kind, block, register: u16::from_le_bytes([low, high]) }
            }
            12 => self.line(kind, 0, self.block * self.factor)?,
            13 => self.line(kind, self.factor, self.block * self.factor)?,
            14 => Event::Fence,
            _ => return Err(io::Error::other("no kind of record")),
        })
    }
}

fn main() -> io::Result<()> {
    let path = std::env::args().nth(1).expect("decode TRACE");
    let mut input = BufReader::with_capacity(65536, File::open(path)?);
    let mut header = [0; 16];
    input.read_exact(&mut header)?;
    let block = usize::from(u16::from_le_bytes([header[8], header[9]]));
    let factor = usize::from(u16::from_le_bytes([header[10], header[11]])).max(1);
    let memory = u32::from_le_bytes([header[12], header[13], header[14], header[15]]);
    let mut decoder = Decoder { input, block, factor };
    for _ in 0..memory {
        decoder.bytes::<4>()?;
        decoder.data::<64>(block)?;
    }
    let mut counts = [0_u32; 16];
    loop {
        let [kind, _log, _bank, _, ..]: [u8; 8] = decoder.bytes()?;
        if kind == 0 {
            break;
        }
        std::hint::black_box(decoder.event(kind)?);
        counts[usize::from(kind)] += 1;
    }
    println!("{} records, by kind {:?}", counts.iter().sum::<u32>(), &counts[1..]);
    Ok(())
}
