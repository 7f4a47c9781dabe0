//! The records of a trace: what each says, and how its bytes are read and checked.

use crate::answer::{need, FormatFault};
use crate::input::{value, Input, Stop};

/// A load or a store.
#[derive(Clone, Copy)]
pub struct Request {
    pub store: bool,
    pub tag: u8,
    /// 1, 2, 4 or 8 bytes.
    pub size: u8,
    /// The place of its first byte in its block.
    pub offset: u8,
    pub block: u32,
    /// What a store writes. That of a load is 0.
    pub value: u64,
}

impl Request {
    /// The bytes of its block that it touches.
    pub fn mask(&self) -> u64 {
        ((1 << self.size) - 1) << self.offset
    }

    /// The word of its block that it touches.
    pub fn position(&self) -> u8 {
        self.offset / 8
    }
}

/// What happened. Blocks are first-level blocks, but those of Fill2 and Evict2 are second-level blocks.
#[derive(Clone, Copy)]
pub enum Event<'piece> {
    Issue(Request),
    /// The size is 0 for the reply to a store, and 1, 2, 4 or 8 bytes for the reply to a load.
    Reply {
        tag: u8,
        size: u8,
        value: u64,
    },
    Hit {
        port: u8,
        tag: u8,
    },
    Primary {
        port: u8,
        tag: u8,
        register: u16,
    },
    Merge {
        port: u8,
        tag: u8,
        register: u16,
    },
    Stall {
        port: u8,
        tag: u8,
    },
    Fill1 {
        block: u32,
        data: &'piece [u8],
    },
    /// The data are the bytes under the mask.
    Evict1 {
        block: u32,
        mask: u64,
        data: &'piece [u8],
    },
    SecondHit {
        block: u32,
    },
    SecondPrimary {
        block: u32,
        register: u16,
    },
    SecondMerge {
        block: u32,
        register: u16,
    },
    SecondStall {
        block: u32,
    },
    Fill2 {
        block: u32,
        data: &'piece [u8],
    },
    /// The masks are 8 bytes for each sub-block, and the data are the bytes under them.
    Evict2 {
        block: u32,
        masks: &'piece [u8],
        data: &'piece [u8],
    },
    Fence,
}

/// An event with its place in the trace.
#[derive(Clone, Copy)]
pub struct Record<'piece> {
    /// The log that it is in. Ports come first, then banks.
    pub log: u8,
    /// The bank that it names, `NO_BANK` for a fence.
    pub bank: u8,
    /// The bank's number of the event.
    pub number: u32,
    pub event: Event<'piece>,
    /// The bytes that it was read from, which begin with its own.
    pub bytes: &'piece [u8],
}

/// The bank of a fence.
pub const NO_BANK: u8 = 255;

/// The most logs that a trace can have: 16 ports and 16 banks.
pub const MOST_LOGS: usize = 32;

/// The kinds of records, as the format numbers them.
mod kind {
    pub const END: u8 = 0;
    pub const ISSUE: u8 = 1;
    pub const REPLY: u8 = 2;
    pub const HIT: u8 = 3;
    pub const PRIMARY: u8 = 4;
    pub const MERGE: u8 = 5;
    pub const STALL: u8 = 6;
    pub const FILL1: u8 = 7;
    pub const EVICT1: u8 = 8;
    pub const SECOND_HIT: u8 = 9;
    pub const SECOND_PRIMARY: u8 = 10;
    pub const SECOND_STALL: u8 = 11;
    pub const FILL2: u8 = 12;
    pub const EVICT2: u8 = 13;
    pub const FENCE: u8 = 14;
    pub const SECOND_MERGE: u8 = 15;
}

/// The first 16 bytes of a trace.
#[derive(Clone, Copy, PartialEq, Eq, Debug)]
pub struct Header {
    /// 1, 2 or 3.
    pub version: u16,
    /// 1 to 16.
    pub ports: u32,
    /// 1 to 16.
    pub banks: u32,
    /// The bytes of a first-level block.
    pub block: u32,
    /// The first-level blocks of a second-level block.
    pub factor: u32,
    /// How many memory records follow it.
    pub memory_records: u32,
}

impl Header {
    /// The bytes of a header.
    pub const LENGTH: usize = 16;

    /// Reads and checks the header. The errors are Magic, Version, HeaderRange and Reserved.
    pub fn read(bytes: &[u8; Header::LENGTH]) -> Result<Header, FormatFault> {
        let (ports, banks) = (bytes[6], bytes[7]);
        let version = value(&bytes[4..6]) as u16;
        let block = value(&bytes[8..10]) as u32;
        let last = value(&bytes[10..12]) as u32;
        need(bytes.starts_with(b"LFTS"), FormatFault::Magic)?;
        need((1..=3).contains(&version), FormatFault::Version)?;
        need(
            (1..=16).contains(&ports) && (1..=16).contains(&banks),
            FormatFault::HeaderRange,
        )?;
        need(matches!(block, 8 | 16 | 32 | 64), FormatFault::HeaderRange)?;
        need(version < 3 || matches!(last, 1 | 2 | 4), FormatFault::HeaderRange)?;
        need(version == 3 || last == 0, FormatFault::Reserved)?;
        Ok(Header {
            version,
            ports: ports.into(),
            banks: banks.into(),
            block,
            factor: if version == 3 { last } else { 1 },
            memory_records: value(&bytes[12..16]) as u32,
        })
    }
}

/// How many records were read.
#[derive(Default)]
pub struct Counts {
    logs: [u32; MOST_LOGS],
    /// All event records.
    pub events: u32,
}

impl Counts {
    /// Counts one more record of a log.
    #[inline(always)]
    pub fn add(&mut self, log: u8) {
        self.logs[usize::from(log) % MOST_LOGS] += 1;
        self.events += 1;
    }
}

/// The first 8 bytes of a record.
struct Head {
    kind: u8,
    log: u8,
    bank: u8,
    zero: u8,
    number: u32,
}

impl Head {
    #[inline(always)]
    fn read(input: &mut Input<'_>) -> Result<Head, Stop> {
        let [kind, log, bank, zero, number @ ..] = input.array::<8>()?;
        Ok(Head {
            kind,
            log,
            bank,
            zero,
            number: u32::from_le_bytes(number),
        })
    }
}

/// How the records of a trace are laid out, as its header says.
#[derive(Clone, Copy)]
pub struct Layout {
    ports: u32,
    banks: u32,
    /// The bytes of a first-level block.
    block: usize,
    block_shift: u32,
    factor_shift: u32,
    last_kind: u8,
    /// The most records of a log.
    log_limit: u32,
    /// The bits that no mask of a block has.
    outside_masks: u64,
}

impl Layout {
    /// The layout of the records behind a header.
    pub fn new(header: &Header) -> Layout {
        Layout {
            ports: header.ports,
            banks: header.banks,
            block: header.block as usize,
            block_shift: header.block.trailing_zeros(),
            factor_shift: header.factor.trailing_zeros(),
            last_kind: match header.version {
                1 => kind::EVICT2,
                2 => kind::FENCE,
                _ => kind::SECOND_MERGE,
            },
            log_limit: if header.version == 1 { 1 << 20 } else { 1 << 24 },
            outside_masks: u64::MAX.checked_shl(header.block).unwrap_or(0),
        }
    }

    /// The next record, checked. `Stop::End` if it is the end record. The input goes on behind the record, or
    /// stays where it is if there is none.
    #[inline(always)]
    pub fn record<'piece>(&self, counts: &Counts, from: &mut Input<'piece>) -> Result<Record<'piece>, Stop> {
        let mut input = *from;
        let head = Head::read(&mut input)?;
        if head.kind == kind::END {
            need((head.log, head.bank, head.zero) == (0, 0, 0), FormatFault::Reserved)?;
            need(head.number == counts.events, FormatFault::Count)?;
            return Err(Stop::End);
        }
        self.check_head(&head)?;
        need(
            counts.logs[usize::from(head.log) % MOST_LOGS] < self.log_limit,
            FormatFault::TooMany,
        )?;
        let event = self.event(&head, &mut input)?;
        let bytes = from.until(&input);
        *from = input;
        Ok(Record {
            log: head.log,
            bank: head.bank,
            number: head.number,
            event,
            bytes,
        })
    }

    /// A record that was read before. The bytes begin with its own.
    #[inline(always)]
    pub fn reread<'piece>(&self, bytes: &'piece [u8]) -> Result<Record<'piece>, Stop> {
        let mut input = Input::new(bytes);
        let head = Head::read(&mut input)?;
        let event = self.event(&head, &mut input)?;
        Ok(Record {
            log: head.log,
            bank: head.bank,
            number: head.number,
            event,
            bytes,
        })
    }

    #[inline(always)]
    fn check_head(&self, head: &Head) -> Result<(), FormatFault> {
        let (log, bank) = (u32::from(head.log), u32::from(head.bank));
        let of_port = matches!(head.kind, kind::ISSUE | kind::REPLY | kind::FENCE);
        let right_log = if of_port {
            log < self.ports
        } else {
            (self.ports..self.ports + self.banks).contains(&log)
        };
        need(head.kind <= self.last_kind, FormatFault::Kind)?;
        need(right_log, FormatFault::LogKind)?;
        if head.kind == kind::FENCE {
            need(head.bank == NO_BANK, FormatFault::BankRange)?;
            return need(head.zero == 0 && head.number == 0, FormatFault::Reserved);
        }
        need(bank < self.banks, FormatFault::BankRange)?;
        need(of_port || log == self.ports + bank, FormatFault::WrongBank)?;
        need(head.zero == 0, FormatFault::Reserved)
    }

    #[inline(always)]
    fn event<'piece>(&self, head: &Head, input: &mut Input<'piece>) -> Result<Event<'piece>, Stop> {
        let bank = u32::from(head.bank);
        match head.kind {
            kind::ISSUE => self.issue(bank, input),
            kind::REPLY => reply(input),
            kind::HIT => request(input).map(|(port, tag)| Event::Hit { port, tag }),
            kind::PRIMARY => miss(input).map(|(port, tag, register)| Event::Primary { port, tag, register }),
            kind::MERGE => miss(input).map(|(port, tag, register)| Event::Merge { port, tag, register }),
            kind::STALL => request(input).map(|(port, tag)| Event::Stall { port, tag }),
            kind::FILL1 => self.fill1(bank, input),
            kind::EVICT1 => self.evict1(bank, input),
            kind::SECOND_HIT => self.asked(bank, input).map(|block| Event::SecondHit { block }),
            kind::SECOND_PRIMARY => self
                .second_miss(bank, input)
                .map(|(block, register)| Event::SecondPrimary { block, register }),
            kind::SECOND_MERGE => self
                .second_miss(bank, input)
                .map(|(block, register)| Event::SecondMerge { block, register }),
            kind::SECOND_STALL => self.asked(bank, input).map(|block| Event::SecondStall { block }),
            kind::FILL2 => self.fill2(bank, input),
            kind::EVICT2 => self.evict2(bank, input),
            _ => Ok(Event::Fence),
        }
    }

    #[inline(always)]
    fn check_bank(&self, second: u32, bank: u32) -> Result<(), FormatFault> {
        need(second % self.banks == bank, FormatFault::WrongBank)
    }

    #[inline(always)]
    fn issue<'piece>(&self, bank: u32, input: &mut Input<'piece>) -> Result<Event<'piece>, Stop> {
        let [op, tag, size, zero, address @ ..] = input.array::<12>()?;
        let address = u64::from_le_bytes(address);
        need(op <= 1, FormatFault::Op)?;
        need(matches!(size, 1 | 2 | 4 | 8), FormatFault::Size)?;
        need(zero == 0, FormatFault::Reserved)?;
        need(address & u64::from(size - 1) == 0, FormatFault::Alignment)?;
        let block = u32::try_from(address >> self.block_shift).map_err(|_| FormatFault::BlockRange)?;
        self.check_bank(block >> self.factor_shift, bank)?;
        let offset = (address as usize & (self.block - 1)) as u8;
        let store = op == 1;
        let value = if store { input.value(size)? } else { 0 };
        Ok(Event::Issue(Request {
            store,
            tag,
            size,
            block,
            offset,
            value,
        }))
    }

    /// The block that level one asked for.
    #[inline(always)]
    fn asked(&self, bank: u32, input: &mut Input<'_>) -> Result<u32, Stop> {
        let block = input.u32()?;
        self.check_bank(block >> self.factor_shift, bank)?;
        Ok(block)
    }

    #[inline(always)]
    fn second_miss(&self, bank: u32, input: &mut Input<'_>) -> Result<(u32, u16), Stop> {
        let (block, register, zero) = (input.u32()?, input.u16()?, input.u16()?);
        self.check_bank(block >> self.factor_shift, bank)?;
        need(zero == 0, FormatFault::Reserved)?;
        Ok((block, register))
    }

    #[inline(always)]
    fn fill1<'piece>(&self, bank: u32, input: &mut Input<'piece>) -> Result<Event<'piece>, Stop> {
        let block = self.asked(bank, input)?;
        Ok(Event::Fill1 {
            block,
            data: input.slice(self.block)?,
        })
    }

    #[inline(always)]
    fn evict1<'piece>(&self, bank: u32, input: &mut Input<'piece>) -> Result<Event<'piece>, Stop> {
        let (block, mask) = (input.u32()?, input.u64()?);
        self.check_bank(block >> self.factor_shift, bank)?;
        need(mask & self.outside_masks == 0, FormatFault::MaskRange)?;
        Ok(Event::Evict1 {
            block,
            mask,
            data: input.slice(mask.count_ones() as usize)?,
        })
    }

    #[inline(always)]
    fn check_second(&self, second: u32, bank: u32) -> Result<(), FormatFault> {
        need(second <= u32::MAX >> self.factor_shift, FormatFault::BlockRange)?;
        self.check_bank(second, bank)
    }

    #[inline(always)]
    fn fill2<'piece>(&self, bank: u32, input: &mut Input<'piece>) -> Result<Event<'piece>, Stop> {
        let block = input.u32()?;
        self.check_second(block, bank)?;
        Ok(Event::Fill2 {
            block,
            data: input.slice(self.block << self.factor_shift)?,
        })
    }

    #[inline(always)]
    fn evict2<'piece>(&self, bank: u32, input: &mut Input<'piece>) -> Result<Event<'piece>, Stop> {
        let block = input.u32()?;
        let masks = input.slice(8 << self.factor_shift)?;
        self.check_second(block, bank)?;
        let (mut all, mut length) = (0, 0);
        for mask in masks.chunks_exact(8).map(value) {
            all |= mask;
            length += mask.count_ones() as usize;
        }
        need(all & self.outside_masks == 0, FormatFault::MaskRange)?;
        Ok(Event::Evict2 {
            block,
            masks,
            data: input.slice(length)?,
        })
    }
}

#[inline(always)]
fn reply<'piece>(input: &mut Input<'piece>) -> Result<Event<'piece>, Stop> {
    let [tag, size, zero @ ..] = input.array::<4>()?;
    need(matches!(size, 0 | 1 | 2 | 4 | 8), FormatFault::Size)?;
    need(zero == [0, 0], FormatFault::Reserved)?;
    Ok(Event::Reply {
        tag,
        size,
        value: input.value(size)?,
    })
}

/// The port and the tag of a request that takes no register.
#[inline(always)]
fn request(input: &mut Input<'_>) -> Result<(u8, u8), Stop> {
    let [port, tag, zero @ ..] = input.array::<4>()?;
    need(zero == [0, 0], FormatFault::Reserved)?;
    Ok((port, tag))
}

/// The port, the tag and the register of a missed request.
#[inline(always)]
fn miss(input: &mut Input<'_>) -> Result<(u8, u8, u16), Stop> {
    let [port, tag] = input.array()?;
    Ok((port, tag, input.u16()?))
}
