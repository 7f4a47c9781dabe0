//! The answers: what a trace breaks or why it cannot be judged, and the line and exit status of each.

use std::fmt;

/// A rule that an event may break. Each says what the rule asks.
#[derive(Clone, Copy, PartialEq, Eq, Debug)]
pub enum Rule {
    /// The tag is below the number of tags.
    TagRange,
    /// The tag of an issue is not busy.
    TagBusy,
    /// The tag of a reply is busy with the bank.
    NotOutstanding,
    /// A reply is ready for the port and the tag.
    NotReady,
    /// The reply has the size of the ready one.
    ReplySize,
    /// The reply has the bytes of the ready one.
    ReplyData,
    /// The request is the oldest of its port at the bank.
    NotHead,
    /// Level one has the block of a hit.
    NotPresent,
    /// Level one does not have the block of a miss.
    Present,
    /// No register holds the block of a primary miss.
    PrimaryInFlight,
    /// A register holds the block of a merge.
    NotInFlight,
    /// The register exists.
    RegisterRange,
    /// The register is the one that the organisation asks for.
    WrongRegister,
    /// The register of a primary miss is free.
    RegisterBusy,
    /// The register of a merge has room for the target.
    MergeFull,
    /// No register has room for the target that stalls.
    NeedlessStall,
    /// Level two has supplied the block of a fill.
    NotSupplied,
    /// The set has a free way.
    SetFull,
    /// The bytes of a fill are those of memory, but for those of waiting stores.
    FillData,
    /// The level has the line of an eviction.
    EvictAbsent,
    /// The masks of an eviction are the dirty masks of the line.
    EvictMask,
    /// The bytes of an eviction are those of memory under the masks.
    EvictData,
    /// Level one asked for the block.
    NotAsked,
    /// Level two has the second-level block of a hit.
    SecondAbsent,
    /// Level two does not have the second-level block of a miss.
    SecondPresent,
    /// A level-two register holds the second-level block of a fill.
    NotFetched,
    /// Level one has no line and no register on a block that leaves level two.
    Inclusion,
    /// No tag of the port is busy at a fence.
    FenceBusy,
}

/// What is wrong with the bytes of a trace.
#[derive(Clone, Copy, PartialEq, Eq, Debug)]
pub enum FormatFault {
    /// The header begins with other letters.
    Magic,
    /// The version is not 1, 2 or 3.
    Version,
    /// A number of the header is outside its range.
    HeaderRange,
    /// The blocks of the memory records do not rise.
    MemoryOrder,
    /// The version has no such kind of record.
    Kind,
    /// The log does not exist, or has no such records.
    LogKind,
    /// The bank does not exist.
    BankRange,
    /// The log or the block has another bank.
    WrongBank,
    /// A byte that must be 0 is not.
    Reserved,
    /// The request is neither a load nor a store.
    Op,
    /// The size is not one of those that are allowed.
    Size,
    /// The address is not a multiple of the size.
    Alignment,
    /// The number of the block is too large.
    BlockRange,
    /// A mask has bits for bytes behind the block.
    MaskRange,
    /// The log has more records than the version allows.
    TooMany,
    /// The end record has another number of events.
    Count,
    /// The file ends within a part.
    Truncated,
    /// Bytes follow the end record.
    Trailing,
}

/// A number of a trace's header that differs from the configuration.
#[derive(Clone, Copy, PartialEq, Eq, Debug)]
pub enum HeaderFault {
    Ports,
    Banks,
    Block,
    Factor,
}

/// Why a trace breaks the rules.
#[derive(Clone, Copy, PartialEq, Eq, Debug)]
pub enum Fault {
    /// A number of a bank that no event has, below one that an event has.
    Missing { bank: usize, number: u32 },
    /// A number of a bank that two events have.
    Double { bank: usize, number: u32 },
    /// The event at this place of the port's log, counted from 0.
    Port { port: usize, event: u32, rule: Rule },
    /// The event with this number of the bank.
    Bank { bank: usize, number: u32, rule: Rule },
    /// No order of all events keeps the logs and the numbers.
    Cycle,
}

/// Why a trace cannot be judged.
#[derive(Clone, PartialEq, Eq, Debug)]
pub enum Refusal {
    /// The command line is wrong.
    Usage,
    /// The configuration cannot be read, or has more than 1 MiB.
    ReadConfig,
    /// The words that say what is wrong with the configuration.
    Config(String),
    /// The trace cannot be read.
    ReadTrace,
    /// The offset in bytes of the header or the record that has the fault.
    Format {
        fault: FormatFault,
        offset: u64,
    },
    Header(HeaderFault),
}

/// The answer to one trace.
#[derive(Clone, PartialEq, Eq, Debug)]
pub enum Answer {
    Yes { events: u32 },
    No(Fault),
    Refused(Refusal),
}

impl Answer {
    /// The exit status: 0 for yes, 1 for no, 2 for refused.
    pub fn status(&self) -> u8 {
        match self {
            Answer::Yes { .. } => 0,
            Answer::No(_) => 1,
            Answer::Refused(_) => 2,
        }
    }
}

impl fmt::Display for Answer {
    fn fmt(&self, out: &mut fmt::Formatter<'_>) -> fmt::Result {
        match self {
            Answer::Yes { events } => write!(out, "yes events={events}"),
            Answer::No(fault) => write!(out, "no {fault}"),
            Answer::Refused(refusal) => write!(out, "refused {refusal}"),
        }
    }
}

impl fmt::Display for Fault {
    fn fmt(&self, out: &mut fmt::Formatter<'_>) -> fmt::Result {
        match self {
            Fault::Missing { bank, number } => write!(out, "numbering bank={bank} missing={number}"),
            Fault::Double { bank, number } => write!(out, "numbering bank={bank} double={number}"),
            Fault::Port { port, event, rule } => write!(out, "port={port} event={event} rule={rule:?}"),
            Fault::Bank { bank, number, rule } => write!(out, "bank={bank} number={number} rule={rule:?}"),
            Fault::Cycle => write!(out, "cycle"),
        }
    }
}

impl fmt::Display for Refusal {
    fn fmt(&self, out: &mut fmt::Formatter<'_>) -> fmt::Result {
        match self {
            Refusal::Usage => write!(out, "usage"),
            Refusal::ReadConfig => write!(out, "read config"),
            Refusal::Config(words) => write!(out, "config {words}"),
            Refusal::ReadTrace => write!(out, "read trace"),
            Refusal::Format { fault, offset } => write!(out, "format {fault:?} at={offset}"),
            Refusal::Header(fault) => write!(out, "header {fault:?}"),
        }
    }
}

/// An error where a condition does not hold.
#[inline(always)]
pub fn need<E>(holds: bool, error: E) -> Result<(), E> {
    if holds {
        Ok(())
    } else {
        Err(error)
    }
}
