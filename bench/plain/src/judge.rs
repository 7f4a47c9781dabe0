//! The judgement of a trace: its records go to their ports and to their banks, each bank's in the order of
//! its numbers.

use crate::answer::{need, Answer, Fault, HeaderFault, Refusal, Rule};
use crate::bank::Bank;
use crate::early::Early;
use crate::order::Order;
use crate::port::Port;
use crate::record::{Header, Layout, Record, NO_BANK};
use crate::shape::Shape;
use crate::trace::{Memory, Trace};
use std::io::Read;
use std::rc::Rc;

/// A bank with the records that wait for their turn.
struct Numbered {
    bank: Bank,
    /// The number of the record whose turn it is. A bank has at most 2^29 records.
    next: u32,
    early: Early,
    /// The lowest number that two records have.
    double: Option<u32>,
    /// The lowest number whose event breaks a rule, and the rule. Later events are not judged.
    broken: Option<(u32, Rule)>,
}

impl Numbered {
    fn new(bank: Bank) -> Numbered {
        Numbered {
            bank,
            next: 0,
            early: Early::default(),
            double: None,
            broken: None,
        }
    }

    /// Takes a record of the bank, in the order of the file.
    #[inline(always)]
    fn take(&mut self, layout: &Layout, record: &Record<'_>) {
        if record.number != self.next {
            self.keep(record.number, record.bytes);
            return;
        }
        self.next += 1;
        if self.broken.is_none() {
            self.broken = self.bank.step(record).err().map(|rule| (record.number, rule));
        }
        if self.early.may_hold(self.next) {
            self.take_early(layout);
        }
    }

    #[inline(never)]
    fn keep(&mut self, number: u32, bytes: &[u8]) {
        let is_new = number > self.next && self.early.keep(number, bytes);
        if !is_new && self.double.is_none_or(|double| number < double) {
            self.double = Some(number);
        }
    }

    /// Takes the early records whose turn it is.
    #[inline(never)]
    fn take_early(&mut self, layout: &Layout) {
        while let Some(bytes) = self.early.take(self.next) {
            if self.broken.is_none() {
                let record = layout.reread(bytes).expect("the record was checked when it came");
                self.broken = self.bank.step(&record).err().map(|rule| (self.next, rule));
            }
            self.next += 1;
        }
    }

    /// The lowest number of bank number `bank` that is missing below another or is there twice. If a record
    /// still waits, the number before it that is missing is `next`.
    fn numbering(&self, bank: usize) -> Option<Fault> {
        let missing = (!self.early.is_empty()).then_some(self.next);
        match (self.double, missing) {
            (Some(double), Some(number)) if number < double => Some(Fault::Missing { bank, number }),
            (Some(number), _) => Some(Fault::Double { bank, number }),
            (None, Some(number)) => Some(Fault::Missing { bank, number }),
            (None, None) => None,
        }
    }
}

/// All ports and banks of a hierarchy.
struct Judge {
    ports: Vec<Port>,
    banks: Vec<Numbered>,
    order: Order,
}

impl Judge {
    fn new(shape: &Shape, memory: Memory) -> Judge {
        let memory = Rc::new(memory);
        let (ports, banks) = (shape.ports as usize, shape.banks as usize);
        Judge {
            ports: (0..ports).map(|_| Port::new(shape.tags)).collect(),
            banks: (0..banks)
                .map(|_| Numbered::new(Bank::new(shape, Rc::clone(&memory))))
                .collect(),
            order: Order::new(ports + banks, banks),
        }
    }

    #[inline(always)]
    fn take(&mut self, layout: &Layout, record: &Record<'_>) {
        let log = usize::from(record.log);
        if let Some(port) = self.ports.get_mut(log) {
            port.take(record);
        }
        if record.bank != NO_BANK {
            self.order.add(log, record.bank, record.number);
            self.banks[usize::from(record.bank)].take(layout, record);
        }
    }

    /// The first fault, in the order of the checks.
    fn fault(&self) -> Option<Fault> {
        self.numbering_fault()
            .or_else(|| self.port_fault())
            .or_else(|| self.bank_fault())
            .or_else(|| (!self.order.exists()).then_some(Fault::Cycle))
    }

    fn numbering_fault(&self) -> Option<Fault> {
        let mut banks = self.banks.iter().enumerate();
        banks.find_map(|(bank, judged)| judged.numbering(bank))
    }

    fn port_fault(&self) -> Option<Fault> {
        let mut ports = self.ports.iter().enumerate();
        ports.find_map(|(port, judged)| {
            let (event, rule) = judged.broken()?;
            Some(Fault::Port { port, event, rule })
        })
    }

    fn bank_fault(&self) -> Option<Fault> {
        let mut banks = self.banks.iter().enumerate();
        banks.find_map(|(bank, judged)| {
            let (number, rule) = judged.broken?;
            Some(Fault::Bank { bank, number, rule })
        })
    }
}

/// Whether a trace's header has the numbers of the hierarchy.
fn compare(header: &Header, shape: &Shape) -> Result<(), HeaderFault> {
    need(header.ports == shape.ports, HeaderFault::Ports)?;
    need(header.banks == shape.banks, HeaderFault::Banks)?;
    need(header.block == shape.block, HeaderFault::Block)?;
    need(header.factor == shape.factor, HeaderFault::Factor)
}

/// Judges a trace for a hierarchy. An error is a failed read, a fault of the format or another header.
pub fn judge(shape: &Shape, source: impl Read) -> Result<Answer, Refusal> {
    let mut trace = Trace::new(source);
    let header = trace.header()?;
    let layout = Layout::new(&header);
    let memory = trace.memory(&header)?;
    if let Err(fault) = compare(&header, shape) {
        // A fault of the format comes before one of the header, so the trace is read to its end.
        trace.events(&layout, |_| {})?;
        return Err(Refusal::Header(fault));
    }
    let mut judge = Judge::new(shape, memory);
    let events = trace.events(&layout, |record| judge.take(&layout, record))?;
    Ok(judge.fault().map_or(Answer::Yes { events }, Answer::No))
}
