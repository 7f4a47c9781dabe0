//! One port: which of its tags are busy, and the rules that its log may break.

use crate::answer::{need, Rule};
use crate::record::{Event, Record, Request};

/// The state of a port after the records of its log so far.
pub struct Port {
    /// For each tag the bank that owes its reply.
    busy: Vec<Option<u8>>,
    /// How many tags are busy.
    outstanding: u32,
    /// How many records the log has so far.
    records: u32,
    /// The place in the log of the first event that breaks a rule, and the rule. Later events are not judged.
    broken: Option<(u32, Rule)>,
}

impl Port {
    /// A port with so many tags, none of them busy.
    pub fn new(tags: u32) -> Port {
        Port {
            busy: vec![None; tags as usize],
            outstanding: 0,
            records: 0,
            broken: None,
        }
    }

    /// Judges the next record of the log.
    #[inline(always)]
    pub fn take(&mut self, record: &Record<'_>) {
        if self.broken.is_none() {
            self.broken = self.step(record).err().map(|rule| (self.records, rule));
        }
        self.records += 1;
    }

    /// The place in the log of the first event that breaks a rule, counted from 0, and the rule.
    pub fn broken(&self) -> Option<(u32, Rule)> {
        self.broken
    }

    #[inline(always)]
    fn step(&mut self, record: &Record<'_>) -> Result<(), Rule> {
        match record.event {
            Event::Issue(Request { tag, .. }) => {
                let busy = self.busy.get_mut(usize::from(tag)).ok_or(Rule::TagRange)?;
                need(busy.is_none(), Rule::TagBusy)?;
                *busy = Some(record.bank);
                self.outstanding += 1;
                Ok(())
            }
            Event::Reply { tag, .. } => {
                let busy = self.busy.get_mut(usize::from(tag)).ok_or(Rule::TagRange)?;
                need(*busy == Some(record.bank), Rule::NotOutstanding)?;
                *busy = None;
                self.outstanding -= 1;
                Ok(())
            }
            Event::Fence => need(self.outstanding == 0, Rule::FenceBusy),
            _ => Ok(()),
        }
    }
}
