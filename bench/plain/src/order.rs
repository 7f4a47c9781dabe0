//! Whether some order of all events keeps the order of each log and the numbers of each bank.

/// An event that names a bank.
#[derive(Clone, Copy)]
struct Place {
    bank: u8,
    number: u32,
}

/// The events of each log in order. A fence waits for nothing, so it is left out.
pub struct Order {
    logs: Vec<Vec<Place>>,
    banks: usize,
}

impl Order {
    /// No events yet.
    pub fn new(logs: usize, banks: usize) -> Order {
        Order {
            logs: vec![Vec::new(); logs],
            banks,
        }
    }

    /// Adds an event to the end of a log.
    #[inline(always)]
    pub fn add(&mut self, log: usize, bank: u8, number: u32) {
        self.logs[log].push(Place { bank, number });
    }

    /// Whether there is such an order. The numbers of each bank are those from 0 on, each once.
    pub fn exists(&self) -> bool {
        let mut progress = Progress {
            rest: self.logs.iter().map(Vec::as_slice).collect(),
            next: vec![0; self.banks],
            waiting: vec![0; self.banks],
        };
        let mut ready: Vec<usize> = (0..self.logs.len()).collect();
        while let Some(log) = ready.pop() {
            progress.advance(log, &mut ready);
        }
        progress.rest.iter().all(|rest| rest.is_empty())
    }
}

/// How far the events have been put in order.
struct Progress<'order> {
    /// The events of each log that are left.
    rest: Vec<&'order [Place]>,
    /// The next number of each bank.
    next: Vec<u32>,
    /// For each bank the logs that wait for it, a bit for each: their first event left is one of the bank,
    /// and not yet its next.
    waiting: Vec<u32>,
}

impl Progress<'_> {
    /// Takes the events of a log until one has to wait. The logs that can go on then are ready.
    fn advance(&mut self, log: usize, ready: &mut Vec<usize>) {
        while let Some((&Place { bank, number }, rest)) = self.rest[log].split_first() {
            let bank = usize::from(bank);
            if number != self.next[bank] {
                self.waiting[bank] |= 1 << log;
                return;
            }
            self.rest[log] = rest;
            self.next[bank] += 1;
            if self.waiting[bank] != 0 {
                ready.extend(self.release(bank));
            }
        }
    }

    /// The waiting log that has the next event of a bank. It waits no longer.
    fn release(&mut self, bank: usize) -> Option<usize> {
        let is_next = |log: &usize| {
            self.rest[*log]
                .first()
                .is_some_and(|first| first.number == self.next[bank])
        };
        let log = set_bits(self.waiting[bank]).find(is_next)?;
        self.waiting[bank] &= !(1 << log);
        Some(log)
    }
}

/// The places of the bits that are set, rising.
fn set_bits(mask: u32) -> impl Iterator<Item = usize> {
    let mut rest = mask;
    std::iter::from_fn(move || {
        let lowest = rest.trailing_zeros();
        rest &= rest.wrapping_sub(1);
        (lowest < u32::BITS).then_some(lowest as usize)
    })
}

#[cfg(test)]
mod tests {
    use super::*;

    fn exists(logs: &[&[(u8, u32)]]) -> bool {
        let mut order = Order::new(logs.len(), 2);
        for (log, events) in logs.iter().enumerate() {
            events.iter().for_each(|&(bank, number)| order.add(log, bank, number));
        }
        order.exists()
    }

    #[test]
    fn logs_that_wait_for_one_another_have_no_order() {
        assert!(exists(&[&[(0, 0), (1, 1)], &[(1, 0), (0, 1)]]));
        assert!(!exists(&[&[(0, 1), (1, 0)], &[(1, 1), (0, 0)]]));
        assert!(!exists(&[&[(0, 1), (0, 0)]]));
    }
}
