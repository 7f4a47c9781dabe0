//! The miss status holding registers of one level of a bank.

use crate::answer::{need, Rule};
use crate::shape::Organisation;

/// What the targets of a register take of it.
struct Register<T> {
    /// How many targets it has.
    count: u32,
    /// The positions of its targets, a bit for each.
    positions: u8,
    /// If its first target is the primary miss of a block: all targets of the block in the order of
    /// acceptance, each with the register that it is in.
    targets: Vec<(u16, T)>,
}

/// The registers of a level. A block in flight is named by the register of its primary miss.
pub struct RegisterFile<T> {
    organisation: Organisation,
    registers: Vec<Register<T>>,
    /// How many registers have no target.
    free: usize,
}

impl<T> RegisterFile<T> {
    /// So many registers, all of them free.
    pub fn new(organisation: Organisation, registers: u32) -> RegisterFile<T> {
        let register = || Register {
            count: 0,
            positions: 0,
            targets: Vec::new(),
        };
        let registers: Vec<_> = (0..registers).map(|_| register()).collect();
        RegisterFile {
            organisation,
            free: registers.len(),
            registers,
        }
    }

    /// Judges the register of a primary miss. The errors are RegisterRange, WrongRegister and RegisterBusy.
    pub fn primary(&self, register: u16, destination: u16) -> Result<(), Rule> {
        let found = self.registers.get(usize::from(register)).ok_or(Rule::RegisterRange)?;
        let is_right = self.organisation != Organisation::Inverted || register == destination;
        need(is_right, Rule::WrongRegister)?;
        need(found.count == 0, Rule::RegisterBusy)
    }

    /// Judges the register of a merge. `primary` is the register of its block's primary miss. The errors are
    /// RegisterRange, WrongRegister and MergeFull.
    pub fn merge(&self, register: u16, primary: u16, destination: u16, position: u8) -> Result<(), Rule> {
        let found = self.registers.get(usize::from(register)).ok_or(Rule::RegisterRange)?;
        let right = if self.organisation == Organisation::Inverted {
            destination
        } else {
            primary
        };
        need(register == right, Rule::WrongRegister)?;
        need(self.has_place(found, position), Rule::MergeFull)
    }

    /// Whether a register that holds a target's block, or is its destination's, can take the target.
    fn has_place(&self, register: &Register<T>, position: u8) -> bool {
        match self.organisation {
            Organisation::Implicit { .. } => register.positions >> position & 1 == 0,
            Organisation::Explicit { entries, .. } => register.count < entries,
            Organisation::Inverted => register.count == 0,
        }
    }

    /// Whether some register can take a target. `primary` is the register of its block's primary miss, if the
    /// block is in flight.
    pub fn has_room(&self, primary: Option<u16>, destination: u16, position: u8) -> bool {
        match (self.organisation, primary) {
            (Organisation::Inverted, _) => self.has_place(&self.registers[usize::from(destination)], position),
            (_, Some(primary)) => self.has_place(&self.registers[usize::from(primary)], position),
            (_, None) => self.free > 0,
        }
    }

    /// Places a target whose register was judged. A primary miss is placed in its own register.
    pub fn place(&mut self, primary: u16, register: u16, position: u8, target: T) {
        let taken = &mut self.registers[usize::from(register)];
        self.free -= usize::from(taken.count == 0);
        taken.count += 1;
        taken.positions |= 1 << position;
        self.registers[usize::from(primary)].targets.push((register, target));
    }

    /// Releases all targets of the block whose primary miss is in a register, in the order of acceptance.
    pub fn release(&mut self, primary: u16, mut serve: impl FnMut(T)) {
        // The list goes back empty, so that its room is used again.
        let mut targets = std::mem::take(&mut self.registers[usize::from(primary)].targets);
        for (register, target) in targets.drain(..) {
            let released = &mut self.registers[usize::from(register)];
            self.free += usize::from(released.count > 0);
            released.count = 0;
            released.positions = 0;
            serve(target);
        }
        self.registers[usize::from(primary)].targets = targets;
    }
}

#[cfg(test)]
mod tests {
    use super::*;

    #[test]
    fn an_explicit_register_is_full_when_its_entries_are() {
        let mut file = RegisterFile::new(
            Organisation::Explicit {
                registers: 2,
                entries: 2,
            },
            2,
        );
        assert_eq!(file.primary(2, 0), Err(Rule::RegisterRange));
        file.place(1, 1, 0, 'a');
        assert_eq!(file.primary(1, 0), Err(Rule::RegisterBusy));
        assert_eq!(file.merge(0, 1, 0, 0), Err(Rule::WrongRegister));
        file.place(1, 1, 0, 'b');
        assert_eq!(file.merge(1, 1, 0, 1), Err(Rule::MergeFull));
        assert!(!file.has_room(Some(1), 0, 1) && file.has_room(None, 0, 1));
        let mut served = String::new();
        file.release(1, |target| served.push(target));
        assert_eq!((served.as_str(), file.free), ("ab", 2));
    }
}
