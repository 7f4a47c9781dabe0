//! The hierarchy that a configuration describes.

/// How the registers of a level hold their targets.
#[derive(Clone, Copy, PartialEq, Eq, Debug)]
pub enum Organisation {
    /// A field for each position.
    Implicit { registers: u32 },
    /// So many targets of any position.
    Explicit { registers: u32, entries: u32 },
    /// A register for each destination, with one target.
    Inverted,
}

/// One level of a bank.
#[derive(Clone, Copy, PartialEq, Eq, Debug)]
pub struct Level {
    pub sets: u32,
    /// The lines of a set.
    pub ways: u32,
    pub organisation: Organisation,
}

/// The numbers of the hierarchy.
#[derive(Clone, Copy, PartialEq, Eq, Debug)]
pub struct Shape {
    pub ports: u32,
    pub banks: u32,
    /// The bytes of a first-level block: 8, 16, 32 or 64.
    pub block: u32,
    /// The tags of each port.
    pub tags: u32,
    pub level1: Level,
    pub level2: Level,
    /// The first-level blocks of a second-level block: 1, 2 or 4.
    pub factor: u32,
}

impl Shape {
    /// The set of a first-level block in level one of its bank.
    pub fn set1(&self, block: u32) -> usize {
        let second = block / self.factor;
        let row = u64::from(second / self.banks) * u64::from(self.factor) + u64::from(block % self.factor);
        (row % u64::from(self.level1.sets)) as usize
    }

    /// The set of a second-level block in level two of its bank.
    pub fn set2(&self, second: u32) -> usize {
        (second / self.banks % self.level2.sets) as usize
    }

    /// How many pairs of a port and a tag there are: at most 1,024.
    pub fn destinations(&self) -> u32 {
        self.ports * self.tags
    }

    /// The destination of a port and one of its tags.
    pub fn destination(&self, port: u8, tag: u8) -> u16 {
        (u32::from(port) * self.tags + u32::from(tag)) as u16
    }

    /// The level-one registers of a bank.
    pub fn registers1(&self) -> u32 {
        self.level1.organisation.registers(self.destinations())
    }

    /// The level-two registers of a bank. A destination of level two is a register of level one.
    pub fn registers2(&self) -> u32 {
        self.level2.organisation.registers(self.registers1())
    }
}

impl Organisation {
    fn registers(self, destinations: u32) -> u32 {
        match self {
            Organisation::Implicit { registers } | Organisation::Explicit { registers, .. } => registers,
            Organisation::Inverted => destinations,
        }
    }
}
