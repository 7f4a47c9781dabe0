//! One bank of both levels: what it knows of its blocks, and the rules that its events may break.

use crate::answer::{need, Rule};
use crate::bytes::{agree_outside, agree_under};
use crate::input::value;
use crate::record::{Event, Record, Request};
use crate::registers::RegisterFile;
use crate::shape::Shape;
use crate::trace::Memory;
use std::collections::{HashMap, VecDeque};
use std::hash::{BuildHasherDefault, Hasher};
use std::rc::Rc;

/// A fast hash of block numbers. Numbers that are chosen to have one hash would only make it slow.
#[derive(Default)]
struct BlockHasher {
    state: u64,
}

impl Hasher for BlockHasher {
    fn finish(&self) -> u64 {
        self.state
    }

    fn write(&mut self, bytes: &[u8]) {
        bytes
            .iter()
            .for_each(|&byte| self.write_u32(u32::from(byte) ^ self.state as u32));
    }

    fn write_u32(&mut self, number: u32) {
        let mixed = u64::from(number).wrapping_mul(0x9e37_79b9_7f4a_7c15);
        self.state = mixed ^ (mixed >> 32);
    }
}

/// How far a missed block is on its way to level one.
#[derive(Clone, Copy, PartialEq, Eq)]
enum Fetch {
    /// Level one asked for it.
    Asked,
    /// It is in a level-two register.
    Missed,
    /// Level two supplied it.
    Supplied,
}

/// What level one has of a block. The register is that of the block's primary miss.
#[derive(Clone, Copy, PartialEq, Eq)]
enum State {
    Absent,
    InFlight { register: u16, fetch: Fetch },
    Present,
}

impl State {
    /// Level two supplies a block that it fetched.
    fn supply(&mut self) {
        if let State::InFlight { fetch, .. } = self {
            *fetch = Fetch::Supplied;
        }
    }
}

/// A first-level block.
#[derive(Clone, Copy)]
struct Block {
    state: State,
    /// The bytes that stores wrote: the dirty mask of its line, or the bytes of its waiting stores.
    written: u64,
    /// Its dirty mask in the line of level two.
    dirty: u64,
}

/// What level two has of a second-level block. The register is that of its primary miss.
#[derive(Clone, Copy, PartialEq, Eq)]
enum SecondState {
    Absent,
    InFlight { register: u16 },
    Present,
}

/// The data of a reply. Those of a store's reply have the size 0.
#[derive(Clone, Copy)]
struct Reply {
    size: u8,
    value: u64,
}

/// A request in a level-one register, and the reply that it gets.
struct Target {
    destination: u16,
    reply: Reply,
}

/// The state of a bank. A cell is the place of a first-level block in `blocks` and `memory`. The cells of a
/// second-level block follow one another, and a cell shifted by `factor_shift` is its place in `seconds`.
pub struct Bank {
    shape: Shape,
    /// The binary logarithm of the blocks of a second-level block.
    factor_shift: u32,
    /// The bytes of a block.
    length: usize,
    initial: Rc<Memory>,
    /// The place in `seconds` of each second-level block that had a primary miss.
    places: HashMap<u32, u32, BuildHasherDefault<BlockHasher>>,
    seconds: Vec<SecondState>,
    blocks: Vec<Block>,
    /// The bytes of all blocks, cell by cell.
    memory: Vec<u8>,
    /// The requests of each port in the order of their issues.
    queues: Vec<VecDeque<Request>>,
    /// The replies that each destination may get, in order.
    ready: Vec<VecDeque<Reply>>,
    registers1: RegisterFile<Target>,
    /// The targets are the cells that level one asked for.
    registers2: RegisterFile<usize>,
    /// How many lines each set has.
    lines1: Vec<u32>,
    lines2: Vec<u32>,
}

impl Bank {
    /// A bank whose caches are empty, over a memory at first.
    pub fn new(shape: &Shape, initial: Rc<Memory>) -> Bank {
        Bank {
            shape: *shape,
            factor_shift: shape.factor.trailing_zeros(),
            length: shape.block as usize,
            initial,
            places: HashMap::default(),
            seconds: Vec::new(),
            blocks: Vec::new(),
            memory: Vec::new(),
            queues: vec![VecDeque::new(); shape.ports as usize],
            ready: vec![VecDeque::new(); shape.destinations() as usize],
            registers1: RegisterFile::new(shape.level1.organisation, shape.registers1()),
            registers2: RegisterFile::new(shape.level2.organisation, shape.registers2()),
            lines1: vec![0; shape.level1.sets as usize],
            lines2: vec![0; shape.level2.sets as usize],
        }
    }

    /// Judges the bank's next event and takes it, or gives the first rule that it breaks and changes nothing.
    #[inline(always)]
    pub fn step(&mut self, record: &Record<'_>) -> Result<(), Rule> {
        match record.event {
            Event::Issue(request) => self.issue(record.log, request),
            Event::Reply { tag, size, value } => self.reply(record.log, tag, Reply { size, value }),
            Event::Hit { port, tag } => self.hit(port, tag),
            Event::Primary { port, tag, register } => self.primary(port, tag, register),
            Event::Merge { port, tag, register } => self.merge(port, tag, register),
            Event::Stall { port, tag } => self.stall(port, tag),
            Event::Fill1 { block, data } => self.fill1(block, data),
            Event::Evict1 { block, mask, data } => self.evict1(block, mask, data),
            Event::SecondHit { block } => self.second_hit(block),
            Event::SecondPrimary { block, register } => self.second_primary(block, register),
            Event::SecondMerge { block, register } => self.second_merge(block, register),
            Event::SecondStall { block } => self.second_stall(block),
            Event::Fill2 { block, data } => self.fill2(block, data),
            Event::Evict2 { block, masks, data } => self.evict2(block, masks, data),
            Event::Fence => Ok(()),
        }
    }

    /// The place of a second-level block that had a primary miss.
    fn find_second(&self, second: u32) -> Option<usize> {
        self.places.get(&second).map(|&place| place as usize)
    }

    /// The cell of a block, if its second-level block had a primary miss.
    fn find(&self, block: u32) -> Option<usize> {
        self.find_second(block >> self.factor_shift)
            .map(|place| self.cell_at(place, block))
    }

    fn cell_at(&self, place: usize, block: u32) -> usize {
        (place << self.factor_shift) + (block & (self.shape.factor - 1)) as usize
    }

    /// The cell of a block, which is there from now on.
    fn find_or_add(&mut self, block: u32) -> usize {
        let second = block >> self.factor_shift;
        let fresh = self.seconds.len() as u32;
        let place = *self.places.entry(second).or_insert(fresh);
        if place == fresh {
            self.add(second);
        }
        self.cell_at(place as usize, block)
    }

    fn add(&mut self, second: u32) {
        self.seconds.push(SecondState::Absent);
        for index in 0..self.shape.factor {
            self.blocks.push(Block {
                state: State::Absent,
                written: 0,
                dirty: 0,
            });
            let block = (second << self.factor_shift) + index;
            match self.initial.find(block) {
                Some(bytes) => self.memory.extend_from_slice(bytes),
                None => self.memory.resize(self.memory.len() + self.length, 0),
            }
        }
    }

    fn data(&self, cell: usize) -> &[u8] {
        &self.memory[cell * self.length..][..self.length]
    }

    /// The oldest request of a port, if it has the tag.
    fn head(&self, port: u8, tag: u8) -> Result<Request, Rule> {
        let head = self.queues.get(usize::from(port)).and_then(VecDeque::front);
        head.filter(|request| request.tag == tag).copied().ok_or(Rule::NotHead)
    }

    /// Takes the oldest request of a port off its queue. It takes effect now: a store writes, a load reads.
    fn accept(&mut self, port: u8, request: &Request, cell: usize) -> Reply {
        self.queues[usize::from(port)].pop_front();
        let start = cell * self.length + usize::from(request.offset);
        let bytes = &mut self.memory[start..][..usize::from(request.size)];
        if request.store {
            bytes.copy_from_slice(&request.value.to_le_bytes()[..usize::from(request.size)]);
            self.blocks[cell].written |= request.mask();
            Reply { size: 0, value: 0 }
        } else {
            Reply {
                size: request.size,
                value: value(bytes),
            }
        }
    }

    fn issue(&mut self, port: u8, request: Request) -> Result<(), Rule> {
        need(u32::from(request.tag) < self.shape.tags, Rule::TagRange)?;
        self.queues[usize::from(port)].push_back(request);
        Ok(())
    }

    fn reply(&mut self, port: u8, tag: u8, reply: Reply) -> Result<(), Rule> {
        need(u32::from(tag) < self.shape.tags, Rule::NotReady)?;
        let ready = &mut self.ready[usize::from(self.shape.destination(port, tag))];
        let first = ready.front().ok_or(Rule::NotReady)?;
        need(first.size == reply.size, Rule::ReplySize)?;
        need(first.value == reply.value, Rule::ReplyData)?;
        ready.pop_front();
        Ok(())
    }

    fn hit(&mut self, port: u8, tag: u8) -> Result<(), Rule> {
        let request = self.head(port, tag)?;
        let cell = self.find(request.block).ok_or(Rule::NotPresent)?;
        need(self.blocks[cell].state == State::Present, Rule::NotPresent)?;
        let reply = self.accept(port, &request, cell);
        self.ready[usize::from(self.shape.destination(port, tag))].push_back(reply);
        Ok(())
    }

    fn primary(&mut self, port: u8, tag: u8, register: u16) -> Result<(), Rule> {
        let request = self.head(port, tag)?;
        let cell = self.find_or_add(request.block);
        let state = self.blocks[cell].state;
        need(state != State::Present, Rule::Present)?;
        need(state == State::Absent, Rule::PrimaryInFlight)?;
        let destination = self.shape.destination(port, tag);
        self.registers1.primary(register, destination)?;
        let reply = self.accept(port, &request, cell);
        self.registers1
            .place(register, register, request.position(), Target { destination, reply });
        self.blocks[cell].state = State::InFlight {
            register,
            fetch: Fetch::Asked,
        };
        Ok(())
    }

    fn merge(&mut self, port: u8, tag: u8, register: u16) -> Result<(), Rule> {
        let request = self.head(port, tag)?;
        let cell = self.find(request.block).ok_or(Rule::NotInFlight)?;
        let State::InFlight { register: primary, .. } = self.blocks[cell].state else {
            return Err(Rule::NotInFlight);
        };
        let destination = self.shape.destination(port, tag);
        self.registers1
            .merge(register, primary, destination, request.position())?;
        let reply = self.accept(port, &request, cell);
        self.registers1
            .place(primary, register, request.position(), Target { destination, reply });
        Ok(())
    }

    fn stall(&mut self, port: u8, tag: u8) -> Result<(), Rule> {
        let request = self.head(port, tag)?;
        let state = self
            .find(request.block)
            .map_or(State::Absent, |cell| self.blocks[cell].state);
        let primary = match state {
            State::Absent => None,
            State::InFlight { register, .. } => Some(register),
            State::Present => return Err(Rule::Present),
        };
        let has_room = self
            .registers1
            .has_room(primary, self.shape.destination(port, tag), request.position());
        need(!has_room, Rule::NeedlessStall)
    }

    fn fill1(&mut self, block: u32, data: &[u8]) -> Result<(), Rule> {
        let cell = self.find(block).ok_or(Rule::NotSupplied)?;
        let Block { state, written, .. } = self.blocks[cell];
        let State::InFlight {
            register,
            fetch: Fetch::Supplied,
        } = state
        else {
            return Err(Rule::NotSupplied);
        };
        let set = self.shape.set1(block);
        need(self.lines1[set] < self.shape.level1.ways, Rule::SetFull)?;
        need(agree_outside(written, data, self.data(cell)), Rule::FillData)?;
        self.lines1[set] += 1;
        self.blocks[cell].state = State::Present;
        let ready = &mut self.ready;
        self.registers1.release(register, |target| {
            ready[usize::from(target.destination)].push_back(target.reply)
        });
        Ok(())
    }

    fn evict1(&mut self, block: u32, mask: u64, data: &[u8]) -> Result<(), Rule> {
        let cell = self.find(block).ok_or(Rule::EvictAbsent)?;
        let Block { state, written, dirty } = self.blocks[cell];
        need(state == State::Present, Rule::EvictAbsent)?;
        need(mask == written, Rule::EvictMask)?;
        need(agree_under(mask, data, self.data(cell)), Rule::EvictData)?;
        self.lines1[self.shape.set1(block)] -= 1;
        self.blocks[cell] = Block {
            state: State::Absent,
            written: 0,
            dirty: dirty | mask,
        };
        Ok(())
    }

    /// The cell of a block that level one asked for, its register, and what level two has of it.
    fn asked(&self, block: u32) -> Result<(usize, u16, SecondState), Rule> {
        let cell = self.find(block).ok_or(Rule::NotAsked)?;
        match self.blocks[cell].state {
            State::InFlight {
                register,
                fetch: Fetch::Asked,
            } => Ok((cell, register, self.seconds[cell >> self.factor_shift])),
            _ => Err(Rule::NotAsked),
        }
    }

    /// The place of a block in its second-level block.
    fn position2(&self, block: u32) -> u8 {
        (block & (self.shape.factor - 1)) as u8
    }

    fn second_hit(&mut self, block: u32) -> Result<(), Rule> {
        let (cell, register, second) = self.asked(block)?;
        need(second == SecondState::Present, Rule::SecondAbsent)?;
        self.blocks[cell].state = State::InFlight {
            register,
            fetch: Fetch::Supplied,
        };
        Ok(())
    }

    fn second_primary(&mut self, block: u32, register: u16) -> Result<(), Rule> {
        let (cell, destination, second) = self.asked(block)?;
        need(second != SecondState::Present, Rule::SecondPresent)?;
        need(second == SecondState::Absent, Rule::PrimaryInFlight)?;
        self.registers2.primary(register, destination)?;
        self.registers2.place(register, register, self.position2(block), cell);
        self.seconds[cell >> self.factor_shift] = SecondState::InFlight { register };
        self.blocks[cell].state = State::InFlight {
            register: destination,
            fetch: Fetch::Missed,
        };
        Ok(())
    }

    fn second_merge(&mut self, block: u32, register: u16) -> Result<(), Rule> {
        let (cell, destination, second) = self.asked(block)?;
        let primary = match second {
            SecondState::Absent => return Err(Rule::NotInFlight),
            SecondState::InFlight { register } => register,
            SecondState::Present => return Err(Rule::SecondPresent),
        };
        self.registers2
            .merge(register, primary, destination, self.position2(block))?;
        self.registers2.place(primary, register, self.position2(block), cell);
        self.blocks[cell].state = State::InFlight {
            register: destination,
            fetch: Fetch::Missed,
        };
        Ok(())
    }

    fn second_stall(&mut self, block: u32) -> Result<(), Rule> {
        let (_, destination, second) = self.asked(block)?;
        let primary = match second {
            SecondState::Absent => None,
            SecondState::InFlight { register } => Some(register),
            SecondState::Present => return Err(Rule::SecondPresent),
        };
        let has_room = self.registers2.has_room(primary, destination, self.position2(block));
        need(!has_room, Rule::NeedlessStall)
    }

    fn fill2(&mut self, second: u32, data: &[u8]) -> Result<(), Rule> {
        let place = self.find_second(second).ok_or(Rule::NotFetched)?;
        let SecondState::InFlight { register } = self.seconds[place] else {
            return Err(Rule::NotFetched);
        };
        let set = self.shape.set2(second);
        need(self.lines2[set] < self.shape.level2.ways, Rule::SetFull)?;
        let first = place << self.factor_shift;
        let mut cells = (first..).zip(data.chunks_exact(self.length));
        let agree = cells.all(|(cell, sent)| agree_outside(self.blocks[cell].written, sent, self.data(cell)));
        need(agree, Rule::FillData)?;
        self.lines2[set] += 1;
        self.seconds[place] = SecondState::Present;
        let fetched = &mut self.blocks[first..][..self.shape.factor as usize];
        fetched.iter_mut().for_each(|block| block.dirty = 0);
        let blocks = &mut self.blocks;
        self.registers2.release(register, |cell| blocks[cell].state.supply());
        Ok(())
    }

    fn evict2(&mut self, second: u32, masks: &[u8], data: &[u8]) -> Result<(), Rule> {
        let place = self.find_second(second).ok_or(Rule::EvictAbsent)?;
        need(self.seconds[place] == SecondState::Present, Rule::EvictAbsent)?;
        let first = place << self.factor_shift;
        let blocks = &self.blocks[first..][..self.shape.factor as usize];
        need(blocks.iter().all(|block| block.state == State::Absent), Rule::Inclusion)?;
        let mut pairs = blocks.iter().zip(masks.chunks_exact(8));
        need(pairs.all(|(block, mask)| block.dirty == value(mask)), Rule::EvictMask)?;
        let mut rest = data;
        let agree = (first..).zip(blocks).all(|(cell, block)| {
            let (sent, after) = rest.split_at(block.dirty.count_ones() as usize);
            rest = after;
            agree_under(block.dirty, sent, self.data(cell))
        });
        need(agree, Rule::EvictData)?;
        self.lines2[self.shape.set2(second)] -= 1;
        self.seconds[place] = SecondState::Absent;
        Ok(())
    }
}
