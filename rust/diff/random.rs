// Random pools and sequences of calls on them. A sequence is made whole before it runs, so a run is given by its seed and any part of it can be run again.
use crate::model::{size, Handle, Map, Modify, FLAG_SET};

// One sequence in so many has a pool of 4,096 tables.
const LARGE: u64 = 4000;

pub struct Random(u64);

impl Random {
    pub fn new(seed: u64) -> Random {
        Random(seed.wrapping_mul(0x9E37_79B9_7F4A_7C15) | 1)
    }

    // xorshift64*
    pub fn next(&mut self) -> u64 {
        self.0 ^= self.0 >> 12;
        self.0 ^= self.0 << 25;
        self.0 ^= self.0 >> 27;
        self.0.wrapping_mul(0x2545_F491_4F6C_DD1D)
    }

    pub fn below(&mut self, bound: u64) -> u64 {
        (self.next() >> 8) % bound
    }

    fn between(&mut self, low: u64, high: u64) -> u64 {
        low + self.below(high - low + 1)
    }

    fn one_in(&mut self, turns: u64) -> bool {
        self.below(turns) == 0
    }

    fn pick<T: Copy>(&mut self, from: &[T]) -> T {
        from[self.below(from.len() as u64) as usize]
    }
}

// How long a lent list is, beside what is needed.
#[derive(Clone, Copy, Debug)]
pub enum Room {
    Plenty,
    Exact,
    Short,
    Empty,
}

impl Room {
    pub fn length(self, needed: u64) -> u64 {
        match self {
            Room::Plenty => needed + 5,
            Room::Exact => needed,
            Room::Short => needed.saturating_sub(1),
            Room::Empty => 0,
        }
    }
}

#[derive(Clone, Copy, Debug)]
pub enum Call {
    Map(Map),
    LookUp(u64),
    List(u64, u64, Room),
    Modify(Modify, Room),
    Compact,
    // A table's number, and the length of the page.
    Image(u64, usize),
    Check,
    Make,
    // Not a call: a word is written by another hand at an address, with a frame and flags.
    Plant(u64, u64, u64),
}

// What befalls a copy of the pool before a call on that copy.
#[derive(Clone, Copy, Debug)]
pub enum Damage {
    // Bits of a word are flipped, by choice of one that refers to a table, if there is one.
    Word { link: bool, place: u64, flip: u64 },
    // Bits of a ledger number are flipped.
    Number { place: u64, flip: u32 },
    // Words and ledger numbers are left out at the end, or added to it.
    Lengths { words: i64, numbers: i64 },
    // The handle is another.
    Handle(Handle),
}

pub type Step = (Call, Vec<Damage>);

#[derive(Clone, Debug)]
pub struct Sequence {
    pub n: usize,
    pub handle: Handle,
    pub steps: Vec<Step>,
}

struct Maker<'a> {
    random: &'a mut Random,
    n: u64,
    handle: Handle,
    // Offsets in the span, near which most regions lie, so that they meet.
    spots: Vec<u64>,
    // Starts, frames and flags of earlier maps.
    earlier: Vec<(u64, u64, u64)>,
}

impl Maker<'_> {
    fn level(&mut self) -> u64 {
        self.random.between(self.handle.level, 3)
    }

    // An address of the span, given its distance from the span's start.
    fn address(&self, offset: u64) -> u64 {
        let span = self.handle.span();
        if self.handle.upper() { 0u64.wrapping_sub(span).wrapping_add(offset % span) } else { offset % span }
    }

    fn spot(&mut self) -> u64 {
        let near = self.spots[self.random.below(self.spots.len() as u64) as usize];
        let step = size(self.level());
        near.wrapping_add(step.wrapping_mul(self.random.below(5))).wrapping_sub(step.wrapping_mul(self.random.below(3)))
    }

    fn length(&mut self, start: u64) -> u64 {
        let block = size(self.level());
        match self.random.below(40) {
            0..=9 => 4096,
            10..=15 => 4096 * self.random.between(1, 16),
            16..=25 => block,
            26..=29 => block * self.random.between(1, 3),
            30..=33 => block - start % block,
            34..=37 => self.random.below(2 * block),
            38 => self.spot() % self.handle.span(),
            _ if self.random.one_in(10) => self.handle.span(),
            _ => 0,
        }
    }

    // Start and end as a caller may give them.
    fn region(&mut self) -> (u64, u64) {
        let spot = self.spot();
        let offset = if self.random.one_in(2) { spot - spot % size(self.level()) } else { spot - spot % 4096 } % self.handle.span();
        let (mut start, mut end) = (self.address(offset), self.address(offset).wrapping_add(self.length(offset)));
        let last = 0u64.wrapping_sub(4096);
        if !self.handle.upper() {
            end = end.min(self.handle.span());
        } else if end < start || end > last {
            end = last;
        }
        if self.random.one_in(4) {
            start = start.wrapping_add(self.random.below(4096));
            end = end.wrapping_sub(self.random.below(4096));
        }
        match self.random.below(200) {
            0 => (start, self.random.pick(&[0, 1, last, last + 1, !0])),
            1 => (end, start),
            2 => (self.random.next(), self.random.next()),
            3 => (start, self.address(0).wrapping_add(self.handle.span()).wrapping_add(4096 * self.random.below(2))),
            4 => (self.address(0).wrapping_sub(self.random.below(8192)), end),
            _ => (start, end),
        }
    }

    fn flags(&mut self) -> u64 {
        match self.random.below(50) {
            0..=19 => 0x401,
            20..=29 => 0x481,
            30..=35 => 0x0040_0000_0000_0701,
            36..=39 => self.random.next() & FLAG_SET | 1,
            40..=46 => 0,
            47 => 1 << 55,
            48 => self.random.next() & FLAG_SET & !1,
            _ if self.random.one_in(3) => self.random.next() & (FLAG_SET | 2),
            _ if self.random.one_in(3) => 0x401 | 1 << self.random.below(64),
            _ => 0x400,
        }
    }

    fn frame(&mut self, start: u64) -> u64 {
        let block = size(self.level());
        match self.random.below(60) {
            0..=19 => start % (1 << 47),
            20..=34 => (start % self.handle.span()).wrapping_add(size(1).wrapping_mul(self.random.below(64))) % (1 << 47),
            35..=44 => self.random.next() % (1 << 47) / block * block,
            45..=49 => self.random.next() % (1 << 48) / 4096 * 4096,
            50..=57 => 0,
            58 => self.random.pick(&[1 << 48, (1 << 48) - 4096, (1 << 48) - size(1), 0x1234, !0, !4095]),
            _ => 4096,
        }
    }

    // Whole entries around an earlier map are taken off: rule 4, where there is a table.
    fn unmap(&mut self, near: u64) -> Map {
        let entry = size(self.random.between(self.handle.level, 2));
        let start = near / entry * entry;
        let end = start.wrapping_add(entry * self.random.between(1, 2));
        let flags = self.random.pick(&[0, 0, 0x400, 1 << 55]);
        Map { start, end, frame: self.random.pick(&[0, start % (1 << 47), 4096]), flags, constraints: 0 }
    }

    fn map(&mut self) -> Map {
        if self.handle.level < 3 && !self.earlier.is_empty() && self.random.one_in(10) {
            let (near, ..) = self.earlier[self.random.below(self.earlier.len() as u64) as usize];
            return self.unmap(near);
        }
        let (start, mut end) = self.region();
        let rounded = start / 4096 * 4096;
        let constraints = self.random.pick(&[0, 0, 0, 0, 0, 0, 1, 1, 2, 3]);
        let (mut frame, mut flags) = (self.frame(rounded), self.flags());
        // What an earlier map says of these pages, or says with other flags.
        if !self.earlier.is_empty() && self.random.one_in(3) {
            let (from, to, with) = self.earlier[self.random.below(self.earlier.len() as u64) as usize];
            frame = to.wrapping_add(rounded.wrapping_sub(from)) % (1 << 48);
            flags = if self.random.one_in(4) { flags } else { with };
        }
        // The model counts the tables of a long region that takes no blocks one by one: few of these.
        let in_blocks = constraints & 1 == 0 && frame.wrapping_sub(rounded) % size(2) == 0;
        if !in_blocks && end.wrapping_sub(start) > size(1) * 32 && !self.random.one_in(100) {
            end = start.wrapping_add(end.wrapping_sub(start) % (2 * size(1)));
        }
        self.earlier.push((rounded, frame, flags));
        Map { start, end, frame, flags, constraints }
    }

    fn modify(&mut self) -> Modify {
        let (start, end) = self.region();
        let mut bits = || match self.random.below(12) {
            0..=3 => 0x80,
            4..=5 => 0x400,
            6 => 0x300,
            7 => 0,
            8 => 1,
            9 => 1 << 55 | 1 << 54,
            10 => self.random.next() & self.random.next() & FLAG_SET,
            _ => 1 << self.random.below(64),
        };
        let (mut set, mut clear) = (bits(), bits());
        if !self.random.one_in(20) {
            set &= !1;
            clear &= !set;
        }
        Modify { start, end, set, clear, live: self.random.one_in(3) }
    }

    fn room(&mut self) -> Room {
        self.random.pick(&[Room::Plenty, Room::Plenty, Room::Exact, Room::Exact, Room::Short, Room::Empty])
    }

    fn plant(&mut self) -> Call {
        let spot = self.spot();
        let frame = self.frame(self.address(spot));
        // Half of them in the last entry of each level.
        let address = if self.random.one_in(2) { self.address(self.handle.span() - 1) } else { self.address(spot) };
        Call::Plant(address, frame, self.flags())
    }

    fn damage(&mut self) -> Damage {
        let flip = self.random.pick(&[1, 2, 3, 1 << 2, 1 << 3, 1 << 11, 1 << 12, 1 << 16, 1 << 20, 1 << 21, 1 << 29, 1 << 30, 1 << 31, 1 << 47, 1 << 48, 1 << 63]);
        let place = self.random.next();
        match self.random.below(12) {
            0..=5 => Damage::Word { link: self.random.one_in(2), place, flip },
            6..=8 => Damage::Number { place, flip: flip as u32 | (flip >> 32) as u32 },
            9..=10 => {
                let tables = self.random.pick(&[0, 0, 1, -1, 2, -2, -64]);
                let astray = self.random.pick(&[0, 0, 1, -1, 512, -512]);
                Damage::Lengths { words: 512 * tables + astray, numbers: tables }
            }
            _ => {
                let Handle { base, level, range } = self.handle;
                let high = 1 << 32;
                Damage::Handle(match self.random.below(3) {
                    0 => Handle { base: self.random.pick(&[base ^ 1, base ^ 0x800, base ^ 0x1000, (1 << 48) - 4096, 1 << 48, 0u64.wrapping_sub(4096), !0]), level, range },
                    1 => Handle { base, level: self.random.pick(&[level ^ 1, level ^ 2, 4, level + 4, level + 256, level + high, !0]), range },
                    _ => Handle { base, level, range: self.random.pick(&[1 - range, 2, range + 256, range + high, !0]) },
                })
            }
        }
    }

    fn image(&mut self) -> Call {
        let table = if self.random.one_in(10) { self.random.pick(&[self.n, self.n + 1, 1 << 32, !0]) } else { self.random.below(self.n) };
        Call::Image(table, self.random.pick(&[4096, 4096, 4096, 4096, 0, 8, 4095, 4097]))
    }

    fn step(&mut self, edits: bool) -> Step {
        if self.random.one_in(24) {
            return (self.plant(), vec![]);
        }
        let damaged = self.random.one_in(16);
        let call = match self.random.below(if edits { 85 } else { 65 }) {
            0..=35 => Call::Map(self.map()),
            36..=53 => {
                let spot = self.spot();
                let inside = self.address(spot).wrapping_add(self.random.below(4096));
                Call::LookUp(if self.random.one_in(20) { self.random.next() } else { inside })
            }
            54..=60 => {
                let (start, end) = self.region();
                Call::List(start, end, self.room())
            }
            61..=62 => self.image(),
            63 => Call::Check,
            64 if damaged => Call::Make,
            64 => Call::Check,
            65..=78 => Call::Modify(self.modify(), self.room()),
            _ => Call::Compact,
        };
        let damages = if damaged { self.random.pick(&[1, 1, 1, 2]) } else { 0 };
        (call, (0..damages).map(|_| self.damage()).collect())
    }
}

pub fn sequence(random: &mut Random, edits: bool) -> Sequence {
    let large = random.one_in(LARGE);
    let n = match random.below(16) {
        _ if large => 4096,
        0..=1 => random.between(1, 2),
        2..=9 => random.between(3, 12),
        10..=14 => random.between(13, 32),
        _ => random.between(33, 64),
    };
    let highest = (1 << 48) - 4096 * n;
    let base = match random.below(8) {
        0 => 0,
        1 => highest,
        2 => random.below(highest / 4096) * 4096,
        _ => 0x8000_0000,
    };
    let handle = Handle { base, level: random.below(4), range: random.below(2) };
    let mut spots = vec![0, handle.span() - 4096 * random.below(4), handle.span() - size(3u64.min(handle.level + 1))];
    for _ in 0..3 {
        let level = random.between(handle.level, 3);
        spots.push(random.next() % handle.span() / size(level) * size(level));
    }
    let length = random.between(1, if large { 16 } else { 40 });
    let mut maker = Maker { random, n, handle, spots, earlier: vec![] };
    let steps = (0..length).map(|_| maker.step(edits)).collect();
    Sequence { n: n as usize, handle, steps }
}
