// Document 01 once more, in plain Rust: pool, ledger, soundness, slip, map, modify, compact, list and walk by their rules, by recursion and without haste. It
// shares nothing with ptb and nothing with the published crate. Addresses are 64-bit numbers; a chunk is its first and its last address, so nothing wraps.
pub const SLOTS: usize = 512;
pub const UNTOUCHED: [u64; 4] = [!0; 4];
const PAGE: u64 = 4096;
// Tables of a pool.
const MOST: u64 = 4096;
const ADDRESS: u64 = (1 << 48) - PAGE;
const VALID: u64 = 1;
const BIT_1: u64 = 2;
// Bits 0, 2 to 11, 50 to 63.
pub const FLAG_SET: u64 = 0xFFFC_0000_0000_0FFD;
// What a live edit of a valid entry may change, bit 0 apart.
const HOUSE_RULE: u64 = 1 << 7 | 1 << 10 | 1 << 11 | 1 << 51 | 1 << 53 | 1 << 54 | 0xF << 55;

// As a caller may give it: any numbers. 0 is the lower range, 1 the upper.
#[derive(Clone, Copy, Debug)]
pub struct Handle {
    pub base: u64,
    pub level: u64,
    pub range: u64,
}

impl Handle {
    pub fn upper(&self) -> bool {
        self.range == 1
    }

    // Of a level from 0 to 3.
    pub fn span(&self) -> u64 {
        size(self.level) * SLOTS as u64
    }
}

// A refusal's number (0: accepted) and what stands in `answer` afterwards.
pub type Answer = (u64, [u64; 4]);

pub fn answer(number: u64, values: &[u64]) -> Answer {
    let mut all = UNTOUCHED;
    all[..values.len()].copy_from_slice(values);
    (number, all)
}

pub fn size(level: u64) -> u64 {
    1 << (39 - 9 * level)
}

fn address(word: u64) -> u64 {
    word & ADDRESS
}

fn flags(word: u64) -> u64 {
    word & !ADDRESS
}

fn is_table(level: u64, word: u64) -> bool {
    level < 3 && word % 4 == 3
}

fn is_leaf(level: u64, word: u64) -> bool {
    match level {
        1 | 2 => word % 4 == 1,
        3 => word % 4 == 3,
        _ => false,
    }
}

// The word of slot i after the split of an entry of this level.
fn fill(level: u64, word: u64, i: u64) -> u64 {
    if !is_leaf(level, word) {
        return flags(word);
    }
    let page_bit = if level == 2 { BIT_1 } else { 0 };
    address(word) + i * size(level + 1) + flags(word) + page_bit
}

// The chunks of first..=last at a level, each with its distance from the first address.
fn chunks(level: u64, first: u64, last: u64) -> impl Iterator<Item = (u64, u64)> {
    let mut next = Some(first);
    std::iter::from_fn(move || {
        let from = next?;
        let to = last.min(from | (size(level) - 1));
        next = if to == last { None } else { Some(to + 1) };
        Some((from, to))
    })
}

fn slot_of(level: u64, address: u64) -> u64 {
    address / size(level) % SLOTS as u64
}

// A chunk that covers its entry. One that ends at 2^64 never does: no region ends there.
fn is_whole(level: u64, from: u64, to: u64) -> bool {
    from % size(level) == 0 && to != u64::MAX && (to + 1) % size(level) == 0
}

// The place of a slot among the words.
fn at(table: usize, slot: u64) -> usize {
    SLOTS * table + slot as usize
}

#[derive(Clone, Copy, Debug)]
pub struct Map {
    pub start: u64,
    pub end: u64,
    pub frame: u64,
    pub flags: u64,
    pub constraints: u64,
}

impl Map {
    fn valid(&self) -> bool {
        self.flags & VALID != 0
    }

    // Rule 2.
    fn already(&self, level: u64, word: u64, from: u64, frame: u64) -> bool {
        let offset = from % size(level);
        !is_table(level, word) && flags(word) == self.flags && frame >= offset && frame - offset == address(word)
    }

    // Rule 3.
    fn block(&self, level: u64, word: u64, from: u64, to: u64, frame: u64) -> bool {
        is_whole(level, from, to) && !is_table(level, word) && frame % size(level) == 0 && self.constraints & 1 == 0 && level > 0
    }

    // Rule 4.
    fn unhang(&self, level: u64, word: u64, from: u64, to: u64) -> bool {
        is_whole(level, from, to) && is_table(level, word) && !self.valid()
    }
}

#[derive(Clone, Copy, Debug)]
pub struct Modify {
    pub start: u64,
    pub end: u64,
    pub set: u64,
    pub clear: u64,
    pub live: bool,
}

#[derive(Clone)]
pub struct Pool {
    pub words: Vec<u64>,
    pub ledger: Vec<u32>,
    pub handle: Handle,
    // Whether the last call split an entry that ends at 2^64 and is not zero: there the crate loses the fill.
    pub lost_fill: bool,
    // Not written by any hand but the model's since it was made, so that it need not be looked through again.
    pub trusted: bool,
    pub met: Met,
}

// What accepted calls met, for those who count it, by the level where it was.
#[derive(Clone, Copy, Default)]
pub struct Met {
    // Chunks that the maps put down, by the rule that fits.
    pub chunks: [[u64; 5]; 4],
    // Entries that were split: those with nothing in them, with flags or an address alone, blocks.
    pub splits: [[u64; 3]; 4],
    pub freed: [u64; 4],
    // Words that a modify changed.
    pub changed: [u64; 4],
}

fn round_down(address: u64) -> u64 {
    address / PAGE * PAGE
}

// For 1 <= address <= 2^64 - 4096.
fn round_up(address: u64) -> u64 {
    round_down(address - 1) + PAGE
}

// Refusal 2.
fn bad_end(end: u64) -> Option<Answer> {
    (end == 0 || end > 0u64.wrapping_sub(PAGE)).then(|| answer(2, &[end]))
}

// Refusals 5 and 6.
fn bad_region(handle: Handle, start: u64, end: u64) -> Option<Answer> {
    let (start, end) = (round_down(start), round_up(end));
    if end < start {
        return Some(answer(5, &[start, end]));
    }
    let negative = start >> 63 == 1;
    if handle.upper() {
        return (!negative || 0u64.wrapping_sub(start) > handle.span()).then(|| answer(6, &[start]));
    }
    if negative {
        return Some(answer(6, &[start]));
    }
    (end > handle.span()).then(|| answer(6, &[end]))
}

impl Pool {
    pub fn of(words: Vec<u64>, ledger: Vec<u32>, handle: Handle) -> Pool {
        Pool { words, ledger, handle, lost_fill: false, trusted: false, met: Met::default() }
    }

    pub fn make(n: usize, handle: Handle) -> Pool {
        let mut pool = Pool::of(vec![0; SLOTS * n], vec![0; n], handle);
        assert_eq!(pool.remake().0, 0);
        pool
    }

    // What making does to these words and this ledger.
    pub fn remake(&mut self) -> Answer {
        if !self.has_shape() {
            return answer(1, &[]);
        }
        self.words.fill(0);
        self.ledger.fill(0);
        self.ledger[0] = 4 + self.handle.level as u32;
        self.trusted = true;
        answer(0, &[])
    }

    // What refusal 1 asks of every call's arguments.
    fn has_shape(&self) -> bool {
        let (n, handle) = (self.ledger.len() as u64, self.handle);
        let lengths = 1 <= n && n <= MOST && self.words.len() as u64 == SLOTS as u64 * n;
        let base = handle.base % PAGE == 0 && handle.base as u128 + (PAGE * n) as u128 <= 1 << 48;
        lengths && base && handle.level <= 3 && handle.range <= 1
    }

    pub fn check(&self) -> Answer {
        if !self.has_shape() {
            return answer(1, &[]);
        }
        answer(if self.is_sound() { 0 } else { 8 }, &[])
    }

    // One table's words as bytes, the lowest first.
    pub fn image(&self, table: u64, length: usize) -> (Answer, Vec<u8>) {
        if !self.has_shape() || table >= self.ledger.len() as u64 {
            return (answer(1, &[]), vec![]);
        }
        if length as u64 != PAGE {
            return (answer(11, &[PAGE]), vec![]);
        }
        let words = &self.words[at(table as usize, 0)..at(table as usize + 1, 0)];
        (answer(0, &[]), words.iter().flat_map(|&word| (0..8).map(move |i| (word >> (8 * i)) as u8)).collect())
    }

    pub fn used(&self) -> u64 {
        self.ledger.iter().filter(|&&number| number != 0).count() as u64
    }

    fn free_tables(&self) -> u64 {
        self.ledger.len() as u64 - self.used()
    }

    // The table that a word refers to, where it lies in the pool.
    fn table_of(&self, word: u64) -> Option<usize> {
        let from_base = address(word).checked_sub(self.handle.base)?;
        let k = from_base / PAGE;
        (k < self.ledger.len() as u64).then_some(k as usize)
    }

    // The ledger that the words alone give: which table hangs where.
    pub fn ledger_of_words(&self) -> Result<Vec<u32>, String> {
        let mut ledger = vec![0; self.ledger.len()];
        ledger[0] = 4 + self.handle.level as u32;
        let mut open = vec![(0, self.handle.level)];
        while let Some((table, level)) = open.pop() {
            for slot in 0..SLOTS {
                let word = self.words[SLOTS * table + slot];
                if is_table(level, word) {
                    let below = self.table_of(word).ok_or("a link that leaves the pool")?;
                    if ledger[below] != 0 {
                        return Err("a table that hangs twice".into());
                    }
                    ledger[below] = (4 + level + 1) as u32 + 8 * (SLOTS * table + slot + 1) as u32;
                    open.push((below, level + 1));
                }
            }
        }
        Ok(ledger)
    }

    // "A pool is sound when", sentence by sentence.
    pub fn is_sound(&self) -> bool {
        let n = self.ledger.len();
        let level_of = |k: usize| (self.ledger[k] % 8).checked_sub(4).filter(|&level| level < 4).map(|level| level as u64);
        let place_of = |k: usize| (self.ledger[k] / 8).checked_sub(1).map(|place| place as usize);
        let link = |k: usize| self.handle.base + PAGE * k as u64 + 3;
        if self.ledger[0] as u64 != 4 + self.handle.level {
            return false;
        }
        (0..n).all(|k| {
            let words = &self.words[SLOTS * k..SLOTS * (k + 1)];
            if self.ledger[k] == 0 {
                return words.iter().all(|&word| word == 0);
            }
            let Some(level) = level_of(k) else { return false };
            let hangs = k == 0 || place_of(k).is_some_and(|place| {
                let above = place / SLOTS;
                above < n && self.ledger[above] != 0 && level_of(above).is_some_and(|up| up + 1 == level) && self.words[place] == link(k)
            });
            hangs && words.iter().enumerate().all(|(slot, &word)| {
                if is_table(level, word) {
                    return self.table_of(word).is_some_and(|below| word == link(below) && place_of(below) == Some(SLOTS * k + slot));
                }
                let valid = word & VALID != 0;
                flags(word) & !BIT_1 & !FLAG_SET == 0 && match level {
                    0 => word & BIT_1 == 0 && !valid && address(word) == 0,
                    1 | 2 => word & BIT_1 == 0 && address(word) % size(level) == 0,
                    _ => !valid || word & BIT_1 != 0,
                }
            })
        })
    }

    // A word that no call wrote, where a walk of the address ends: as much of the frame and of the flags as a sound pool allows there.
    pub fn plant(&mut self, va: u64, frame: u64, flags: u64) {
        let (mut table, mut level) = (0, self.handle.level);
        let place = loop {
            let place = at(table, slot_of(level, va));
            let word = self.words[place];
            if !is_table(level, word) {
                break place;
            }
            (table, level) = (self.table_of(word).unwrap(), level + 1);
        };
        let frame = address(frame) / size(level) * size(level);
        self.words[place] = match level {
            0 => flags & FLAG_SET & !VALID,
            1 | 2 => frame + (flags & FLAG_SET),
            _ if flags & VALID != 0 => frame + (flags & FLAG_SET) + BIT_1,
            _ => frame + (flags & (FLAG_SET | BIT_1)),
        };
    }

    // A split of the entry at a place: the lowest free table, filled, then linked.
    fn split(&mut self, place: usize, level: u64, to: u64) -> usize {
        let word = self.words[place];
        self.lost_fill |= word != 0 && to | (size(level) - 1) == u64::MAX;
        self.met.splits[level as usize][if is_leaf(level, word) { 2 } else { (word != 0) as usize }] += 1;
        let k = self.ledger.iter().position(|&number| number == 0).expect("counted before");
        for slot in 0..SLOTS as u64 {
            let inside = at(k, slot);
            self.words[inside] = fill(level, word, slot);
        }
        self.ledger[k] = (4 + level + 1) as u32 + 8 * (place as u32 + 1);
        self.words[place] = self.handle.base + PAGE * k as u64 + 3;
        k
    }

    // Frees a table and all below it.
    fn free(&mut self, table: usize, level: u64) {
        for slot in 0..SLOTS as u64 {
            let word = self.words[at(table, slot)];
            if is_table(level, word) {
                self.free(self.table_of(word).unwrap(), level + 1);
            }
        }
        self.words[SLOTS * table..SLOTS * (table + 1)].fill(0);
        self.ledger[table] = 0;
        self.met.freed[level as usize] += 1;
    }

    // Tables that a map needs below one entry.
    fn map_needs(&self, map: &Map, level: u64, word: u64, from: u64, to: u64, frame: u64) -> u64 {
        if level == 3 || map.already(level, word, from, frame) || map.block(level, word, from, to, frame) || map.unhang(level, word, from, to) {
            return 0;
        }
        let below = if is_table(level, word) { self.table_of(word) } else { None };
        if below.is_none() && level == 2 {
            return 1;
        }
        let inside: u64 = chunks(level + 1, from, to)
            .map(|(first, last)| {
                let slot = slot_of(level + 1, first);
                let child = below.map_or_else(|| fill(level, word, slot), |k| self.words[at(k, slot)]);
                self.map_needs(map, level + 1, child, first, last, frame + (first - from))
            })
            .sum();
        below.is_none() as u64 + inside
    }

    fn put(&mut self, map: &Map, table: usize, level: u64, from: u64, to: u64, frame: u64) {
        for (first, last) in chunks(level, from, to) {
            let frame = frame + (first - from);
            let place = at(table, slot_of(level, first));
            let word = self.words[place];
            if level == 3 {
                self.met.chunks[level as usize][0] += 1;
                self.words[place] = if map.valid() { frame + map.flags + BIT_1 } else { map.flags };
            } else if map.already(level, word, first, frame) {
                self.met.chunks[level as usize][1] += 1;
            } else if map.block(level, word, first, last, frame) {
                self.met.chunks[level as usize][2] += 1;
                self.words[place] = if map.valid() { frame + map.flags } else { map.flags };
            } else if map.unhang(level, word, first, last) {
                self.met.chunks[level as usize][3] += 1;
                let below = self.table_of(word).unwrap();
                self.words[place] = map.flags;
                self.free(below, level + 1);
            } else {
                self.met.chunks[level as usize][4] += 1;
                let below = if is_table(level, word) { self.table_of(word).unwrap() } else { self.split(place, level, last) };
                self.put(map, below, level + 1, first, last, frame);
            }
        }
    }

    fn map_refusal(&self, map: &Map) -> Option<Answer> {
        if !self.has_shape() {
            return Some(answer(1, &[]));
        }
        if let Some(refusal) = bad_end(map.end) {
            return Some(refusal);
        }
        if map.flags & BIT_1 != 0 {
            return Some(answer(3, &[map.flags]));
        }
        if map.flags & !FLAG_SET != 0 {
            return Some(answer(4, &[map.flags]));
        }
        if let Some(refusal) = bad_region(self.handle, map.start, map.end) {
            return Some(refusal);
        }
        let (start, end) = (round_down(map.start), round_up(map.end));
        if map.frame % PAGE != 0 || map.frame as u128 + (end - start) as u128 > 1 << 48 {
            return Some(answer(7, &[map.frame]));
        }
        if !self.trusted && !self.is_sound() {
            return Some(answer(8, &[]));
        }
        let needed = self.over_root(start, end, |first, last, word| self.map_needs(map, self.handle.level, word, first, last, map.frame + (first - start)));
        (needed > self.free_tables()).then(|| answer(9, &[needed, self.free_tables()]))
    }

    // The sum over the root's chunks.
    fn over_root(&self, start: u64, end: u64, each: impl Fn(u64, u64, u64) -> u64) -> u64 {
        if start == end {
            return 0;
        }
        chunks(self.handle.level, start, end - 1).map(|(first, last)| each(first, last, self.words[slot_of(self.handle.level, first) as usize])).sum()
    }

    pub fn map(&mut self, map: &Map) -> Answer {
        self.lost_fill = false;
        if let Some(refusal) = self.map_refusal(map) {
            return refusal;
        }
        let (start, end) = (round_down(map.start), round_up(map.end));
        if start < end {
            self.put(map, 0, self.handle.level, start, end - 1, map.frame);
        }
        answer(0, &[self.used()])
    }

    fn lines(&self, table: usize, level: u64, from: u64, to: u64, lines: &mut Vec<u64>) {
        for (first, last) in chunks(level, from, to) {
            let word = self.words[at(table, slot_of(level, first))];
            if is_table(level, word) {
                self.lines(self.table_of(word).unwrap(), level + 1, first, last, lines);
            } else {
                lines.extend([first, last + 1, word, level]);
            }
        }
    }

    // The answer, and the lines where the list is long enough. `room` gives a list's length, told the length that is needed.
    pub fn list(&self, start: u64, end: u64, room: impl Fn(u64) -> u64) -> (Answer, Vec<u64>, u64) {
        if !self.has_shape() {
            return (answer(1, &[]), vec![], room(0));
        }
        if let Some(refusal) = bad_end(end).or_else(|| bad_region(self.handle, start, end)) {
            return (refusal, vec![], room(0));
        }
        if !self.trusted && !self.is_sound() {
            return (answer(8, &[]), vec![], room(0));
        }
        let mut lines = vec![];
        let (start, end) = (round_down(start), round_up(end));
        if start < end {
            self.lines(0, self.handle.level, start, end - 1, &mut lines);
        }
        let (needed, room) = (lines.len() as u64, room(lines.len() as u64));
        if room < needed {
            return (answer(11, &[needed]), vec![], room);
        }
        (answer(0, &[needed / 4]), lines, room)
    }

    // What a walk answers of the word that it ends at.
    pub fn meaning(word: u64, level: u64, va: u64) -> Answer {
        let flags = flags(word) & !BIT_1;
        if !is_leaf(level, word) {
            return answer(0, &[0, level, flags, 0]);
        }
        let kind = if level == 3 { 2 } else { 1 };
        let frame = address(word) / size(level) * size(level) + va % size(level) / PAGE * PAGE;
        answer(0, &[kind, level, flags, frame])
    }

    // On any words.
    pub fn look_up(&self, va: u64) -> Answer {
        if !self.has_shape() {
            return answer(1, &[]);
        }
        let span = self.handle.span();
        let inside = if self.handle.upper() { va >= 0u64.wrapping_sub(span) } else { va < span };
        if !inside {
            return answer(6, &[va]);
        }
        let (mut table, mut level) = (0, self.handle.level);
        loop {
            let word = self.words[at(table, slot_of(level, va))];
            if !is_table(level, word) {
                return Self::meaning(word, level, va);
            }
            let Some(below) = self.table_of(word) else { return answer(8, &[]) };
            (table, level) = (below, level + 1);
        }
    }

    // Tables that a modify needs below one entry: it splits whatever it covers in part.
    fn modify_needs(&self, level: u64, word: u64, from: u64, to: u64) -> u64 {
        let below = if is_table(level, word) { self.table_of(word) } else { None };
        if below.is_none() && (level == 3 || is_whole(level, from, to)) {
            return 0;
        }
        let inside: u64 = chunks(level + 1, from, to)
            .map(|(first, last)| {
                let slot = slot_of(level + 1, first);
                let child = below.map_or_else(|| fill(level, word, slot), |k| self.words[at(k, slot)]);
                self.modify_needs(level + 1, child, first, last)
            })
            .sum();
        below.is_none() as u64 + inside
    }

    // The old word of the first valid entry that a live modify may not touch so.
    fn breach(&self, modify: &Modify, table: usize, level: u64, from: u64, to: u64) -> Option<u64> {
        chunks(level, from, to).find_map(|(first, last)| {
            let word = self.words[at(table, slot_of(level, first))];
            if is_table(level, word) {
                return self.breach(modify, self.table_of(word).unwrap(), level + 1, first, last);
            }
            if !is_leaf(level, word) {
                return None;
            }
            let changed = word ^ modify.word(word);
            let allowed = changed & !(HOUSE_RULE | VALID) == 0;
            (level < 3 && !is_whole(level, first, last) || !allowed).then_some(word)
        })
    }

    fn change(&mut self, modify: &Modify, table: usize, level: u64, from: u64, to: u64, list: &mut Vec<u64>) {
        let mut own = vec![];
        for (first, last) in chunks(level, from, to) {
            let place = at(table, slot_of(level, first));
            let word = self.words[place];
            if is_table(level, word) || level < 3 && !is_whole(level, first, last) {
                let below = if is_table(level, word) { self.table_of(word).unwrap() } else { self.split(place, level, last) };
                self.change(modify, below, level + 1, first, last, list);
            } else if is_leaf(level, word) && modify.word(word) != word {
                self.met.changed[level as usize] += 1;
                self.words[place] = modify.word(word);
                own.push(first / PAGE % (1 << 44));
            }
        }
        list.extend(own);
    }

    fn modify_refusal(&self, modify: &Modify) -> Option<Answer> {
        if !self.has_shape() {
            return Some(answer(1, &[]));
        }
        if let Some(refusal) = bad_end(modify.end) {
            return Some(refusal);
        }
        for argument in [modify.set, modify.clear] {
            if argument & BIT_1 != 0 {
                return Some(answer(3, &[argument]));
            }
        }
        if modify.set & !FLAG_SET != 0 || modify.set & VALID != 0 || modify.set & modify.clear != 0 {
            return Some(answer(4, &[modify.set]));
        }
        if modify.clear & !FLAG_SET != 0 {
            return Some(answer(4, &[modify.clear]));
        }
        if let Some(refusal) = bad_region(self.handle, modify.start, modify.end) {
            return Some(refusal);
        }
        if !self.trusted && !self.is_sound() {
            return Some(answer(8, &[]));
        }
        let (start, end) = (round_down(modify.start), round_up(modify.end));
        let needed = self.over_root(start, end, |first, last, word| self.modify_needs(self.handle.level, word, first, last));
        (needed > self.free_tables()).then(|| answer(9, &[needed, self.free_tables()]))
    }

    // The answer, and the page numbers that a live call lists.
    pub fn modify(&mut self, modify: &Modify, room: impl Fn(u64) -> u64) -> (Answer, Vec<u64>, u64) {
        self.lost_fill = false;
        if let Some(refusal) = self.modify_refusal(modify) {
            return (refusal, vec![], room(0));
        }
        let (start, end) = (round_down(modify.start), round_up(modify.end));
        if modify.live && start < end {
            if let Some(word) = self.breach(modify, 0, self.handle.level, start, end - 1) {
                return (answer(10, &[word]), vec![], room(0));
            }
        }
        let (mut after, mut list) = (self.clone(), vec![]);
        if start < end {
            after.change(modify, 0, self.handle.level, start, end - 1, &mut list);
        }
        let (needed, room) = (list.len() as u64, room(list.len() as u64));
        if modify.live && room < needed {
            return (answer(11, &[needed]), vec![], room);
        }
        *self = after;
        if modify.live {
            return (answer(0, &[self.used(), needed]), list, room);
        }
        (answer(0, &[self.used()]), vec![], room)
    }

    // Whether the table is empty afterwards.
    fn squeeze(&mut self, table: usize, level: u64) -> bool {
        for slot in 0..SLOTS as u64 {
            let place = at(table, slot);
            let word = self.words[place];
            if is_table(level, word) {
                let below = self.table_of(word).unwrap();
                if self.squeeze(below, level + 1) {
                    self.words[place] = 0;
                    self.ledger[below] = 0;
                    self.met.freed[level as usize + 1] += 1;
                }
            }
        }
        self.words[SLOTS * table..SLOTS * (table + 1)].iter().all(|&word| word == 0)
    }

    pub fn compact(&mut self) -> Answer {
        self.lost_fill = false;
        if !self.has_shape() {
            return answer(1, &[]);
        }
        if !self.trusted && !self.is_sound() {
            return answer(8, &[]);
        }
        self.squeeze(0, self.handle.level);
        answer(0, &[self.used()])
    }
}

impl Modify {
    fn word(&self, word: u64) -> u64 {
        (word | self.set) & !self.clear
    }
}
