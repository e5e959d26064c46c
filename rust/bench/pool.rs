// A lent pool, and ptb's calls on it by their C names.
#![allow(dead_code)]
#[path = "../ptb/src/names.rs"]
mod names;

use names::*;

pub const BASE: u64 = 0x8000_0000;
pub const SLOTS: usize = 512;
pub const LOWER: u64 = 0;
pub const FLAGS: u64 = 0x401;
pub const UNTOUCHED: [u64; 4] = [!0; 4];

pub type Answer = (u64, [u64; 4]);

#[derive(Clone, Copy)]
pub struct Map {
    pub start: u64,
    pub end: u64,
    pub frame: u64,
    pub flags: u64,
    pub constraints: u64,
}

// The call with the pool's arguments in front of its own and the answer behind them.
macro_rules! called {
    ($name:ident, $pool:expr, $pointer:ident $(, $argument:expr)*) => {{
        let mut answer = UNTOUCHED;
        let (words, ledger) = ($pool.words.$pointer(), $pool.ledger.$pointer());
        let number = unsafe { $name(words, $pool.words.len(), ledger, $pool.ledger.len(), BASE, $pool.level, LOWER $(, $argument)*, answer.as_mut_ptr()) };
        (number, answer)
    }};
}

// A lent pool: its words and its ledger, and the root's level.
#[derive(Clone)]
pub struct Pool {
    pub words: Vec<u64>,
    pub ledger: Vec<u32>,
    pub level: u64,
}

impl Pool {
    // Every page of the buffer is touched before anything is timed: make writes all of it.
    pub fn make(n: usize, level: u64) -> Pool {
        let mut pool = Pool { words: vec![!0; SLOTS * n], ledger: vec![!0; n], level };
        pool.remake();
        pool
    }

    pub fn remake(&mut self) {
        let answered = called!(ptb_make, self, as_mut_ptr);
        assert_eq!(answered, (0, UNTOUCHED));
    }

    pub fn check(&self) -> u64 {
        let (refusal, answer) = called!(ptb_check, self, as_ptr);
        assert_eq!(answer, UNTOUCHED);
        refusal
    }

    pub fn look_up(&self, va: u64) -> Answer {
        called!(ptb_look_up, self, as_ptr, va)
    }

    pub fn list(&self, start: u64, end: u64, lines: &mut [u64]) -> Answer {
        called!(ptb_list, self, as_ptr, start, end, lines.as_mut_ptr(), lines.len())
    }

    pub fn map(&mut self, map: &Map) -> Answer {
        called!(ptb_map, self, as_mut_ptr, map.start, map.end, map.frame, map.flags, map.constraints)
    }

    // Not live.
    pub fn modify(&mut self, start: u64, end: u64, set: u64, clear: u64) -> Answer {
        let list: &mut [u64] = &mut [];
        called!(ptb_modify, self, as_mut_ptr, start, end, set, clear, 0, list.as_mut_ptr(), list.len())
    }

    pub fn compact(&mut self) -> Answer {
        called!(ptb_compact, self, as_mut_ptr)
    }

    pub fn image(&self, table: u64, page: &mut [u8]) -> u64 {
        called!(ptb_image, self, as_ptr, table, page.as_mut_ptr(), page.len()).0
    }

    pub fn span(&self) -> u64 {
        1 << (48 - 9 * self.level)
    }

    // All tables in use, in three levels: as few tables under the root as the others need, and the slots of these taken in their order. What is no link is a
    // valid block or page with its own frame.
    pub fn fill(n: usize, level: u64) -> Pool {
        let mut pool = Pool::make(n, level);
        let under_root = (n - 1).div_ceil(SLOTS + 1);
        let mut next = 1;
        for table in 0..n {
            let at = pool.ledger[table] as u64 % 4;
            for slot in 0..SLOTS {
                let place = SLOTS * table + slot;
                if next == n || table == 0 && slot >= under_root {
                    pool.words[place] = leaf(at, place as u64);
                } else {
                    pool.words[place] = BASE + 4096 * next as u64 + 3;
                    pool.ledger[next] = (4 + at + 1 + 8 * (place as u64 + 1)) as u32;
                    next += 1;
                }
            }
        }
        assert_eq!(next, n);
        pool
    }
}

// The plain pass: the union of all words.
#[inline(never)]
pub fn plain(words: &[u64]) -> u64 {
    let mut any = 0;
    for word in words {
        any |= word;
    }
    any
}

// A page of each of 1,024 lines, spread over all of them.
pub fn some_pages(lines: &[u64]) -> Vec<u64> {
    let count = lines.len() / 4;
    (0..1024).map(|i| 4 * (i * 7919 % count)).map(|line| lines[line] + (lines[line + 1] - lines[line]) / 2 / 4096 * 4096).collect()
}

// A valid entry of a level with a frame of its own; a level-0 table has none.
fn leaf(level: u64, place: u64) -> u64 {
    let frame = |bits: u64| (place << bits) % (1 << 48);
    match level {
        0 => 0,
        1 => frame(30) + FLAGS,
        2 => frame(21) + FLAGS,
        _ => frame(12) + FLAGS + 2,
    }
}
