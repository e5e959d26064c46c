// Where ptb and the published crate are known to differ, outside the domain (docs/DIFFERENCES.md): each is seen on both.
use crate::face::{self, Ours};
use crate::lent::Lent;
use crate::model::{answer, Handle, Map, Modify, Pool};
use oracle::Oracle;
use std::panic::{catch_unwind, set_hook, take_hook, AssertUnwindSafe};

const BASE: u64 = 0x8000_0000;
const FLAGS: u64 = 0x401;
const GIB: u64 = 0x4000_0000;
const LAST: u64 = 0xFFFF_FFFF_FFFF_F000;

struct Both {
    ours: Ours,
    oracle: Oracle,
}

impl Both {
    fn new(n: usize, level: u64, upper: bool) -> Both {
        Both { ours: Ours::of(&Pool::make(n, Handle { base: BASE, level, range: upper as u64 })), oracle: Oracle::new(n, BASE, level, upper) }
    }

    fn ours(&mut self, start: u64, end: u64, frame: u64, flags: u64) -> (u64, [u64; 4]) {
        face::map(&mut self.ours, &Map { start, end, frame, flags, constraints: 0 })
    }

    // 0 where the crate maps it, else its error's number on our slip.
    fn theirs(&mut self, start: u64, end: u64, frame: u64, flags: u64) -> u64 {
        self.oracle.map(start, end, frame, flags, 0).map_or_else(|refused| refused.number, |()| 0)
    }

    fn both(&mut self, start: u64, end: u64, frame: u64, flags: u64) {
        assert_eq!((self.ours(start, end, frame, flags).0, self.theirs(start, end, frame, flags)), (0, 0));
        assert!(self.ours.words[..] == *self.oracle.words());
    }
}

// A block that ends at 2^64, put there by another hand, and a map of its first page.
fn lost_fill() {
    let mut pool = Both::new(2, 2, true);
    let mut planted = Pool::make(2, pool.ours.handle);
    planted.plant(LAST, GIB, FLAGS);
    pool.ours.load(&planted.words, &planted.ledger);
    pool.oracle.load(&planted.words, &planted.ledger);
    let first = 0u64.wrapping_sub(0x20_0000);
    assert_eq!(pool.ours(first, first + 0x1000, 0x9000, FLAGS), answer(0, &[2]));
    assert_eq!(pool.theirs(first, first + 0x1000, 0x9000, FLAGS), 0);
    assert_eq!((pool.ours.words[512], pool.ours.words[513]), (0x9403, GIB + 0x1403));
    assert_eq!((pool.oracle.words()[512], pool.oracle.words()[513]), (0x9403, 0));
}

// Case B with two tables.
fn want_of_tables() {
    let mut pool = Both::new(2, 1, false);
    assert_eq!(pool.ours(0x1000, 0x3000, 0x9000, FLAGS), answer(9, &[2, 1]));
    assert!(pool.ours.words.iter().all(|&word| word == 0));
    let hook = take_hook();
    set_hook(Box::new(|_| ()));
    let panicked = catch_unwind(AssertUnwindSafe(|| pool.theirs(0x1000, 0x3000, 0x9000, FLAGS))).is_err();
    set_hook(hook);
    assert!(panicked && pool.oracle.words()[0] == 0x8000_1003);
}

// After case B with three tables: the first GiB is taken off, which frees two, and the page after it needs two.
fn freed_by_the_same_call() {
    let mut pool = Both::new(3, 1, false);
    pool.both(0x1000, 0x3000, 0x9000, FLAGS);
    assert_eq!(pool.ours(0, GIB + 0x1000, 0, 0), answer(9, &[2, 0]));
    assert_eq!(pool.theirs(0, GIB + 0x1000, 0, 0), 0);
    assert_eq!(pool.oracle.words()[..2], [0, 0x8000_1003]);
}

fn arguments() {
    let mut pool = Both::new(8, 1, true);
    assert_eq!((pool.ours(LAST, LAST + 1, 0, FLAGS), pool.theirs(LAST, LAST + 1, 0, FLAGS)), (answer(2, &[LAST + 1]), 5));
    let mut pool = Both::new(8, 1, false);
    assert_eq!((pool.ours(0, 0, 0, FLAGS), pool.theirs(0, 0, 0, FLAGS)), (answer(2, &[0]), 0));
    // Bit 16 comes to lie in the frame; bit 48 is kept.
    for bit in [1 << 16, 1 << 48] {
        let mut pool = Both::new(8, 3, false);
        assert_eq!((pool.ours(0, 0x1000, 0x9000, FLAGS + bit), pool.theirs(0, 0x1000, 0x9000, FLAGS + bit)), (answer(4, &[FLAGS + bit]), 0));
        assert_eq!(pool.oracle.words()[0], 0x9403 + bit);
    }
    // The second page's frame would be 2^48.
    let mut pool = Both::new(8, 3, false);
    let frame = (1 << 48) - 4096;
    assert_eq!((pool.ours(0, 0x2000, frame, FLAGS), pool.theirs(0, 0x2000, frame, FLAGS)), (answer(7, &[frame]), 0));
    assert_eq!(pool.oracle.words()[..2], [frame + 0x403, 0x403]);
}

// No difference: the frame counts without VALID too, whatever the crate's comment says.
fn unmap_with_a_frame() {
    let mut pool = Both::new(8, 1, false);
    pool.both(0, GIB, GIB, FLAGS);
    assert_eq!(pool.ours(0, GIB, 0x1000, 0), answer(9, &[513, 7]));
}

// A live modify of one page of a block that changes no bit: the crate splits the live block for it.
fn live_split() {
    let mut pool = Both::new(8, 1, false);
    pool.both(0, GIB, GIB, FLAGS);
    let nothing = Modify { start: 0x1000, end: 0x2000, set: 0, clear: 0, live: true };
    assert_eq!(face::modify(&mut pool.ours, &nothing, &mut Lent::filled(0, 1)), answer(10, &[GIB + FLAGS]));
    assert_eq!(pool.ours.words[0], GIB + FLAGS);
    assert!(pool.oracle.modify(0x1000, 0x2000, 0, 0, true).is_ok());
    assert_eq!(pool.oracle.words()[0], BASE + 0x1003);
}

pub fn all() {
    lost_fill();
    want_of_tables();
    freed_by_the_same_call();
    arguments();
    unmap_with_a_frame();
    live_split();
}
