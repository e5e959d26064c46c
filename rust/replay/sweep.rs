// Sequences for every root, range and level, with VALID and without, with blocks and without: each rule of a map where it can fit, each edit of a block or page, live and not.
use crate::bench::TABLES;
use crate::model::{size, Handle};

const BASE: u64 = 0x8000_0000;

fn made(root: u64, range: u64) -> String {
    format!("n {:x} {TABLES:x} {BASE:x} {root:x} {range:x}\n", 512 * TABLES)
}

// The second entry of a level in the span's first table of that level.
fn second_entry(root: u64, range: u64, level: u64) -> u64 {
    let span = Handle { base: BASE, level: root, range }.span();
    if range == 1 { size(level).wrapping_sub(span) } else { size(level) }
}

// An entry written whole, then rule 2, rule 5 with a split and with a table, and rule 4 or the whole entry over the table.
fn maps(root: u64, range: u64, level: u64, flags: u64, constraints: u64) -> String {
    let (at, entry) = (second_entry(root, range, level), size(level));
    let valid = flags & 1 != 0;
    // A hole has no address: rule 2 wants frame 0 there.
    let frame = if valid { 4 * entry } else { 0 };
    let mut text = made(root, range);
    let mut map = |from: u64, to: u64, frame: u64, constraints: u64| text.push_str(&format!("m {:x} {:x} {frame:x} {flags:x} {constraints:x}\n", at + from, at + to));
    if level > 0 {
        map(0, entry, frame, 0);
    }
    map(0, 0x1000, frame, constraints);
    map(0x1000, 0x2000, frame + 0x9000, constraints);
    map(0x3000, 0x4000, frame + 0x5000, constraints);
    map(0, entry, frame, constraints);
    text.push_str(&format!("u {:x}\nc\n", at + 0x1000));
    text
}

// A block or page, edited whole and, a block, in part.
fn edits(root: u64, range: u64, level: u64, live: u64) -> String {
    let (at, entry) = (second_entry(root, range, level), size(level));
    let mut text = made(root, range);
    text.push_str(&format!("m {at:x} {:x} {:x} 401 0\n", at + entry, 4 * entry));
    for (set, clear) in [(0x80, 0), (0, 0x80), (0x80, 0x400), (0, 0)] {
        text.push_str(&format!("e 1 {at:x} {:x} {set:x} {clear:x} {live:x}\n", at + entry));
    }
    text.push_str(&format!("u {at:x}\ne 1 {at:x} {:x} 0 80 {live:x}\ne 2 {at:x} {:x} 0 1 {live:x}\nu {:x}\n", at + 0x1000, at + entry, at + entry - 1));
    text
}

pub fn all() -> Vec<String> {
    let mut all = vec![];
    for (root, range, level) in (0..4).flat_map(|root| [0, 1].into_iter().flat_map(move |range| (root..4).map(move |level| (root, range, level)))) {
        // Nothing in a level 0 table has flags and no table, to begin with.
        let without = if level == 0 { 0 } else { 0x400 };
        for (flags, constraints) in [(0x401, 0), (0x401, 1), (without, 0), (without, 1)].into_iter().filter(|_| level < 3) {
            all.push(maps(root, range, level, flags, constraints));
        }
        all.extend([0, 1].into_iter().filter(|_| level > 0).map(|live| edits(root, range, level, live)));
    }
    all
}
