// Times modify, not live, and compact against the published crate's modify_range and compact_subtables, on the same pools of 64 tables. Ours check the pool first; the ratio
// is of what they do beyond the check.
use crate::clock::{in_turns, timed};
use crate::pool::{Pool, BASE, FLAGS, SLOTS};
use crate::{oracle_of, TABLES};
use std::hint::black_box;

const READ_ONLY: u64 = 0x80;

fn row(name: &str, [theirs, check, ours]: [f64; 3]) {
    let beyond = ours - check;
    println!("| {name} | {:.2} us | {:.2} us | {:.2} us | {:.2} us | {:.2} |", theirs * 1e6, check * 1e6, ours * 1e6, beyond * 1e6, beyond / theirs);
}

// Sets a bit of every entry of the region and clears it again.
fn modify(name: &str, from: &Pool, start: u64, end: u64) {
    let (mut pool, mut oracle) = (from.clone(), oracle_of(from));
    let turns = [(READ_ONLY, 0), (0, READ_ONLY)];
    for (set, clear) in turns {
        assert_eq!(pool.modify(start, end, set, clear).0, 0);
        assert!(oracle.modify(start, end, set, clear, false).is_ok());
        assert!(oracle.words() == pool.words);
    }
    let times = in_turns(301, |which| {
        assert_eq!(pool.check(), 0);
        let both = match which {
            0 => timed(4, || turns.map(|(set, clear)| oracle.modify(black_box(start), end, set, clear, false).is_ok())),
            1 => timed(4, || turns.map(|_| black_box(&pool).check())),
            _ => timed(4, || turns.map(|(set, clear)| black_box(&mut pool).modify(start, end, set, clear))),
        };
        both / 2.0
    });
    assert!(oracle.words() == pool.words);
    row(name, times);
}

fn compact(name: &str, from: &Pool) {
    let (mut pool, mut oracle) = (from.clone(), oracle_of(from));
    let times = in_turns(301, |which| {
        assert_eq!(from.check(), 0);
        match which {
            0 => {
                oracle.load(&from.words, &from.ledger);
                timed(1, || oracle.compact())
            }
            1 => timed(1, || black_box(from).check()),
            _ => {
                pool.clone_from(from);
                timed(1, || assert_eq!(black_box(&mut pool).compact().0, 0))
            }
        }
    });
    assert!(oracle.words() == pool.words && pool.check() == 0);
    row(name, times);
}

// All tables in use, and all words but the links zero.
fn emptied() -> Pool {
    let mut pool = Pool::fill(TABLES, 1);
    let link = |word: u64| word % 4 == 3 && (BASE..BASE + 4096 * TABLES as u64).contains(&(word - 3));
    for (place, word) in pool.words.iter_mut().enumerate() {
        if !(link(*word) && place / SLOTS < 2) {
            *word = 0;
        }
    }
    pool
}

pub fn all() {
    println!();
    println!("| n = 64, all tables in use | the crate | ptb_check | ptb | beyond the check | ratio |");
    println!("|---|---|---|---|---|---|");
    let full = Pool::fill(TABLES, 1);
    modify("modify of a page", &full, 0x1000, 0x2000);
    modify("modify of 512 pages", &full, 0x20_0000, 0x40_0000);
    modify("modify of all, 32,705 entries", &full, 0, full.span());
    let mut block = Pool::make(TABLES, 1);
    block.words[0] = 1 << 30 | FLAGS;
    modify("modify of a page of a GiB, split before", &block, 0x1000, 0x2000);
    compact("compact, nothing is empty", &full);
    compact("compact, 63 tables are empty", &emptied());
}
