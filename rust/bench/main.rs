// Times ptb's calls against a plain pass over the same words, in one process: ratios of medians over interleaved runs.
// Run it by run.sh, which builds the static library first. No dependency but std.
mod clock;
mod pool;

use clock::{in_turns, median, timed};
use pool::{plain, Pool, SLOTS};
use std::hint::black_box;

// Medians of a plain pass and of a check of the same pool.
fn against_plain(pool: &Pool, runs: usize, turns: usize) -> [f64; 2] {
    in_turns(runs, |which| match which {
        0 => timed(turns, || plain(black_box(&pool.words))),
        _ => timed(turns, || black_box(pool).check()),
    })
}

// Sound as it stands; a damaged word anywhere makes it unsound.
fn proven(pool: &Pool) {
    assert_eq!(pool.check(), 0);
    let mut damaged = pool.clone();
    for place in [0, 1, SLOTS - 1, SLOTS, damaged.words.len() / 2 + 7, damaged.words.len() - 1] {
        let word = damaged.words[place];
        damaged.words[place] = word ^ 1 << 48;
        assert_eq!(damaged.check(), 8);
        damaged.words[place] = word;
    }
    assert_eq!(damaged.check(), 0);
}

fn main() {
    println!("| n | tables in use | plain pass, us | ptb_check, us | ratio | target |");
    println!("|---|---|---|---|---|---|");
    for (n, runs, turns) in [(64, 301, 32), (4096, 101, 1)] {
        let cases = [
            ("the root alone", Pool::make(n, 1), "2.5"),
            ("all, most of pages", Pool::fill(n, 1), "4"),
            ("all, most of blocks", Pool::fill(n, 0), "4"),
        ];
        for (name, pool, target) in cases {
            proven(&pool);
            let [plain, check] = against_plain(&pool, runs, turns);
            println!("| {n} | {name} | {:.2} | {:.2} | {:.2} | {target} |", plain * 1e6, check * 1e6, check / plain);
        }
    }
    println!();
    println!("| n | ptb_make, us | ptb_image, us |");
    println!("|---|---|---|");
    for (n, turns) in [(64, 32), (4096, 1)] {
        let full = Pool::fill(n, 1);
        let mut page = vec![0; 4096];
        assert_eq!(full.image(n as u64, &mut page), 1);
        assert_eq!(full.image(n as u64 - 1, &mut page[1..]), 11);
        let imaged = median((0..101).map(|_| timed(64, || assert_eq!(full.image(n as u64 - 1, &mut page), 0))).collect());
        assert!(page.chunks(8).zip(&full.words[SLOTS * (n - 1)..]).all(|(bytes, word)| bytes == word.to_le_bytes()));
        let mut pool = full;
        let make = median((0..101).map(|_| timed(turns, || pool.remake())).collect());
        println!("| {n} | {:.2} | {:.3} |", make * 1e6, imaged * 1e6);
    }
}
