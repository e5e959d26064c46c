// Times look up, list, map, modify and compact against the published crate on the same words, in one process: ratios of medians over interleaved runs.
// Run it by calls.sh, which builds the static library and the oracle first.
mod clock;
mod edits;
mod pool;

use clock::{in_turns, median, timed};
use oracle::Oracle;
use pool::{some_pages, Map, Pool, BASE, FLAGS, SLOTS};
use std::hint::black_box;
use std::time::Instant;

const TABLES: usize = 64;
const PAGE: u64 = 4096;
const MIB_2: u64 = 1 << 21;
const GIB: u64 = 1 << 30;
const NO_BLOCK_MAPPINGS: u64 = 1;

fn oracle_of(pool: &Pool) -> Oracle {
    let mut oracle = Oracle::new(pool.ledger.len(), BASE, pool.level, false);
    oracle.load(&pool.words, &pool.ledger);
    oracle
}

fn bench_look_up(name: &str, pool: &Pool) {
    let oracle = oracle_of(pool);
    let mut lines = vec![];
    assert!(oracle.list(0, pool.span(), &mut lines).is_ok());
    let pages = some_pages(&lines);
    for &va in &pages {
        let Ok((word, level)) = oracle.walk(va) else { panic!("a page of the span") };
        let (refusal, [_, at, flags, _]) = pool.look_up(va);
        assert_eq!((refusal, at, flags), (0, level, word & !((1 << 48) - 4096) & !2));
    }
    let [walk, ours] = in_turns(301, |which| match which {
        0 => timed(1, || pages.iter().fold(0, |sum, &va| sum ^ oracle.walk(black_box(va)).map_or(0, |found| found.0))),
        _ => timed(1, || pages.iter().fold(0, |sum, &va| sum ^ black_box(pool).look_up(black_box(va)).1[3])),
    });
    let per_page = 1e9 / pages.len() as f64;
    println!("| look up, {name} | {:.1} ns | {:.1} ns | {:.2} | 1.0 |", walk * per_page, ours * per_page, ours / walk);
}

fn bench_list(name: &str, pool: &Pool) {
    let oracle = oracle_of(pool);
    let mut theirs = vec![];
    assert!(oracle.list(0, pool.span(), &mut theirs).is_ok());
    let mut lines = vec![!0; theirs.len()];
    assert_eq!(pool.list(0, pool.span(), &mut lines), (0, [theirs.len() as u64 / 4, !0, !0, !0]));
    assert_eq!(lines, theirs);
    let [crates, ours] = in_turns(301, |which| match which {
        0 => timed(1, || {
            theirs.clear();
            oracle.list(0, black_box(pool.span()), &mut theirs).is_ok()
        }),
        _ => timed(1, || black_box(pool).list(0, black_box(pool.span()), &mut lines)),
    });
    println!("| list, {name}, {} lines | {:.1} us | {:.1} us | {:.2} | 1.2 |", lines.len() / 4, crates * 1e6, ours * 1e6, ours / crates);
}

// Six kinds of 200 maps on a fresh pool of 64 tables with a root of level 1. Frames lie 1 TiB up, at the same place within it.
fn kinds() -> Vec<(&'static str, Vec<Map>)> {
    let to = |start: u64| start + (1 << 40);
    let valid = |start: u64, length: u64| Map { start, end: start + length, frame: to(start), flags: FLAGS, constraints: 0 };
    let each = |kind: &dyn Fn(u64) -> Map| (0..200).map(kind).collect::<Vec<Map>>();
    vec![
        ("single pages", each(&|i| valid(i % 25 * MIB_2 + i * PAGE, PAGE))),
        ("blocks", each(&|i| if i % 10 == 9 { valid((2 + i) * GIB, GIB) } else { valid(i * MIB_2, MIB_2) })),
        ("1 to 16 pages in 50 spots", each(&|i| valid(i % 50 * MIB_2 + i / 50 * 64 * PAGE, (1 + i * 7 % 16) * PAGE))),
        (
            "splits of a GiB: put down, split by a page, taken off",
            each(&|i| {
                let block = valid(i / 3 % 30 * GIB, GIB);
                match i % 3 {
                    0 => block,
                    1 => Map { frame: 0x9000, ..valid(block.start + i * MIB_2 + i * PAGE, PAGE) },
                    _ => Map { flags: 0, ..block },
                }
            }),
        ),
        ("2 MiB without blocks, 50 spots", each(&|i| Map { constraints: NO_BLOCK_MAPPINGS, flags: FLAGS + (i / 50 % 2) * 0x80, ..valid(i % 50 * MIB_2, MIB_2) })),
        (
            "2.5 MiB unaligned, 25 spots",
            each(&|i| {
                let start = i % 25 * 2 * MIB_2 + i * PAGE + i;
                Map { frame: to(start / PAGE * PAGE) + PAGE, ..valid(start, MIB_2 + MIB_2 / 4) }
            }),
        ),
    ]
}

// The maps one after the other, each timed by itself and with a check of the same pool before it: pairs of check and map. Both come after a check, which brings
// the pool near. A wait for the processor is an outlier of the 301 times of one map, so the clock on the wall does; it costs both the same.
fn run_ours(pool: &mut Pool, maps: &[Map]) -> Vec<[f64; 2]> {
    pool.remake();
    let each = |one: &Map| {
        assert_eq!(black_box(&*pool).check(), 0);
        let start = Instant::now();
        assert_eq!(black_box(&*pool).check(), 0);
        let checked = Instant::now();
        assert_eq!(pool.map(one).0, 0);
        [checked - start, checked.elapsed()].map(|time| time.as_secs_f64())
    };
    maps.iter().map(each).collect()
}

fn run_theirs(oracle: &mut Oracle, fresh: &Pool, maps: &[Map]) -> f64 {
    oracle.load(&fresh.words, &fresh.ledger);
    timed(1, || {
        for one in maps {
            assert!(oracle.map(one.start, one.end, one.frame, one.flags, one.constraints).is_ok());
        }
    })
}

fn row(name: &str, [theirs, check, maps]: [f64; 3]) {
    let beyond = maps - check;
    println!("| {name} | {:.0} ns | {:.0} ns | {:.0} ns | {:.0} ns | {:.2} | 2 |", theirs * 1e9, check * 1e9, maps * 1e9, beyond * 1e9, beyond / theirs);
}

// The mean over the maps of a median over the runs.
fn mean_of_medians(runs: &[Vec<[f64; 2]>], which: usize) -> f64 {
    let maps = runs[0].len();
    (0..maps).map(|map| median(runs.iter().map(|run| run[map][which]).collect())).sum::<f64>() / maps as f64
}

fn bench_maps(runs: usize) {
    println!("| one map of 200, n = 64 | the crate | ptb_check | ptb_map | ptb_map less ptb_check | ratio | target |");
    println!("|---|---|---|---|---|---|---|");
    let (fresh, mut pool) = (Pool::make(TABLES, 1), Pool::make(TABLES, 1));
    let mut oracle = oracle_of(&fresh);
    let kinds = kinds();
    let mut all = [0.0; 3];
    for (name, maps) in &kinds {
        let (mut ours, mut theirs) = (vec![], vec![]);
        for run in 0..runs {
            for half in 0..2 {
                if (run + half) % 2 == 0 {
                    theirs.push(run_theirs(&mut oracle, &fresh, maps) / maps.len() as f64);
                } else {
                    ours.push(run_ours(&mut pool, maps));
                }
            }
            assert!(oracle.words() == pool.words);
        }
        let times = [median(theirs), mean_of_medians(&ours, 0), mean_of_medians(&ours, 1)];
        row(name, times);
        for (sum, time) in all.iter_mut().zip(times) {
            *sum += time / kinds.len() as f64;
        }
    }
    row("all of these", all);
    println!();
}

// The count of what it needs must not walk the region.
fn bench_refused() {
    println!("| a map of 2^48 bytes, no blocks, n = 8, root level 0 | ptb_check | ptb_map, refused 9 | ratio | target |");
    println!("|---|---|---|---|---|");
    let all = Map { start: 0, end: 1 << 48, frame: 0, flags: FLAGS, constraints: NO_BLOCK_MAPPINGS };
    let slots = SLOTS as u64;
    assert_eq!(Pool::make(8, 0).map(&all), (9, [slots + slots * slots + slots * slots * slots, 7, !0, !0]));
    for (name, mut pool) in [("the root alone", Pool::make(8, 0)), ("all tables in use, most of blocks", Pool::fill(8, 0))] {
        assert_eq!(pool.map(&all).0, 9);
        let [check, refused] = in_turns(301, |which| match which {
            0 => timed(32, || black_box(&pool).check()),
            _ => timed(32, || black_box(&mut pool).map(&all)),
        });
        println!("| {name} | {:.2} us | {:.2} us | {:.2} | 10 |", check * 1e6, refused * 1e6, refused / check);
    }
}

fn main() {
    println!("| n = 64, all tables in use | the crate | ptb | ratio | target |");
    println!("|---|---|---|---|---|");
    for (name, level) in [("most of pages", 1), ("most of blocks", 0)] {
        let pool = Pool::fill(TABLES, level);
        bench_look_up(name, &pool);
        bench_list(name, &pool);
    }
    println!();
    bench_maps(301);
    bench_refused();
    edits::all();
}
