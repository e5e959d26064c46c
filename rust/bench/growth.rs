// What check, look up, list, map, modify and compact cost as the pool grows: a table for n = 8, 64, 512 and 4,096, and a plot of it, log-log, as SVG, in the file that the
// argument names. Every table is in use: a root of level 1, as few level 2 tables as the others need, and all others of level 3 and full of pages. Run it by growth.sh.
mod clock;
mod pool;

use clock::{in_turns, timed};
use pool::{plain, some_pages, Map, Pool, FLAGS};
use std::fmt::Write;
use std::hint::black_box;

const SIZES: [usize; 4] = [8, 64, 512, 4096];
const PAGE: u64 = 4096;
const KINDS: usize = 8;
const READ_ONLY: u64 = 0x80;

// Name, colour, width and dashes in the plot: where lines lie on each other, all are seen.
const LINES: [(&str, &str, f64, &str); KINDS] = [
    ("a plain pass over the words", "#888888", 2.0, "2 3"),
    ("check", "#9ecae1", 6.0, "none"),
    ("look up", "#2ca02c", 2.0, "none"),
    ("list of one page", "#9467bd", 3.0, "6 6"),
    ("list of all", "#d62728", 2.0, "none"),
    ("map of one page", "#000000", 1.0, "none"),
    ("modify of one page", "#ff7f0e", 3.0, "3 9"),
    ("compact, nothing empty", "#8c564b", 2.0, "8 3"),
];

// Seconds of each kind of call, by medians of runs that take turns, and the lines of the list of all.
fn measure(n: usize) -> ([f64; KINDS], usize) {
    let mut pool = Pool::fill(n, 1);
    assert_eq!(pool.check(), 0);
    let (refusal, [needed, ..]) = pool.list(0, pool.span(), &mut []);
    assert_eq!(refusal, 11);
    let mut lines = vec![!0; needed as usize];
    assert_eq!(pool.list(0, pool.span(), &mut lines), (0, [needed / 4, !0, !0, !0]));
    let pages = some_pages(&lines);
    // The page of the last of them; its frame changes at every turn.
    let page = *pages.last().unwrap();
    let mut map = Map { start: page, end: page + PAGE, frame: 0, flags: FLAGS, constraints: 0 };
    // Another page's; one modify sets this bit, the next one clears it.
    let (edited, mut bit) = (pages[0], 0);
    let (runs, turns) = if n > 512 { (31, 1) } else { (101, 8) };
    let times = in_turns(runs, |which| {
        // Each comes after a check, which brings the pool near.
        assert_eq!(pool.check(), 0);
        match which {
            0 => timed(turns, || plain(black_box(&pool.words))),
            1 => timed(turns, || black_box(&pool).check()),
            2 => timed(turns, || pages.iter().fold(0, |sum, &va| sum ^ black_box(&pool).look_up(black_box(va)).1[3])) / pages.len() as f64,
            3 => timed(turns, || assert_eq!(black_box(&pool).list(page, page + PAGE, &mut lines[..4]), (0, [1, !0, !0, !0]))),
            4 => timed(1, || assert_eq!(black_box(&pool).list(0, pool.span(), &mut lines).0, 0)),
            5 => timed(turns, || {
                map.frame ^= PAGE;
                assert_eq!(black_box(&mut pool).map(&map), (0, [n as u64, !0, !0, !0]));
            }),
            6 => timed(turns, || {
                bit ^= READ_ONLY;
                assert_eq!(black_box(&mut pool).modify(edited, edited + PAGE, bit, bit ^ READ_ONLY), (0, [n as u64, !0, !0, !0]));
            }),
            _ => timed(turns, || assert_eq!(black_box(&mut pool).compact(), (0, [n as u64, !0, !0, !0]))),
        }
    });
    (times, lines.len() / 4)
}

// The plot's frame, in its own units, and the decades of seconds that it shows.
const LEFT: f64 = 70.0;
const RIGHT: f64 = 470.0;
const TOP: f64 = 20.0;
const BOTTOM: f64 = 350.0;
const LOWEST: i32 = -9;
const HIGHEST: i32 = -1;

fn across(n: usize) -> f64 {
    let (first, last) = ((SIZES[0] as f64).ln(), (SIZES[SIZES.len() - 1] as f64).ln());
    LEFT + 20.0 + (RIGHT - LEFT - 40.0) * ((n as f64).ln() - first) / (last - first)
}

fn up(seconds: f64) -> f64 {
    BOTTOM - (BOTTOM - TOP) * (seconds.log10() - LOWEST as f64) / (HIGHEST - LOWEST) as f64
}

fn axes(svg: &mut String) -> std::fmt::Result {
    writeln!(svg, r##"<rect x="{LEFT}" y="{TOP}" width="{}" height="{}" fill="none" stroke="#444444"/>"##, RIGHT - LEFT, BOTTOM - TOP)?;
    let names = ["1 ns", "10 ns", "100 ns", "1 us", "10 us", "100 us", "1 ms", "10 ms", "100 ms"];
    for (decade, name) in (LOWEST..=HIGHEST).zip(names) {
        let y = up(10f64.powi(decade));
        writeln!(svg, r##"<path d="M{LEFT} {y:.1}H{RIGHT}" stroke="#dddddd"/><text x="{}" y="{:.1}" text-anchor="end">{name}</text>"##, LEFT - 6.0, y + 4.0)?;
    }
    for n in SIZES {
        let x = across(n);
        writeln!(svg, r##"<path d="M{x:.1} {BOTTOM}v5" stroke="#444444"/><text x="{x:.1}" y="{}" text-anchor="middle">{n}</text>"##, BOTTOM + 19.0)?;
    }
    let middle = (TOP + BOTTOM) / 2.0;
    writeln!(svg, r##"<text x="{}" y="{}" text-anchor="middle">n, tables of the pool, all in use</text>"##, (LEFT + RIGHT) / 2.0, BOTTOM + 38.0)?;
    writeln!(svg, r##"<text x="16" y="{middle}" text-anchor="middle" transform="rotate(-90 16 {middle})">time of one call</text>"##)
}

fn plot(times: &[[f64; KINDS]]) -> Result<String, std::fmt::Error> {
    let mut svg = String::new();
    writeln!(svg, r##"<svg xmlns="http://www.w3.org/2000/svg" viewBox="0 0 670 400" width="670" height="400" font-family="sans-serif" font-size="12">"##)?;
    writeln!(svg, r##"<rect width="670" height="400" fill="#ffffff"/>"##)?;
    axes(&mut svg)?;
    for (kind, (name, colour, width, dashes)) in LINES.iter().enumerate() {
        let points: Vec<String> = SIZES.iter().zip(times).map(|(&n, row)| format!("{:.1},{:.1}", across(n), up(row[kind]))).collect();
        let style = format!(r##"fill="none" stroke="{colour}" stroke-width="{width}" stroke-dasharray="{dashes}""##);
        let y = TOP + 12.0 + 20.0 * kind as f64;
        writeln!(svg, r##"<polyline points="{}" {style}/>"##, points.join(" "))?;
        writeln!(svg, r##"<path d="M{} {y}h24" {style}/><text x="{}" y="{}">{name}</text>"##, RIGHT + 10.0, RIGHT + 40.0, y + 4.0)?;
    }
    writeln!(svg, "</svg>")?;
    Ok(svg)
}

fn shown(seconds: f64) -> String {
    match seconds {
        s if s < 1e-6 => format!("{:.1} ns", s * 1e9),
        s if s < 1e-3 => format!("{:.2} us", s * 1e6),
        s => format!("{:.2} ms", s * 1e3),
    }
}

fn main() {
    let file = std::env::args().nth(1).expect("the plot's file");
    println!("| n | lines | {} |", LINES.map(|line| line.0).join(" | "));
    println!("|---|---|{}", "---|".repeat(KINDS));
    let mut all = vec![];
    for n in SIZES {
        let (times, lines) = measure(n);
        println!("| {n} | {lines} | {} |", times.map(shown).join(" | "));
        all.push(times);
    }
    std::fs::write(&file, plot(&all).unwrap()).expect("a file that can be written");
}
