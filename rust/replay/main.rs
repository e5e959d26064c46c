// Makes the list that the program `replay` replays: lines of calls with the answers of the published crate and of the model of document 01. First the sequences by hand
// and the sweeps, then random ones from SEED, of which those are kept that meet a cell of cells.rs less often than AGAIN times, then any, up to CALLS calls. A cell that
// no line meets is an error, and no list is written. Run it by make.sh.
#[path = "../diff/model.rs"]
#[allow(dead_code)]
mod model;
#[path = "../diff/random.rs"]
mod random;

mod bench;
mod cells;
mod directed;
mod lines;
mod sweep;

use bench::{Bench, Said, LIST, PAGE, TABLES};
use cells::Cells;
use lines::{Lent, Line, FORMAT, KINDS};
use random::{Call, Damage, Random, Sequence, Step};
use std::fmt::Write;

// How often random sequences are to meet a cell, and how many of them are tried for that.
const AGAIN: u64 = 2;
const TRIES: usize = 4_000;

// A run of lines with what they answer and cover.
#[derive(Default)]
struct Run {
    lines: Vec<(Line, Said, Vec<String>)>,
}

impl Run {
    fn go(&mut self, bench: &mut Bench, line: Line) -> u64 {
        let said = bench.run(&line);
        let cells = cells::of(&line, bench.lent(), &said);
        let number = said.answer.0;
        self.lines.push((line, said, cells));
        number
    }
}

fn by_hand(mut bench: Bench, text: &str) -> Run {
    let mut run = Run::default();
    for text in text.lines().filter(|text| !text.trim().is_empty()) {
        let (call, told) = text.split_once('=').unwrap_or((text, ""));
        run.go(&mut bench, Line::read(call));
        let (line, said, _) = run.lines.last().unwrap();
        let came: Vec<String> = [&[said.answer.0], said.values(line)].concat().iter().map(|value| format!("{value:x}")).collect();
        assert!(told.is_empty() || told.trim() == came.join(" "), "{text}: came {came:?}");
    }
    run
}

// Every call on every misshapen pool.
fn misshapen(bench: Bench) -> Run {
    let mut text = String::from("n 600 3 80000000 1 0\nm 0 1000 0 401 0\n");
    for shape in directed::MISSHAPEN {
        writeln!(text, "o {shape}").unwrap();
        for call in directed::ALL_CALLS {
            writeln!(text, "{call}{} = 1", if call == "n" { format!(" {shape}") } else { String::new() }).unwrap();
        }
    }
    text.push_str("o 600 3 80000000 1 0\np 1000 3 = 1\np 1000 ffffffffffffffff = 1\ns = 0");
    by_hand(bench, &text)
}

// A random call as a line: how long a list is depends on what is needed.
fn line_of(bench: &Bench, call: &Call) -> Option<Line> {
    Some(match *call {
        Call::Map(map) => Line::Map(map),
        Call::LookUp(va) => Line::LookUp(va),
        Call::List(start, end, room) => Line::List(start, end, bench.pool().list(start, end, |needed| room.length(needed).min(LIST)).2),
        Call::Modify(modify, room) => Line::Modify(modify, bench.pool().modify(&modify, |needed| room.length(needed).min(LIST)).2),
        Call::Compact => Line::Compact,
        Call::Image(table, length) => Line::Image(table, (length as u64).min(PAGE)),
        Call::Check => Line::Check,
        Call::Make => Line::Make(bench.lent()),
        Call::Plant(va, frame, flags) => {
            let (before, mut pool) = (bench.pool(), bench.pool());
            pool.plant(va, frame, flags);
            let place = (0..pool.words.len()).find(|&place| pool.words[place] != before.words[place])?;
            Line::Word(place, pool.words[place])
        }
    })
}

// What a damage does, and what undoes it.
fn damage_of(bench: &Bench, damage: &Damage) -> Option<(Line, Line)> {
    let (lent, pool) = (bench.lent(), bench.pool());
    match *damage {
        Damage::Word { link, place, flip } => {
            let links: Vec<usize> = pool.ledger.iter().filter(|&&number| link && number >= 8).map(|&number| number as usize / 8 - 1).collect();
            let place = links.get(place as usize % links.len().max(1)).copied().unwrap_or(place as usize % pool.words.len());
            let word = *pool.words.get(place)?;
            Some((Line::Word(place, word ^ flip), Line::Word(place, word)))
        }
        Damage::Number { place, flip } => {
            let place = place as usize % pool.ledger.len();
            Some((Line::Number(place, pool.ledger[place] ^ flip), Line::Number(place, pool.ledger[place])))
        }
        Damage::Lengths { words, numbers } => {
            let other = Lent { words: lent.words.saturating_add_signed(words as isize), numbers: lent.numbers.saturating_add_signed(numbers as isize), ..lent };
            (other.words <= 512 * TABLES && other.numbers <= TABLES).then_some((Line::Lend(other), Line::Lend(lent)))
        }
        Damage::Handle(handle) => Some((Line::Lend(Lent { handle, ..lent }), Line::Lend(lent))),
    }
}

// A step; whether the sequence can go on. A damage is undone after a call that changes nothing, and ends the sequence after one that does.
fn step(run: &mut Run, bench: &mut Bench, (call, damages): &Step) -> bool {
    let damage = damages.first().map(|damage| damage_of(bench, damage));
    if let Some(None) = damage {
        return true;
    }
    if let Some(Some((done, _))) = damage {
        run.go(bench, done);
    }
    let Some(line) = line_of(bench, call) else { return true };
    let changes = run.go(bench, line) == 0 && matches!(call, Call::Map(_) | Call::Modify(..) | Call::Compact | Call::Make);
    if let Some(Some((_, undone))) = damage {
        if changes {
            return false;
        }
        run.go(bench, undone);
    }
    true
}

fn at_random(mut bench: Bench, sequence: &Sequence) -> Run {
    let mut run = Run::default();
    run.go(&mut bench, Line::Make(Lent::of(sequence.n, sequence.handle)));
    for each in &sequence.steps {
        if !step(&mut run, &mut bench, each) {
            break;
        }
    }
    run
}

// The list so far: its text, the buffers that it leaves, the cells that it covers, and lines by kind and by who answers.
struct List {
    bench: Bench,
    text: String,
    covered: Cells,
    kinds: [u64; KINDS.len()],
    by_oracle: u64,
}

impl List {
    fn calls(&self) -> u64 {
        (0..KINDS.len()).filter(|kind| !(1..=3).contains(kind)).map(|kind| self.kinds[kind]).sum()
    }

    fn add(&mut self, run: &Run) {
        for (line, tried, cells) in &run.lines {
            let said = self.bench.run(line);
            assert!((said.answer, said.sum) == (tried.answer, tried.sum), "{line:x?}");
            self.text.push(FORMAT[line.kind()].0);
            line.numbers().iter().for_each(|number| write!(self.text, " {number:x}").unwrap());
            write!(self.text, "={:x}", said.answer.0).unwrap();
            let values = said.values(line);
            values.iter().for_each(|value| write!(self.text, " {value:x}").unwrap());
            write!(self.text, "{} {:x}", &"----"[values.len()..], said.sum).unwrap();
            self.text.push('\n');
            self.kinds[line.kind()] += 1;
            self.by_oracle += said.by_oracle as u64;
            cells.iter().for_each(|cell| *self.covered.entry(cell.clone()).or_default() += 1);
        }
    }

    // Leaves of a run the lines that it takes to meet all that the list lacks and the run has: none if that is nothing.
    fn keep_lacking(&self, run: &mut Run) {
        let lacking = |cells: &[String]| cells.iter().any(|cell| self.covered.get(cell).is_some_and(|&count| count < AGAIN));
        let end = run.lines.iter().rposition(|(_, _, cells)| lacking(cells)).map_or(0, |place| place + 1);
        run.lines.truncate(end);
        run.lines.retain(|(line, _, cells)| !line.only_reads() || lacking(cells));
    }
}

fn next_run(bench: &Bench, random: &mut Random) -> Run {
    loop {
        let sequence = random::sequence(random, true);
        if sequence.n <= TABLES {
            return at_random(bench.again(), &sequence);
        }
    }
}

fn make(seed: u64, calls: u64) -> List {
    let mut list = List { bench: Bench::new(), text: String::new(), covered: cells::wanted(), kinds: Default::default(), by_oracle: 0 };
    directed::SEQUENCES.iter().for_each(|(_, text)| list.add(&by_hand(list.bench.again(), text)));
    list.add(&misshapen(list.bench.again()));
    println!("by hand: {} calls", list.calls());
    sweep::all().iter().for_each(|text| list.add(&by_hand(list.bench.again(), text)));
    println!("with the sweeps: {} calls", list.calls());
    let mut random = Random::new(seed);
    for _ in 0..TRIES {
        if list.covered.values().all(|&count| count >= AGAIN) {
            break;
        }
        let mut run = next_run(&list.bench, &mut random);
        list.keep_lacking(&mut run);
        list.add(&run);
    }
    println!("with those that meet a cell: {} calls", list.calls());
    while list.calls() < calls {
        let run = next_run(&list.bench, &mut random);
        list.add(&run);
    }
    list
}

fn head(list: &List, seed: u64, calls: u64) -> String {
    let mut head = format!("# The list that crates/replay replays. Made by `rust/replay/make.sh {seed} {calls}`; not to be edited by hand.\n");
    let mut say = |line: &str| writeln!(head, "# {line}").unwrap();
    let (all, theirs) = (list.calls(), list.by_oracle);
    say(&format!("{all} calls; {theirs} of the answers are those of the crate aarch64-paging 0.12.3, without overflow checks, inside document 01's domain. The rest are"));
    say("those of a model of the document (rust/diff/model.rs): refusals other than 3, 5 and 6, calls that the crate does not have, words by another");
    say("hand, a live modify's numbers, the last upper page, and the lines of docs/DIFFERENCES.md. Where both have a say they agreed.");
    say("A line is a letter, the call's numbers, after = its answer, and a sum of what it left; all numbers are hexadecimal. The answer is 0 or the refusal's");
    say("number, then four values, - for one that the call does not write. The sum begins with 9e3779b97f4a7c15 and takes in the list that was lent, the words,");
    say("the ledger: sum ^= number; sum ^= sum << 13; sum ^= sum >> 7; sum ^= sum << 17. A page goes in by the sum of its bytes. Lists and answers are lent full of");
    say("5555555555555555, pages of 55.");
    for ((letter, numbers), kind) in FORMAT.iter().zip(KINDS) {
        let what = match kind {
            "make" => "make: from here on the calls are lent the first WORDS and NUMBERS, and this handle",
            "lend" => "no call: from here on the calls are lent this",
            "word" => "no call: a word is written by hand",
            "number" => "no call: a ledger number is written by hand",
            other => other,
        };
        say(&format!("{letter} {numbers}{}{what}", if numbers.is_empty() { "" } else { "  " }));
    }
    head
}

fn main() {
    let argument = |place: usize| std::env::args().nth(place).expect("SEED CALLS FILE");
    let number = |place: usize| argument(place).parse::<u64>().expect("a number");
    let (seed, calls) = (number(1), number(2));
    let list = make(seed, calls);
    let wanted = cells::wanted();
    list.covered.iter().for_each(|(cell, count)| println!("{count:6}  {cell}{}", if wanted.contains_key(cell) { "" } else { " (not asked for)" }));
    println!("{} cells, the least met {} times", wanted.len(), wanted.keys().map(|cell| list.covered[cell]).min().unwrap());
    println!("{} calls, {} answered by the crate; lines by kind: {:?}", list.calls(), list.by_oracle, KINDS.iter().zip(list.kinds).collect::<Vec<_>>());
    let empty: Vec<&String> = wanted.keys().filter(|&cell| list.covered[cell] == 0).collect();
    if !empty.is_empty() {
        println!("no list is written: {} cells are empty: {empty:#?}", empty.len());
        std::process::exit(1);
    }
    std::fs::write(argument(3), head(&list, seed, calls) + &list.text).expect("a file that can be written");
}
