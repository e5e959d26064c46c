// A line of the list without its answer: what is called, on what, or what is done by hand between calls.
use crate::model::{Handle, Map, Modify};

// What the calls that follow are lent: the first words and ledger numbers of the program's buffers, and the handle.
#[derive(Clone, Copy, Debug)]
pub struct Lent {
    pub words: usize,
    pub numbers: usize,
    pub handle: Handle,
}

impl Lent {
    pub fn of(tables: usize, handle: Handle) -> Lent {
        Lent { words: 512 * tables, numbers: tables, handle }
    }
}

#[derive(Clone, Copy, Debug)]
pub enum Line {
    Make(Lent),
    Lend(Lent),
    Word(usize, u64),
    Number(usize, u32),
    Map(Map),
    // The last number is the length of the list that is lent; so of List, and of the page of Image.
    Modify(Modify, u64),
    Compact,
    LookUp(u64),
    List(u64, u64, u64),
    Image(u64, u64),
    Check,
}

pub const KINDS: [&str; 11] = ["make", "lend", "word", "number", "map", "modify", "compact", "look up", "list", "page image", "check"];
// The letter of each kind and what follows it, as the head of the list says it.
pub const FORMAT: [(char, &str); 11] = [
    ('n', "WORDS NUMBERS BASE LEVEL RANGE"),
    ('o', "WORDS NUMBERS BASE LEVEL RANGE"),
    ('w', "PLACE WORD"),
    ('g', "PLACE NUMBER"),
    ('m', "START END FRAME FLAGS CONSTRAINTS"),
    ('e', "LENGTH START END SET CLEAR LIVE"),
    ('c', ""),
    ('u', "ADDRESS"),
    ('l', "LENGTH START END"),
    ('p', "LENGTH TABLE"),
    ('s', ""),
];

fn lent([words, numbers, base, level, range]: [u64; 5]) -> Lent {
    Lent { words: words as usize, numbers: numbers as usize, handle: Handle { base, level, range } }
}

impl Line {
    pub fn kind(&self) -> usize {
        match self {
            Line::Make(_) => 0,
            Line::Lend(_) => 1,
            Line::Word(..) => 2,
            Line::Number(..) => 3,
            Line::Map(_) => 4,
            Line::Modify(..) => 5,
            Line::Compact => 6,
            Line::LookUp(_) => 7,
            Line::List(..) => 8,
            Line::Image(..) => 9,
            Line::Check => 10,
        }
    }

    // What is no call of the library.
    pub fn by_hand(&self) -> bool {
        (1..=3).contains(&self.kind())
    }

    // What leaves words and ledger as they are, on any pool.
    pub fn only_reads(&self) -> bool {
        self.kind() >= 7
    }

    pub fn numbers(&self) -> Vec<u64> {
        match *self {
            Line::Make(lent) | Line::Lend(lent) => vec![lent.words as u64, lent.numbers as u64, lent.handle.base, lent.handle.level, lent.handle.range],
            Line::Word(place, word) => vec![place as u64, word],
            Line::Number(place, number) => vec![place as u64, number as u64],
            Line::Map(map) => vec![map.start, map.end, map.frame, map.flags, map.constraints],
            Line::Modify(modify, length) => vec![length, modify.start, modify.end, modify.set, modify.clear, modify.live as u64],
            Line::LookUp(va) => vec![va],
            Line::List(start, end, length) => vec![length, start, end],
            Line::Image(table, length) => vec![length, table],
            Line::Compact | Line::Check => vec![],
        }
    }

    // A letter and its numbers.
    pub fn read(text: &str) -> Line {
        let mut words = text.split_whitespace();
        let letter = words.next().expect("a letter");
        let numbers: Vec<u64> = words.map(|word| u64::from_str_radix(word, 16).expect("a number")).collect();
        match (letter, &numbers[..]) {
            ("n", &[a, b, c, d, e]) => Line::Make(lent([a, b, c, d, e])),
            ("o", &[a, b, c, d, e]) => Line::Lend(lent([a, b, c, d, e])),
            ("w", &[place, word]) => Line::Word(place as usize, word),
            ("g", &[place, number]) => Line::Number(place as usize, number as u32),
            ("m", &[start, end, frame, flags, constraints]) => Line::Map(Map { start, end, frame, flags, constraints }),
            ("e", &[length, start, end, set, clear, live]) => Line::Modify(Modify { start, end, set, clear, live: live != 0 }, length),
            ("c", []) => Line::Compact,
            ("u", &[va]) => Line::LookUp(va),
            ("l", &[length, start, end]) => Line::List(start, end, length),
            ("p", &[length, table]) => Line::Image(table, length),
            ("s", []) => Line::Check,
            _ => panic!("{text}: not a line"),
        }
    }
}
