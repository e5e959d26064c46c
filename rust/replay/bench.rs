// The program's buffers as it has them, and what each line does to them and answers: by the published crate inside document 01's domain, by the model of the document
// elsewhere. Where both have a say they must agree.
use crate::lines::{Lent, Line};
use crate::model::{answer, Answer, Handle, Met, Pool, SLOTS, UNTOUCHED};
use oracle::{Oracle, Refused};

// The program's buffers: tables of the pool, numbers of a list, bytes of a page.
pub const TABLES: usize = 12;
pub const LIST: u64 = 2048;
pub const PAGE: u64 = 4097;
const UNWRITTEN: u8 = 0x55;
const UNWRITTEN_WORD: u64 = 0x5555_5555_5555_5555;
const START: u64 = 0x9E37_79B9_7F4A_7C15;

// xorshift64 of the sum and the next number: linear, and all sums but 0 lie on one cycle, so that another number in one place shows, and two that change places do.
fn mix(sum: u64, number: u64) -> u64 {
    let mut next = sum ^ number;
    next ^= next << 13;
    next ^= next >> 7;
    next ^ next << 17
}

pub struct Said {
    pub answer: Answer,
    pub sum: u64,
    pub by_oracle: bool,
    pub met: Met,
    pub lost_fill: bool,
}

impl Said {
    // The answer's values that the call writes.
    pub fn values(&self, line: &Line) -> &[u64] {
        let count = match (self.answer.0, line) {
            (5 | 9, _) => 2,
            (2..=4 | 6 | 7 | 10 | 11, _) => 1,
            (0, Line::LookUp(_)) => 4,
            (0, Line::Modify(modify, _)) => 1 + modify.live as usize,
            (0, Line::Map(_) | Line::Compact | Line::List(..)) => 1,
            _ => 0,
        };
        assert_eq!(self.answer.1[count..], UNTOUCHED[count..], "{line:x?}");
        &self.answer.1[..count]
    }
}

// What a call leaves, its answer apart.
struct After {
    words: Vec<u64>,
    ledger: Vec<u32>,
    list: Vec<u64>,
    page: Option<Vec<u8>>,
}

impl After {
    fn sum(&self) -> u64 {
        let page = self.page.iter().map(|page| page.iter().map(|&byte| byte as u64).fold(START, mix));
        let list = self.list.iter().copied().chain(page);
        list.chain(self.words.iter().copied()).chain(self.ledger.iter().map(|&number| number as u64)).fold(START, mix)
    }
}

// What was lent, with what was written at its front.
fn over<T: Copy>(front: &[T], length: u64, unwritten: T) -> Vec<T> {
    let mut all = vec![unwritten; length as usize];
    all[..front.len()].copy_from_slice(front);
    all
}

#[derive(Default)]
pub struct Bench {
    words: Vec<u64>,
    ledger: Vec<u32>,
    lent: Option<Lent>,
    // The pool that was made last: tables and handle.
    made: Option<(usize, Handle)>,
    oracle: Option<Oracle>,
    // Whether another hand than the oracle's wrote to the pool since it was last loaded.
    stale: bool,
}

impl Bench {
    pub fn new() -> Bench {
        Bench { words: vec![0; SLOTS * TABLES], ledger: vec![0; TABLES], ..Bench::default() }
    }

    // The same buffers, before a make.
    pub fn again(&self) -> Bench {
        Bench { words: self.words.clone(), ledger: self.ledger.clone(), ..Bench::default() }
    }

    pub fn lent(&self) -> Lent {
        self.lent.expect("a make comes first")
    }

    // What is lent, as the model has it.
    pub fn pool(&self) -> Pool {
        let lent = self.lent();
        Pool::of(self.words[..lent.words].to_vec(), self.ledger[..lent.numbers].to_vec(), lent.handle)
    }

    pub fn run(&mut self, line: &Line) -> Said {
        match *line {
            Line::Make(lent) | Line::Lend(lent) => self.lent = Some(lent),
            Line::Word(place, word) => self.words[place] = word,
            Line::Number(place, number) => self.ledger[place] = number,
            _ => (),
        }
        self.stale |= line.by_hand();
        let mut pool = self.pool();
        let mut after = After { words: vec![], ledger: vec![], list: vec![], page: None };
        let sound = pool.check().0 == 0;
        let expected = by_model(&mut pool, line, &mut after);
        (after.words, after.ledger) = (pool.words.clone(), pool.ledger.clone());
        if let (Line::Make(lent), 0) = (line, expected.0) {
            self.made = Some((lent.numbers, lent.handle));
            self.oracle = Some(Oracle::new(lent.numbers, lent.handle.base, lent.handle.level, lent.handle.upper()));
            self.stale = false;
        }
        let by_oracle = sound && self.is_made() && in_domain(line, expected) && !pool.lost_fill;
        if by_oracle {
            self.ask_oracle(line, expected, &mut after);
        } else {
            self.stale |= expected.0 == 0;
        }
        self.words[..after.words.len()].copy_from_slice(&after.words);
        self.ledger[..after.ledger.len()].copy_from_slice(&after.ledger);
        Said { answer: expected, sum: after.sum(), by_oracle, met: pool.met, lost_fill: pool.lost_fill }
    }

    // Whether what is lent is the pool that was made.
    fn is_made(&self) -> bool {
        let Lent { words, numbers, handle } = self.lent();
        let same = |made: Handle| (made.base, made.level, made.range) == (handle.base, handle.level, handle.range);
        self.made.is_some_and(|(tables, made)| (words, numbers) == (SLOTS * tables, tables) && same(made))
    }

    // What the published crate answers and leaves takes the place of what the model did, after they were found to be the same.
    fn ask_oracle(&mut self, line: &Line, expected: Answer, after: &mut After) {
        let handle = self.lent().handle;
        let oracle = self.oracle.as_mut().expect("made");
        if std::mem::take(&mut self.stale) {
            oracle.load(&self.words[..after.words.len()], &self.ledger[..after.ledger.len()]);
        }
        let mut lines = None;
        let refused = match line {
            Line::Map(map) => oracle.map(map.start, map.end, map.frame, map.flags, map.constraints).err(),
            Line::LookUp(va) => match oracle.walk(*va) {
                Ok((word, level)) => {
                    assert_eq!(Pool::meaning(word, level, *va), expected, "{line:x?}");
                    None
                }
                // The crate tells of the region's page, the slip of the address.
                Err(refused) => Some(Refused { number: refused.number, carries: vec![*va] }),
            },
            Line::List(start, end, _) => oracle.list(*start, *end, lines.insert(vec![])).err(),
            // Not live in any case: the numbers that a live one lists are the model's.
            Line::Modify(modify, _) => oracle.modify(modify.start, modify.end, modify.set, modify.clear, false).err(),
            Line::Compact => {
                oracle.compact();
                None
            }
            _ => unreachable!(),
        };
        if let Some(lines) = lines.filter(|_| refused.is_none()) {
            assert_eq!(over(&lines, after.list.len() as u64, UNWRITTEN_WORD), after.list, "{line:x?}");
            assert_eq!(answer(0, &[lines.len() as u64 / 4]), expected, "{line:x?}");
        }
        assert_eq!(refused.map_or(expected, |refused| answer(refused.number, &refused.carries)), expected, "{line:x?}");
        // The ledger that the crate's words alone give, and the tables in use counted off it.
        let pool = Pool::of(oracle.words().to_vec(), after.ledger.clone(), handle);
        let ledger = pool.ledger_of_words().expect("a tree");
        assert!(pool.words == after.words && ledger == after.ledger, "{line:x?}");
        let counted = matches!(line, Line::Map(_) | Line::Modify(..) | Line::Compact) && expected.0 == 0;
        assert!(!counted || expected.1[0] == pool.used(), "{line:x?}");
        (after.words, after.ledger) = (pool.words, ledger);
    }
}

fn by_model(pool: &mut Pool, line: &Line, after: &mut After) -> Answer {
    match line {
        Line::Make(_) => pool.remake(),
        Line::Lend(_) | Line::Word(..) | Line::Number(..) => answer(0, &[]),
        Line::Map(map) => pool.map(map),
        Line::Modify(modify, length) => {
            let (said, numbers, _) = pool.modify(modify, |_| *length);
            after.list = over(&numbers, *length, UNWRITTEN_WORD);
            said
        }
        Line::Compact => pool.compact(),
        Line::LookUp(va) => pool.look_up(*va),
        Line::List(start, end, length) => {
            let (said, lines, _) = pool.list(*start, *end, |_| *length);
            after.list = over(&lines, *length, UNWRITTEN_WORD);
            said
        }
        Line::Image(table, length) => {
            let (said, bytes) = pool.image(*table, *length as usize);
            after.page = Some(over(&bytes, *length, UNWRITTEN));
            said
        }
        Line::Check => pool.check(),
    }
}

// What is accepted, and refusals 3 (but on modify), 5 and 6; the last upper page is no region of the crate.
fn in_domain(line: &Line, expected: Answer) -> bool {
    match (line, expected.0) {
        (Line::LookUp(va), _) if *va >= 0u64.wrapping_sub(4096) => false,
        (Line::Modify(..), 3) => false,
        (Line::Map(_) | Line::Modify(..) | Line::Compact | Line::LookUp(_) | Line::List(..), 0 | 3 | 5 | 6) => true,
        _ => false,
    }
}
