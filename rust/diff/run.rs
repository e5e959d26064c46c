// One pool three times: ptb's, the model's and the oracle's. After every call the answers, all words, the ledgers and the lists are compared, and the guards around
// all that was lent.
use crate::face::{self, Ours};
use crate::lent::Lent;
use crate::model::{answer, Answer, Handle, Pool, SLOTS};
use crate::random::{Call, Damage, Step};
use oracle::{Oracle, Refused};

const KINDS: [&str; 8] = ["map", "look up", "list", "modify", "compact", "page image", "check", "make"];
const UNWRITTEN: u8 = 0x55;
const UNWRITTEN_WORD: u64 = 0x5555_5555_5555_5555;

#[derive(Default)]
pub struct Counts {
    // By kind of call and by the answer's number.
    answers: [[u64; 12]; 8],
    damaged: [[u64; 12]; 8],
    // Calls on which the oracle had its say, and accepted calls on which it may differ: a fill that it loses.
    oracle: [u64; 8],
    lost_fills: u64,
    planted: u64,
    // Calls on a pool of 4,096 tables.
    large: u64,
    by_rule: [u64; 5],
    words: u64,
}

impl Counts {
    pub fn calls(&self) -> u64 {
        self.answers.iter().chain(&self.damaged).flatten().sum()
    }

    pub fn print(&self) {
        println!("| call | run | accepted | refused, by number | compared with the oracle |");
        println!("|---|---|---|---|---|");
        for (name, answers, oracle) in [("", &self.answers, true), (" on a damaged pool, with other lengths or another handle", &self.damaged, false)] {
            for (kind, row) in answers.iter().enumerate().filter(|(_, row)| row.iter().sum::<u64>() > 0) {
                let refused: Vec<String> = (1..12).filter(|&number| row[number] > 0).map(|number| format!("{number}: {}", row[number])).collect();
                let compared = if oracle { self.oracle[kind].to_string() } else { "-".into() };
                println!("| {}{name} | {} | {} | {} | {compared} |", KINDS[kind], row.iter().sum::<u64>(), row[0], refused.join(", "));
            }
        }
        println!("chunks of accepted maps, by rules 1 to 5: {:?}", self.by_rule);
        println!("words written between calls by another hand, the pool still sound: {}", self.planted);
        println!("accepted calls that split an entry which ends at 2^64 and is not zero (the oracle loses its fill; compared with the model alone): {}", self.lost_fills);
        println!("calls on a pool of 4,096 tables: {}", self.large);
        println!("words compared with the oracle's: {}", self.words);
    }
}

fn kind(call: &Call) -> usize {
    match call {
        Call::Map(_) => 0,
        Call::LookUp(_) => 1,
        Call::List(..) => 2,
        Call::Modify(..) => 3,
        Call::Compact => 4,
        Call::Image(..) => 5,
        Call::Check => 6,
        Call::Make => 7,
        Call::Plant(..) => unreachable!(),
    }
}

// The oracle's answer in our numbers.
fn told(answered: Result<(), Refused>, accepted: Answer) -> Answer {
    match answered {
        Ok(()) => accepted,
        Err(refused) => answer(refused.number, &refused.carries),
    }
}

fn same<T: PartialEq + std::fmt::Debug>(what: &str, ours: T, theirs: T) -> Result<(), String> {
    if ours == theirs { Ok(()) } else { Err(format!("{what}: {ours:x?}, not {theirs:x?}")) }
}

fn same_words(what: &str, ours: &[u64], theirs: &[u64]) -> Result<(), String> {
    if ours == theirs {
        return Ok(());
    }
    let place = ours.iter().zip(theirs).position(|(one, other)| one != other);
    let shown = place.map(|place| format!("table {} word {} is {:#x}, not {:#x}", place / 512, place % 512, ours[place], theirs[place]));
    Err(format!("{what}: {}", shown.unwrap_or("length".into())))
}

pub struct Run {
    pub ours: Ours,
    model: Pool,
    oracle: Oracle,
}

// What a call gives: the model's answer. The list or page that it writes is compared too.
fn on_both(ours: &mut Ours, model: &mut Pool, call: &Call) -> Result<Answer, String> {
    let (told, expected) = match call {
        Call::Map(map) => (face::map(ours, map), model.map(map)),
        Call::LookUp(va) => (face::look_up(ours, *va), model.look_up(*va)),
        Call::List(start, end, room) => {
            let (expected, lines, length) = model.list(*start, *end, |needed| room.length(needed));
            let mut list = Lent::filled(UNWRITTEN_WORD, length as usize);
            let told = face::list(ours, *start, *end, &mut list);
            written("list", &list, &lines, UNWRITTEN_WORD)?;
            (told, expected)
        }
        Call::Modify(modify, room) => {
            let (expected, numbers, length) = model.modify(modify, |needed| room.length(needed));
            let mut list = Lent::filled(UNWRITTEN_WORD, length as usize);
            let told = face::modify(ours, modify, &mut list);
            written("list", &list, &numbers, UNWRITTEN_WORD)?;
            (told, expected)
        }
        Call::Compact => (face::compact(ours), model.compact()),
        Call::Image(table, length) => {
            let (expected, bytes) = model.image(*table, *length);
            let mut page = Lent::filled(UNWRITTEN, *length);
            let told = face::image(ours, *table, &mut page);
            written("page", &page, &bytes, UNWRITTEN)?;
            (told, expected)
        }
        Call::Check => (face::check(ours), model.check()),
        Call::Make => (face::make(ours), model.remake()),
        Call::Plant(..) => unreachable!(),
    };
    same("answer", told, expected)?;
    same_words("words", &ours.words, &model.words)?;
    same("ledger", &ours.ledger[..], &model.ledger[..])?;
    same("nothing is written outside what is lent", ours.is_guarded(), true)?;
    Ok(expected)
}

// What was lent begins with what is expected, the rest of it is unwritten, and so is all around it.
fn written<T: Copy + PartialEq + std::fmt::Debug>(what: &str, lent: &Lent<T>, expected: &[T], unwritten: T) -> Result<(), String> {
    same(what, &lent[..expected.len()], expected)?;
    same("the rest of it is as it was", lent[expected.len()..].iter().all(|&element| element == unwritten), true)?;
    same("nothing is written around it", lent.is_guarded(), true)
}

impl Run {
    pub fn new(n: usize, handle: Handle) -> Run {
        let model = Pool::make(n, handle);
        // ptb makes its pool of whatever stands there.
        let mut ours = Ours::of(&Pool::of(vec![UNWRITTEN_WORD; SLOTS * n], vec![UNWRITTEN_WORD as u32; n], handle));
        assert_eq!(face::make(&mut ours), answer(0, &[]));
        assert!(ours.words[..] == model.words && ours.ledger[..] == model.ledger && ours.is_guarded());
        Run { ours, model, oracle: Oracle::new(n, handle.base, handle.level, handle.upper()) }
    }

    // Takes over the pools of another run of the same size.
    pub fn load(&mut self, other: &Run) {
        self.model.words.copy_from_slice(&other.model.words);
        self.model.ledger.copy_from_slice(&other.model.ledger);
        self.ours.load(&other.ours.words, &other.ours.ledger);
        self.oracle.load(other.oracle.words(), &other.model.ledger);
    }

    pub fn step(&mut self, (call, damages): &Step, counts: &mut Counts) -> Result<Answer, String> {
        counts.large += (self.model.ledger.len() == 4096) as u64;
        if !damages.is_empty() {
            return self.damaged(call, damages, counts);
        }
        if let Call::Plant(va, frame, flags) = call {
            self.model.plant(*va, *frame, *flags);
            self.ours.load(&self.model.words, &self.model.ledger);
            self.oracle.load(&self.model.words, &self.model.ledger);
            counts.planted += 1;
            return Ok(answer(0, &[]));
        }
        let expected = on_both(&mut self.ours, &mut self.model, call)?;
        counts.answers[kind(call)][expected.0 as usize] += 1;
        for by_level in std::mem::take(&mut self.model.met).chunks {
            counts.by_rule.iter_mut().zip(by_level).for_each(|(sum, chunks)| *sum += chunks);
        }
        same("ledger against the words", &self.model.ledger, &self.model.ledger_of_words()?)?;
        same("check", face::check(&mut self.ours), answer(0, &[]))?;
        self.ask_oracle(call, expected, counts)?;
        Ok(expected)
    }

    fn ask_oracle(&mut self, call: &Call, expected: Answer, counts: &mut Counts) -> Result<(), String> {
        // The domain: what is accepted, and refusals 3 (but on modify), 5 and 6.
        let inside = match (call, expected.0) {
            (Call::Modify(..), 3) | (Call::Image(..) | Call::Check | Call::Make, _) => false,
            (_, 0 | 3 | 5 | 6) => true,
            _ => false,
        };
        // The last upper page is no region of the crate.
        let last_page = matches!(call, Call::LookUp(va) if *va >= 0u64.wrapping_sub(4096));
        if !inside || last_page {
            return Ok(());
        }
        if expected.0 == 0 && self.model.lost_fill {
            counts.lost_fills += 1;
            self.oracle.load(&self.model.words, &self.model.ledger);
            return Ok(());
        }
        counts.oracle[kind(call)] += 1;
        let said = match call {
            Call::Map(map) => told(self.oracle.map(map.start, map.end, map.frame, map.flags, map.constraints), expected),
            Call::LookUp(va) => match self.oracle.walk(*va) {
                Ok((word, level)) => Pool::meaning(word, level, *va),
                // The crate tells of the region's page, the slip of the address.
                Err(refused) => answer(refused.number, &[*va]),
            },
            Call::List(start, end, _) => {
                let mut lines = vec![];
                let said = told(self.oracle.list(*start, *end, &mut lines), expected);
                let expected = self.model.list(*start, *end, |needed| needed).1;
                same_words("the oracle's list", &expected, &lines)?;
                said
            }
            // Not live in any case: only the words are compared.
            Call::Modify(modify, _) => told(self.oracle.modify(modify.start, modify.end, modify.set, modify.clear, false), expected),
            Call::Compact => {
                self.oracle.compact();
                expected
            }
            Call::Image(..) | Call::Check | Call::Make | Call::Plant(..) => unreachable!(),
        };
        same("the oracle's answer", expected, said)?;
        counts.words += self.ours.words.len() as u64;
        same_words("the oracle's words", &self.ours.words, self.oracle.words())
    }

    // The call on a copy that something befell, most often unsound. The check says so too.
    fn damaged(&self, call: &Call, damages: &[Damage], counts: &mut Counts) -> Result<Answer, String> {
        let mut model = self.model.clone();
        model.trusted = false;
        damages.iter().for_each(|damage| befall(&mut model, damage));
        let mut ours = Ours::of(&model);
        same("check", face::check(&mut ours), model.check())?;
        let expected = on_both(&mut ours, &mut model, call)?;
        counts.damaged[kind(call)][expected.0 as usize] += 1;
        Ok(expected)
    }
}

fn befall(pool: &mut Pool, damage: &Damage) {
    match *damage {
        Damage::Word { link, place, flip } => {
            let links: Vec<usize> = pool.ledger.iter().filter(|&&number| link && number >= 8).map(|&number| number as usize / 8 - 1).collect();
            let any = links.get(place as usize % links.len().max(1)).copied().unwrap_or(place as usize % pool.words.len().max(1));
            if let Some(word) = pool.words.get_mut(any) {
                *word ^= flip;
            }
        }
        Damage::Number { place, flip } => {
            let any = place as usize % pool.ledger.len().max(1);
            if let Some(number) = pool.ledger.get_mut(any) {
                *number ^= flip;
            }
        }
        Damage::Lengths { words, numbers } => {
            pool.words.resize(pool.words.len().saturating_add_signed(words as isize), 0);
            pool.ledger.resize(pool.ledger.len().saturating_add_signed(numbers as isize), 0);
        }
        Damage::Handle(handle) => pool.handle = handle,
    }
}
