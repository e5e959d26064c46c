// Document 01's bench cases, A to K, run on ptb, the model and the oracle, and compared with the numbers that the document prints.
use crate::lent::Lent;
use crate::model::{answer, Answer, Handle, Map, Modify};
use crate::random::{Call, Room};
use crate::run::{Counts, Run};

const BASE: u64 = 0x8000_0000;
const FLAGS: u64 = 0x401;
const GIB: u64 = 0x4000_0000;

struct Case<'a> {
    run: Run,
    counts: &'a mut Counts,
}

impl Case<'_> {
    fn call(&mut self, call: Call) -> Answer {
        self.run.step(&(call, vec![]), self.counts).unwrap_or_else(|how| panic!("{call:x?}: {how}"))
    }

    fn map_flags(&mut self, start: u64, end: u64, frame: u64, flags: u64) -> Answer {
        self.call(Call::Map(Map { start, end, frame, flags, constraints: 0 }))
    }

    fn map(&mut self, start: u64, end: u64, frame: u64) -> Answer {
        self.map_flags(start, end, frame, FLAGS)
    }

    fn words(&self, table: usize, first: usize, expected: &[u64]) {
        let place = 512 * table + first;
        assert_eq!(&self.run.ours.words[place..place + expected.len()], expected, "table {table} from word {first}");
    }
}

fn used(tables: u64) -> Answer {
    answer(0, &[tables])
}

fn fresh(counts: &mut Counts, n: usize, level: u64, upper: bool) -> Case<'_> {
    Case { run: Run::new(n, Handle { base: BASE, level, range: upper as u64 }), counts }
}

fn after_a(counts: &mut Counts) -> Case<'_> {
    let mut case = fresh(counts, 8, 1, false);
    assert_eq!(case.map(0, GIB, GIB), used(1));
    case.words(0, 0, &[0x4000_0401, 0]);
    case
}

fn after_b(counts: &mut Counts, n: usize) -> Case<'_> {
    let mut case = fresh(counts, n, 1, false);
    assert_eq!(case.map(0x1000, 0x3000, 0x9000), used(3));
    case.words(0, 0, &[0x8000_1003, 0]);
    case.words(1, 0, &[0x8000_2003, 0]);
    case.words(2, 0, &[0, 0x9403, 0xA403, 0]);
    assert_eq!(case.run.ours.ledger[..3], [5, 14, 4111]);
    case
}

fn b_to_d(counts: &mut Counts) {
    let mut short = fresh(counts, 2, 1, false);
    assert_eq!(short.map(0x1000, 0x3000, 0x9000), answer(9, &[2, 1]));
    after_b(counts, 3);

    let mut case = after_a(counts);
    let before = case.run.ours.words.to_vec();
    assert_eq!(case.map(0x20_0000, 0x20_1000, 0x4020_0000), used(1));
    assert_eq!(case.run.ours.words[..], before);
    assert_eq!(case.map(0x20_0000, 0x20_1000, 0x5000_0000), used(3));
    case.words(1, 1, &[0x8000_2003, 0x4040_0401]);
    case.words(2, 0, &[0x5000_0403, 0x4020_1403]);
}

fn e_to_h(counts: &mut Counts) {
    let mut case = after_b(counts, 8);
    assert_eq!(case.map_flags(0, GIB, 0, 0), used(1));
    assert!(case.run.ours.words.iter().all(|&word| word == 0));

    let mut case = after_b(counts, 8);
    assert_eq!(case.map(0, GIB, GIB), used(3));
    case.words(2, 0, &[0x4000_0403]);
    case.words(1, 1, &[0x4020_0401]);

    let mut case = fresh(counts, 8, 1, false);
    assert_eq!(case.map_flags(0x1000, 0x2000, 0, 0), used(3));
    case.words(1, 0, &[0x8000_2003, 0]);
    assert_eq!(case.call(Call::Compact), used(1));
    let mut case = fresh(counts, 8, 1, false);
    assert_eq!(case.map_flags(0x1000, 0x2000, 0x1000, 0), used(1));

    let mut case = fresh(counts, 8, 0, false);
    assert_eq!(case.map(0, 0x80_0000_0000, 0), used(2));
    case.words(0, 0, &[0x8000_1003, 0]);
}

fn i(counts: &mut Counts) {
    let modify = |start, end, live| Call::Modify(Modify { start, end, set: 0x80, clear: 0, live }, Room::Exact);
    let mut case = after_a(counts);
    assert_eq!(case.call(modify(0, GIB, true)), answer(0, &[1, 1]));
    case.words(0, 0, &[0x4000_0481]);
    let mut case = after_a(counts);
    assert_eq!(case.call(modify(0x1000, 0x2000, true)), answer(10, &[0x4000_0401]));
    assert_eq!(case.call(modify(0x1000, 0x2000, false)), used(3));
    case.words(2, 1, &[0x4000_1483]);
}

// The lines themselves are compared with the model's and the oracle's; the document's stand here.
fn j(counts: &mut Counts) {
    let mut case = after_b(counts, 8);
    assert_eq!(case.call(Call::List(0, 0x3000, Room::Exact)), answer(0, &[3]));
    let mut lines = Lent::filled(0, 12);
    assert_eq!(crate::face::list(&mut case.run.ours, 0, 0x3000, &mut lines), answer(0, &[3]));
    assert_eq!(lines[..], [0, 0x1000, 0, 3, 0x1000, 0x2000, 0x9403, 3, 0x2000, 0x3000, 0xA403, 3]);
    assert_eq!(case.call(Call::List(0, 0x3000, Room::Short)), answer(11, &[12]));
}

fn k(counts: &mut Counts) {
    const TOP: u64 = 0xFFFF_FF80_0000_0000;
    const LAST: u64 = 0xFFFF_FFFF_FFFF_F000;
    let mut case = fresh(counts, 8, 1, false);
    assert_eq!(case.map(0x7F_FFFF_F000, 0x80_0000_0000, 0).0, 0);
    assert_eq!(case.map(0x7F_FFFF_F000, 0x80_0000_1000, 0), answer(6, &[0x80_0000_1000]));
    assert_eq!(case.map_flags(0x2000, 0x1000, 0, 0x403), answer(3, &[0x403]));
    assert_eq!(case.map_flags(0, 0x1000, 0, 0x1_0401), answer(4, &[0x1_0401]));
    assert_eq!(case.map(0x2000, 0x3000, (1 << 48) - 4096).0, 0);
    assert_eq!(case.map(0x2000, 0x4000, (1 << 48) - 4096), answer(7, &[(1 << 48) - 4096]));
    let mut case = fresh(case.counts, 8, 1, false);
    assert_eq!(case.map(0x1000, 0x1000, 0), used(1));
    assert!(case.run.ours.words.iter().all(|&word| word == 0));
    let mut case = fresh(case.counts, 8, 1, true);
    assert_eq!(case.map(TOP, TOP + 0x1000, 0), used(3));
    assert_eq!(case.map(TOP - 0x1000, TOP + 0x1000, 0), answer(6, &[TOP - 0x1000]));
    assert_eq!(case.map(LAST - 0x1000, LAST, 0), used(5));
    assert_eq!(case.map(LAST - 0x1000, LAST + 1, 0), answer(2, &[LAST + 1]));
}

pub fn all(counts: &mut Counts) {
    b_to_d(counts);
    e_to_h(counts);
    i(counts);
    j(counts);
    k(counts);
}
