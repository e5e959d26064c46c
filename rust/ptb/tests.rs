// Document 01's bench cases, A to K, through the crate, and each refusal's number, values and words.
use ptb::*;

const BASE: u64 = 0x8000_0000;
const GIB: u64 = 0x4000_0000;
const FLAGS: u64 = 0x401;
const LAST: u64 = 0xFFFF_FFFF_FFFF_F000;

type Owned = Pool<Vec<u64>, Vec<u32>>;

fn fresh(n: usize, level: Level, range: Range) -> Owned {
    let handle = Handle { base: PhysicalAddress(BASE), level, range };
    Pool::make(vec![!0; WORDS_OF_A_TABLE * n], vec![!0; n], handle).unwrap()
}

fn case(n: usize) -> Owned {
    fresh(n, Level::One, Range::Lower)
}

fn put(pool: &mut Owned, start: u64, end: u64, frame: u64, flags: u64) -> Result<u64, Error> {
    let before = pool.clone();
    let answered = pool.map(Region::new(start, end), PhysicalAddress(frame), Flags(flags), Constraints::NONE);
    assert!(answered.is_ok() || *pool == before, "a refused call changes nothing");
    assert_eq!(pool.check(), Ok(()));
    answered
}

fn word(pool: &Owned, table: usize, slot: usize) -> u64 {
    pool.words()[WORDS_OF_A_TABLE * table + slot]
}

fn after_a() -> Owned {
    let mut pool = case(8);
    assert_eq!(put(&mut pool, 0, GIB, GIB, FLAGS), Ok(1));
    pool
}

fn after_b(n: usize) -> Owned {
    let mut pool = case(n);
    assert_eq!(put(&mut pool, 0x1000, 0x3000, 0x9000, FLAGS), Ok(3));
    pool
}

#[test]
fn a() {
    assert_eq!(word(&after_a(), 0, 0), 0x4000_0401);
}

#[test]
fn b() {
    for n in [3, 8] {
        let pool = after_b(n);
        assert_eq!((word(&pool, 0, 0), word(&pool, 1, 0)), (0x8000_1003, 0x8000_2003));
        assert_eq!((word(&pool, 2, 1), word(&pool, 2, 2)), (0x9403, 0xA403));
        assert_eq!(pool.ledger()[..3], [5, 14, 4111]);
    }
    assert_eq!(put(&mut case(2), 0x1000, 0x3000, 0x9000, FLAGS), Err(Error::WantOfRoom { needed: 2, free: 1 }));
}

#[test]
fn c_and_d() {
    let mut pool = after_a();
    assert_eq!(put(&mut pool, 0x20_0000, 0x20_1000, 0x4020_0000, FLAGS), Ok(1));
    assert_eq!(pool, after_a());
    assert_eq!(put(&mut pool, 0x20_0000, 0x20_1000, 0x5000_0000, FLAGS), Ok(3));
    assert_eq!((word(&pool, 1, 1), word(&pool, 1, 2)), (0x8000_2003, 0x4040_0401));
    assert_eq!((word(&pool, 2, 0), word(&pool, 2, 1)), (0x5000_0403, 0x4020_1403));
}

#[test]
fn e_and_f() {
    let mut pool = after_b(8);
    assert_eq!(put(&mut pool, 0, GIB, 0, 0), Ok(1));
    assert_eq!(pool, case(8));
    let mut pool = after_b(8);
    assert_eq!(put(&mut pool, 0, GIB, GIB, FLAGS), Ok(3));
    assert_eq!((word(&pool, 2, 0), word(&pool, 1, 1)), (0x4000_0403, 0x4020_0401));
}

#[test]
fn g() {
    let mut pool = case(8);
    assert_eq!(put(&mut pool, 0x1000, 0x2000, 0x1000, 0), Ok(1));
    assert_eq!(put(&mut pool, 0x1000, 0x2000, 0, 0), Ok(3));
    assert_eq!((pool.compact(), &pool), (Ok(1), &case(8)));
}

#[test]
fn h() {
    let mut pool = fresh(8, Level::Zero, Range::Lower);
    assert_eq!(put(&mut pool, 0, 0x80_0000_0000, 0, FLAGS), Ok(2));
    assert_eq!(word(&pool, 0, 0), 0x8000_1003);
    let block = |gib: u64| Entry::Block { level: Level::One, frame: PhysicalAddress(gib * GIB), flags: Flags(FLAGS) };
    assert_eq!((pool.look_up(VirtualAddress(0)), pool.look_up(VirtualAddress(511 * GIB))), (Ok(block(0)), Ok(block(511))));
    assert_eq!(pool.look_up(VirtualAddress(512 * GIB)), Ok(Entry::Hole { level: Level::Zero, flags: Flags::NONE }));
}

#[test]
fn i() {
    let (read_only, page) = (Flags::READ_ONLY, Region::new(0x1000, 0x2000));
    let (mut pool, mut list) = (after_a(), [7; 2]);
    assert_eq!(pool.modify_live(Region::new(0, GIB), read_only, Flags::NONE, &mut list), Ok(Invalidated { tables: 1, pages: &[0] }));
    assert_eq!((word(&pool, 0, 0), list), (0x4000_0481, [0, 7]));
    let mut pool = after_a();
    assert_eq!(pool.modify_live(Region::new(0, GIB), read_only, Flags::NONE, &mut []), Err(Error::Short(1)));
    assert_eq!(pool.modify_live(page, read_only, Flags::NONE, &mut list), Err(Error::HouseRule(0x4000_0401)));
    assert_eq!(pool, after_a());
    assert_eq!(pool.modify(page, read_only, Flags::NONE), Ok(3));
    assert_eq!(word(&pool, 2, 1), 0x4000_1483);
}

#[test]
fn j() {
    let (pool, mut lines) = (after_b(8), [Line::default(); 4]);
    let listed: Vec<_> = pool.list(Region::new(0, 0x3000), &mut lines).unwrap().iter().map(|line| (line.region(), line.word(), line.level())).collect();
    let line = |start, word| (Region::new(start, start + 0x1000), word, Level::Three);
    assert_eq!(listed, [line(0, 0), line(0x1000, 0x9403), line(0x2000, 0xA403)]);
    assert_eq!(lines[3], Line::default());
    assert_eq!(pool.list(Region::new(0, 0x3000), &mut lines[..2]), Err(Error::Short(12)));
}

#[test]
fn k() {
    const TOP: u64 = 0xFFFF_FF80_0000_0000;
    let (mut pool, high) = (case(8), (1 << 48) - 4096);
    assert_eq!(put(&mut pool, 0x7F_FFFF_F000, 0x80_0000_0000, 0, FLAGS), Ok(3));
    assert_eq!(put(&mut pool, 0x7F_FFFF_F000, 0x80_0000_1000, 0, FLAGS), Err(Error::AddressRange(VirtualAddress(0x80_0000_1000))));
    assert_eq!(put(&mut pool, 0x2000, 0x1000, 0, 0x403), Err(Error::InvalidFlags(Flags(0x403))));
    assert_eq!(put(&mut pool, 0x2000, 0x1000, 0, FLAGS), Err(Error::RegionBackwards(Region::new(0x2000, 0x1000))));
    assert_eq!(put(&mut pool, 0, 0x1000, 0, 0x1_0401), Err(Error::FlagSet(Flags(0x1_0401))));
    assert_eq!(put(&mut pool, 0x2000, 0x3000, high, FLAGS), Ok(5));
    assert_eq!(put(&mut pool, 0x2000, 0x4000, high, FLAGS), Err(Error::Frame(PhysicalAddress(high))));
    let mut pool = case(8);
    assert_eq!(put(&mut pool, 0x1000, 0x1000, 0, FLAGS), Ok(1));
    assert_eq!(pool, case(8));
    let mut pool = fresh(8, Level::One, Range::Upper);
    assert_eq!(put(&mut pool, TOP, TOP + 0x1000, 0, FLAGS), Ok(3));
    assert_eq!(put(&mut pool, TOP - 0x1000, TOP + 0x1000, 0, FLAGS), Err(Error::AddressRange(VirtualAddress(TOP - 0x1000))));
    assert_eq!(put(&mut pool, LAST - 0x1000, LAST, 0, FLAGS), Ok(5));
    assert_eq!(put(&mut pool, LAST - 0x1000, LAST + 1, 0, FLAGS), Err(Error::End(VirtualAddress(LAST + 1))));
    assert_eq!(pool.look_up(VirtualAddress(!0)), Ok(Entry::Hole { level: Level::Three, flags: Flags::NONE }));
}

#[test]
fn wrong_shapes() {
    let make = |words: usize, n: usize, base: u64| {
        let handle = Handle { base: PhysicalAddress(base), level: Level::One, range: Range::Lower };
        Pool::make(vec![7; words], vec![7; n], handle).map(|_| ())
    };
    assert_eq!(make(0, 0, BASE), Err(Error::Shape));
    assert_eq!(make(512 * 4097, 4097, BASE), Err(Error::Shape));
    assert_eq!(make(512 * 4096, 4096, BASE), Ok(()));
    assert_eq!(make(511, 1, BASE), Err(Error::Shape));
    assert_eq!(make(512, 1, BASE + 1), Err(Error::Shape));
    assert_eq!(make(512, 1, (1 << 48) - 4096), Ok(()));
    assert_eq!(make(1024, 2, (1 << 48) - 4096), Err(Error::Shape));
}

// Words and ledger that another hand may have written, only read.
#[test]
fn borrowed_and_damaged() {
    let pool = after_b(3);
    let handle = pool.handle();
    let (mut words, ledger) = pool.into_parts();
    assert_eq!(Pool::of(&words[..], &ledger[..], handle).check(), Ok(()));
    words[0] = 0x9000_0003;
    let pool = Pool::of(&words[..], &ledger[..], handle);
    assert_eq!(pool.check(), Err(Error::Unsound));
    assert_eq!(pool.look_up(VirtualAddress(0x1000)), Err(Error::Unsound));
    assert_eq!(pool.list(Region::new(0, 0x1000), &mut []), Err(Error::Unsound));
    let mut page = [0; PAGE_SIZE];
    assert_eq!(pool.image(0, &mut page), Ok(()));
    assert_eq!(page[..8], 0x9000_0003u64.to_le_bytes());
    assert_eq!(pool.image(3, &mut page), Err(Error::Shape));
    let mut pool = Pool::of(words, ledger, handle);
    assert_eq!(pool.map(Region::new(0, 0x1000), PhysicalAddress(0), Flags(FLAGS), Constraints::NONE), Err(Error::Unsound));
}

#[test]
fn in_words() {
    let address = VirtualAddress(0x1000);
    let slip = [
        (Error::Shape, "n is 0 or above 4096"),
        (Error::End(address), "the end 0x1000 is 0 or above 2^64 - 4096"),
        (Error::InvalidFlags(Flags(0x403)), "the flag argument 0x403 has bit 1"),
        (Error::FlagSet(Flags(0x1_0401)), "the flag argument 0x10401 has a flag outside the set"),
        (Error::RegionBackwards(Region::new(0x2000, 0x1000)), "the rounded end 0x1000 is below the rounded start 0x2000"),
        (Error::AddressRange(address), "the address 0x1000 is outside the root's span"),
        (Error::Frame(PhysicalAddress(0x1000)), "the frame 0x1000 is not a multiple of 4096"),
        (Error::Unsound, "the pool is not sound"),
        (Error::WantOfRoom { needed: 2, free: 1 }, "new tables needed (2) exceed those free at entry (1)"),
        (Error::HouseRule(0x4000_0401), "live house rule broken, the old word is 0x40000401"),
        (Error::Short(12), "list shorter than needed: 12 numbers"),
    ];
    for (place, (error, words)) in slip.iter().enumerate() {
        assert_eq!(error.number(), place as u64 + 1);
        assert!(error.to_string().starts_with(&format!("refusal {}: {words}", place + 1)), "{error}");
    }
}
