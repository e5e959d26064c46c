// The oracle: the published crate's root table over a buffer of n tables that are handed out as ours are, so that all words can be compared. Table k stands at
// base + 4096 * k, a new table is the lowest free one, and a freed one is zeroed.
use aarch64_paging::descriptor::{Descriptor, El1Attributes, PhysicalAddress, UpdatableDescriptor};
use aarch64_paging::paging::{Constraints, El1And0, MemoryRegion, PageTable, RootTable, Translation, VaRange};
use aarch64_paging::MapError;
use std::alloc::{alloc_zeroed, dealloc, Layout};
use std::cell::Cell;
use std::ptr::NonNull;

const SLOTS: usize = 512;
const MOST: usize = 4096;

type Table = PageTable<El1Attributes>;

// The lent tables; bit k % 64 of word k / 64 of `free` is set where table k is free.
struct Tables {
    first: NonNull<Table>,
    n: usize,
    base: u64,
    free: Vec<Cell<u64>>,
}

impl Tables {
    fn layout(n: usize) -> Layout {
        Layout::array::<Table>(n).unwrap()
    }

    fn new(n: usize, base: u64) -> Tables {
        assert!(1 <= n && n <= MOST);
        // A table is 512 words, for which zero is a value.
        let first = unsafe { NonNull::new(alloc_zeroed(Self::layout(n)) as *mut Table).unwrap() };
        let tables = Tables { first, n, base, free: vec![Cell::new(0); n.div_ceil(64)] };
        (0..n).for_each(|k| tables.set_free(k));
        tables
    }

    fn set_free(&self, k: usize) {
        let word = &self.free[k / 64];
        word.set(word.get() | 1 << (k % 64));
    }

    fn table(&self, k: usize) -> NonNull<Table> {
        assert!(k < self.n, "a table outside the pool");
        unsafe { self.first.add(k) }
    }

    fn words(&self) -> *mut u64 {
        self.first.as_ptr() as *mut u64
    }
}

impl Drop for Tables {
    fn drop(&mut self) {
        unsafe { dealloc(self.first.as_ptr() as *mut u8, Self::layout(self.n)) }
    }
}

impl Translation<El1Attributes> for Tables {
    fn allocate_table(&mut self) -> (NonNull<Table>, PhysicalAddress) {
        let place = self.free.iter().position(|word| word.get() != 0).expect("no free table");
        let free = self.free[place].get();
        let k = 64 * place + free.trailing_zeros() as usize;
        self.free[place].set(free & (free - 1));
        (self.table(k), PhysicalAddress(self.base as usize + 4096 * k))
    }

    unsafe fn deallocate_table(&mut self, table: NonNull<Table>) {
        let k = unsafe { table.offset_from(self.first) } as usize;
        self.set_free(k);
        unsafe { self.words().add(SLOTS * k).write_bytes(0, SLOTS) }
    }

    fn physical_to_virtual(&self, pa: PhysicalAddress) -> NonNull<Table> {
        self.table((pa.0 - self.base as usize) / 4096)
    }
}

// The crate's errors that have a number on our slip: 3, 5 and 6.
pub struct Refused {
    pub number: u64,
    pub carries: Vec<u64>,
}

fn refused(error: MapError) -> Refused {
    let (number, carries) = match error {
        MapError::InvalidFlags(flags) => (3, vec![flags as u64]),
        MapError::RegionBackwards(region) => (5, vec![region.start().0 as u64, region.end().0 as u64]),
        MapError::AddressRange(address) => (6, vec![address.0 as u64]),
        other => panic!("{other:?}"),
    };
    Refused { number, carries }
}

fn region(start: u64, end: u64) -> MemoryRegion {
    MemoryRegion::new(start as usize, end as usize)
}

fn attributes(bits: u64) -> El1Attributes {
    El1Attributes::from_bits_retain(bits as usize)
}

pub struct Oracle {
    root: RootTable<El1And0, Tables>,
}

impl Oracle {
    pub fn new(n: usize, base: u64, level: u64, upper: bool) -> Oracle {
        let range = if upper { VaRange::Upper } else { VaRange::Lower };
        Oracle { root: RootTable::with_va_range(Tables::new(n, base), level as usize, El1And0, range) }
    }

    pub fn words(&self) -> &[u64] {
        let tables = self.root.translation();
        unsafe { std::slice::from_raw_parts(tables.words(), SLOTS * tables.n) }
    }

    // Takes over the words of a pool of the same size and base, with its free tables.
    pub fn load(&mut self, words: &[u64], ledger: &[u32]) {
        let tables = self.root.translation();
        assert_eq!((words.len(), ledger.len()), (SLOTS * tables.n, tables.n));
        tables.free.iter().for_each(|word| word.set(0));
        (0..tables.n).filter(|&k| ledger[k] == 0).for_each(|k| tables.set_free(k));
        // The crate keeps no reference to a word between its calls.
        unsafe { tables.words().copy_from_nonoverlapping(words.as_ptr(), words.len()) }
    }

    pub fn map(&mut self, start: u64, end: u64, frame: u64, flags: u64, constraints: u64) -> Result<(), Refused> {
        let constraints = Constraints::from_bits_retain(constraints as usize);
        self.root.map_range(&region(start, end), PhysicalAddress(frame as usize), attributes(flags), constraints).map_err(refused)
    }

    // Four numbers for each entry that the crate's walk meets: start, end, word, level.
    pub fn list(&self, start: u64, end: u64, lines: &mut Vec<u64>) -> Result<(), Refused> {
        let mut push = |region: &MemoryRegion, entry: &Descriptor<El1Attributes>, level: usize| {
            let word = entry.output_address().0 | entry.flags().bits();
            lines.extend_from_slice(&[region.start().0 as u64, region.end().0 as u64, word as u64, level as u64]);
            Ok(())
        };
        self.root.walk_range(&region(start, end), &mut push).map_err(refused)
    }

    // The word and level at which the crate's walk of one page ends.
    pub fn walk(&self, va: u64) -> Result<(u64, u64), Refused> {
        let page = va & !4095;
        let mut found = (0, 0);
        let mut note = |_: &MemoryRegion, entry: &Descriptor<El1Attributes>, level: usize| {
            found = ((entry.output_address().0 | entry.flags().bits()) as u64, level as u64);
            Ok(())
        };
        self.root.walk_range(&region(page, page + 4096), &mut note).map_err(refused)?;
        Ok(found)
    }

    // Sets and clears bits of valid blocks and pages.
    pub fn modify(&mut self, start: u64, end: u64, set: u64, clear: u64, live: bool) -> Result<(), Refused> {
        let update = |_: &MemoryRegion, entry: &mut UpdatableDescriptor<El1Attributes>| {
            if entry.is_table() || !entry.flags().contains(El1Attributes::VALID) {
                return Ok(());
            }
            entry.modify_flags(attributes(set), attributes(clear))
        };
        self.root.modify_range(&region(start, end), &update, live).map(|_| ()).map_err(refused)
    }

    pub fn compact(&mut self) {
        self.root.compact_subtables();
    }
}
