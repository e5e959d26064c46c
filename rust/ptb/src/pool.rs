// A pool and its calls. All that is unsafe stands here: each call is lent whole slices that outlive it and do not overlap, and four numbers for its answer.
use crate::error::Error;
use crate::names::*;
use crate::types::{Constraints, Entry, Flags, Handle, Level, Line, PhysicalAddress, Range, Region, VirtualAddress};
use crate::PAGE_SIZE;

/// Tables with their ledger and handle. `W` gives the words, 512 for each of n tables; `L` the ledger, n numbers. Both may be borrowed (`&mut [u64]`; `&[u64]` for
/// the calls that only read) or owned (an array or a vector).
///
/// A pool of any words is safe to use: every call that needs a sound one tests it.
#[derive(Clone, Debug, PartialEq, Eq)]
pub struct Pool<W, L> {
    words: W,
    ledger: L,
    handle: Handle,
}

fn range_number(range: Range) -> u64 {
    match range {
        Range::Lower => 0,
        Range::Upper => 1,
    }
}

// The C call with the pool's arguments in front of its own and the answer behind them: what it answered, or why it was refused.
macro_rules! called {
    ($name:ident, $pool:expr, $slice:ident, $pointer:ident $(, $argument:expr)*) => {{
        let Handle { base, level, range } = $pool.handle;
        let (words, ledger) = ($pool.words.$slice(), $pool.ledger.$slice());
        let mut answer = [0; 4];
        // SAFETY: pointers and lengths are those of slices borrowed for the call, as the C call reads or writes them; slices borrowed to be written overlap nothing.
        let number = unsafe {
            $name(
                words.$pointer(), words.len(), ledger.$pointer(), ledger.len(), base.0, level.number(), range_number(range)
                $(, $argument)*, answer.as_mut_ptr(),
            )
        };
        if number == 0 { Ok(answer) } else { Err(Error::of(number, answer)) }
    }};
}

impl<W, L> Pool<W, L> {
    /// A pool of words and ledger as they stand. [`check`](Pool::check) says whether it is sound.
    pub const fn of(words: W, ledger: L, handle: Handle) -> Pool<W, L> {
        Pool { words, ledger, handle }
    }

    /// The handle.
    pub const fn handle(&self) -> Handle {
        self.handle
    }

    /// Gives words and ledger back.
    pub fn into_parts(self) -> (W, L) {
        (self.words, self.ledger)
    }
}

impl<W: AsRef<[u64]>, L: AsRef<[u32]>> Pool<W, L> {
    /// The words, 512 for each table.
    pub fn words(&self) -> &[u64] {
        self.words.as_ref()
    }

    /// The ledger: 0 for a free table, 4 + level for the root, and 4 + level + 8 * (512 * p + i + 1) for a table that slot i of table p refers to.
    pub fn ledger(&self) -> &[u32] {
        self.ledger.as_ref()
    }

    /// Checks that the pool is sound, whoever wrote its words. Refusals 1 and 8.
    ///
    /// ```
    /// # use ptb::*;
    /// # let handle = Handle { base: PhysicalAddress(0x8000_0000), level: Level::One, range: Range::Lower };
    /// let words = [0; 512];
    /// assert_eq!(Pool::of(&words[..], &[5][..], handle).check(), Ok(()));
    /// assert_eq!(Pool::of(&words[..], &[6][..], handle).check(), Err(Error::Unsound));
    /// ```
    pub fn check(&self) -> Result<(), Error> {
        called!(ptb_check, self, as_ref, as_ptr).map(|_| ())
    }

    /// Looks an address up: the Arm walk, on any words. Refusals 1, 6 and 8.
    ///
    /// ```
    /// # use ptb::*;
    /// # let handle = Handle { base: PhysicalAddress(0x8000_0000), level: Level::One, range: Range::Lower };
    /// let mut pool = Pool::make([0; 512], [0; 1], handle)?;
    /// pool.map(Region::new(0, 0x4000_0000), PhysicalAddress(0x4000_0000), Flags(0x401), Constraints::NONE)?;
    /// let frame = PhysicalAddress(0x4123_4000);
    /// assert_eq!(pool.look_up(VirtualAddress(0x123_4567))?, Entry::Block { level: Level::One, frame, flags: Flags(0x401) });
    /// assert_eq!(pool.look_up(VirtualAddress(1 << 39)), Err(Error::AddressRange(VirtualAddress(1 << 39))));
    /// # Ok::<(), Error>(())
    /// ```
    pub fn look_up(&self, address: VirtualAddress) -> Result<Entry, Error> {
        let [kind, level, flags, frame] = called!(ptb_look_up, self, as_ref, as_ptr, address.0)?;
        let (flags, frame) = (Flags(flags), PhysicalAddress(frame));
        Ok(match (kind, Level::of(level)) {
            (0, Some(level)) => Entry::Hole { level, flags },
            (1, Some(level)) => Entry::Block { level, frame, flags },
            (2, Some(Level::Three)) => Entry::Page { frame, flags },
            _ => panic!("kind {kind} of level {level} is not in include/ptb.h"),
        })
    }

    /// Lists the entries that the region meets, ascending, and gives the lines that were written; the rest of `lines` stays. Refusals 1, 2, 5, 6, 8 and 11, which
    /// says how many numbers are needed, four a line.
    ///
    /// ```
    /// # use ptb::*;
    /// # let handle = Handle { base: PhysicalAddress(0x8000_0000), level: Level::Three, range: Range::Lower };
    /// let mut pool = Pool::make([0; 512], [0; 1], handle)?;
    /// pool.map(Region::new(0x1000, 0x2000), PhysicalAddress(0x9000), Flags(0x401), Constraints::NONE)?;
    /// let mut lines = [Line::default(); 8];
    /// let listed = pool.list(Region::new(0, 0x3000), &mut lines)?;
    /// assert_eq!(listed.iter().map(Line::word).collect::<Vec<_>>(), [0, 0x9403, 0]);
    /// assert_eq!(pool.list(Region::new(0, 0x3000), &mut lines[..2]), Err(Error::Short(12)));
    /// # Ok::<(), Error>(())
    /// ```
    pub fn list<'a>(&self, region: Region, lines: &'a mut [Line]) -> Result<&'a [Line], Error> {
        // A line is four numbers, whatever they are.
        let [count, ..] = called!(ptb_list, self, as_ref, as_ptr, region.start.0, region.end.0, lines.as_mut_ptr().cast(), 4 * lines.len())?;
        Ok(&lines[..count as usize])
    }

    /// Writes one table's 512 words, little-endian. It does not ask that the pool is sound. Refusal 1: there is no such table.
    ///
    /// ```
    /// # use ptb::*;
    /// # let handle = Handle { base: PhysicalAddress(0x8000_0000), level: Level::Three, range: Range::Lower };
    /// let mut pool = Pool::make([0; 512], [0; 1], handle)?;
    /// pool.map(Region::new(0, 0x1000), PhysicalAddress(0x9000), Flags(0x401), Constraints::NONE)?;
    /// let mut page = [0; PAGE_SIZE];
    /// pool.image(0, &mut page)?;
    /// assert_eq!(page[..8], [0x03, 0x94, 0, 0, 0, 0, 0, 0]);
    /// assert_eq!(pool.image(1, &mut page), Err(Error::Shape));
    /// # Ok::<(), Error>(())
    /// ```
    pub fn image(&self, table: u64, page: &mut [u8; PAGE_SIZE]) -> Result<(), Error> {
        called!(ptb_image, self, as_ref, as_ptr, table, page.as_mut_ptr(), page.len()).map(|_| ())
    }
}

impl<W: AsMut<[u64]>, L: AsMut<[u32]>> Pool<W, L> {
    /// Makes a pool: zeroes all words and the ledger, then enters the root as table 0. Refusal 1, which leaves both as they were.
    ///
    /// ```
    /// # use ptb::*;
    /// # let handle = Handle { base: PhysicalAddress(0x8000_0000), level: Level::One, range: Range::Lower };
    /// let pool = Pool::make(vec![7; 512 * 2], vec![7; 2], handle)?;
    /// assert_eq!(pool.ledger(), [5, 0]);
    /// assert_eq!(Pool::make(vec![7; 512 * 2], vec![7; 3], handle), Err(Error::Shape));
    /// # Ok::<(), Error>(())
    /// ```
    pub fn make(words: W, ledger: L, handle: Handle) -> Result<Pool<W, L>, Error> {
        let mut pool = Pool { words, ledger, handle };
        called!(ptb_make, pool, as_mut, as_mut_ptr)?;
        Ok(pool)
    }

    /// Puts a map down: each page of the region to its frame, ascending from `frame`, with these flags. Without [`Flags::VALID`] the pages become holes with these
    /// flags. It gives the tables in use afterwards, the root among them. Refusals 1 to 9.
    ///
    /// ```
    /// # use ptb::*;
    /// # let handle = Handle { base: PhysicalAddress(0x8000_0000), level: Level::One, range: Range::Lower };
    /// let mut pool = Pool::make([0; 512 * 2], [0; 2], handle)?;
    /// let page = Region::new(0x1000, 0x2000);
    /// assert_eq!(pool.map(page, PhysicalAddress(0x9000), Flags(0x401), Constraints::NONE), Err(Error::WantOfRoom { needed: 2, free: 1 }));
    /// # Ok::<(), Error>(())
    /// ```
    pub fn map(&mut self, region: Region, frame: PhysicalAddress, flags: Flags, constraints: Constraints) -> Result<u64, Error> {
        called!(ptb_map, self, as_mut, as_mut_ptr, region.start.0, region.end.0, frame.0, flags.0, constraints.0).map(|[tables, ..]| tables)
    }
}

/// What a live modify gives: the caller invalidates these pages.
#[derive(Clone, Copy, Debug, PartialEq, Eq)]
pub struct Invalidated<'a> {
    /// The tables in use afterwards.
    pub tables: u64,
    /// The page number (address / 4096 mod 2^44) of each entry that changed.
    pub pages: &'a [u64],
}

impl<W: AsMut<[u64]>, L: AsMut<[u32]>> Pool<W, L> {
    /// Sets and clears bits of the valid blocks and pages of a region, not live, and gives the tables in use afterwards. Refusals 1 to 6, 8 and 9.
    ///
    /// ```
    /// # use ptb::*;
    /// # let handle = Handle { base: PhysicalAddress(0x8000_0000), level: Level::One, range: Range::Lower };
    /// let mut pool = Pool::make([0; 512], [0; 1], handle)?;
    /// let all = Region::new(0, 0x4000_0000);
    /// pool.map(all, PhysicalAddress(0x4000_0000), Flags(0x401), Constraints::NONE)?;
    /// assert_eq!(pool.modify(all, Flags::READ_ONLY, Flags::NONE)?, 1);
    /// assert_eq!(pool.words()[0], 0x4000_0481);
    /// # Ok::<(), Error>(())
    /// ```
    pub fn modify(&mut self, region: Region, set: Flags, clear: Flags) -> Result<u64, Error> {
        let list: &mut [u64] = &mut [];
        called!(ptb_modify, self, as_mut, as_mut_ptr, region.start.0, region.end.0, set.0, clear.0, 0, list.as_mut_ptr(), list.len()).map(|[tables, ..]| tables)
    }

    /// The same on tables that a processor may be walking: the house rule holds, and the pages whose entry changed are listed. The rest of `list` stays. Refusals 1 to
    /// 6 and 8 to 11.
    ///
    /// ```
    /// # use ptb::*;
    /// # let handle = Handle { base: PhysicalAddress(0x8000_0000), level: Level::One, range: Range::Lower };
    /// let mut pool = Pool::make([0; 512], [0; 1], handle)?;
    /// let all = Region::new(0, 0x4000_0000);
    /// pool.map(all, PhysicalAddress(0x4000_0000), Flags(0x401), Constraints::NONE)?;
    /// let mut list = [0; 4];
    /// assert_eq!(pool.modify_live(all, Flags::READ_ONLY, Flags::NONE, &mut list)?, Invalidated { tables: 1, pages: &[0] });
    /// # Ok::<(), Error>(())
    /// ```
    pub fn modify_live<'a>(&mut self, region: Region, set: Flags, clear: Flags, list: &'a mut [u64]) -> Result<Invalidated<'a>, Error> {
        let [tables, count, ..] = called!(ptb_modify, self, as_mut, as_mut_ptr, region.start.0, region.end.0, set.0, clear.0, 1, list.as_mut_ptr(), list.len())?;
        Ok(Invalidated { tables, pages: &list[..count as usize] })
    }

    /// Frees each table other than the root whose words are all zero, from the leaves up, and gives the tables in use afterwards. Refusals 1 and 8.
    ///
    /// ```
    /// # use ptb::*;
    /// # let handle = Handle { base: PhysicalAddress(0x8000_0000), level: Level::One, range: Range::Lower };
    /// let mut pool = Pool::make([0; 512 * 3], [0; 3], handle)?;
    /// assert_eq!(pool.map(Region::new(0x1000, 0x2000), PhysicalAddress(0), Flags::NONE, Constraints::NONE)?, 3);
    /// assert_eq!(pool.compact()?, 1);
    /// # Ok::<(), Error>(())
    /// ```
    pub fn compact(&mut self) -> Result<u64, Error> {
        called!(ptb_compact, self, as_mut, as_mut_ptr).map(|[tables, ..]| tables)
    }
}
