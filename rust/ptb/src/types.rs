// What calls take and give: addresses, regions, levels, ranges, flags, constraints, the handle, entries and lines.
use core::fmt::{Debug, Display, Formatter, Result};
use core::ops::{BitAnd, BitOr};

/// An address before translation. It is never taken where a [`PhysicalAddress`] is meant.
#[derive(Clone, Copy, Default, PartialEq, Eq, PartialOrd, Ord, Hash)]
pub struct VirtualAddress(pub u64);

/// An address after translation: of a frame, or of a table.
#[derive(Clone, Copy, Default, PartialEq, Eq, PartialOrd, Ord, Hash)]
pub struct PhysicalAddress(pub u64);

macro_rules! shown_in_hex {
    ($($name:ident),*) => { $(
        impl Display for $name {
            fn fmt(&self, to: &mut Formatter) -> Result {
                write!(to, "{:#x}", self.0)
            }
        }

        impl Debug for $name {
            fn fmt(&self, to: &mut Formatter) -> Result {
                write!(to, "{}({:#x})", stringify!($name), self.0)
            }
        }
    )* };
}

shown_in_hex!(VirtualAddress, PhysicalAddress, Flags);

/// Two addresses as a caller gives them. A call rounds the start down and the end up to 4096.
///
/// ```
/// assert_eq!(ptb::Region::new(0x1001, 0x2001).to_string(), "0x1001..0x2001");
/// ```
#[derive(Clone, Copy, Debug, PartialEq, Eq, Hash)]
pub struct Region {
    /// The first address.
    pub start: VirtualAddress,
    /// The address after the last.
    pub end: VirtualAddress,
}

impl Region {
    /// The region from `start` up to `end`.
    pub const fn new(start: u64, end: u64) -> Region {
        Region { start: VirtualAddress(start), end: VirtualAddress(end) }
    }
}

impl Display for Region {
    fn fmt(&self, to: &mut Formatter) -> Result {
        write!(to, "{}..{}", self.start, self.end)
    }
}

/// The level of a table or entry. Entries of levels 0 to 3 have 2^39, 2^30, 2^21 and 2^12 bytes.
#[derive(Clone, Copy, Debug, PartialEq, Eq, PartialOrd, Ord, Hash)]
pub enum Level {
    /// Level 0: an entry has 512 GiB and is never a block.
    Zero,
    /// Level 1: an entry has 1 GiB.
    One,
    /// Level 2: an entry has 2 MiB.
    Two,
    /// Level 3: an entry has 4 KiB.
    Three,
}

impl Level {
    /// The level of a number from 0 to 3.
    pub const fn of(number: u64) -> Option<Level> {
        match number {
            0 => Some(Level::Zero),
            1 => Some(Level::One),
            2 => Some(Level::Two),
            3 => Some(Level::Three),
            _ => None,
        }
    }

    /// Its number.
    pub const fn number(self) -> u64 {
        self as u64
    }

    /// The bytes of an entry of this level.
    ///
    /// ```
    /// assert_eq!(ptb::Level::Two.entry_size(), 0x20_0000);
    /// ```
    pub const fn entry_size(self) -> u64 {
        1 << (39 - 9 * self.number())
    }

    /// The bytes that a root of this level spans: 512 entries.
    pub const fn span(self) -> u64 {
        512 * self.entry_size()
    }
}

/// The end of the address space that a root spans.
#[derive(Clone, Copy, Debug, PartialEq, Eq, Hash)]
pub enum Range {
    /// From 0 on.
    Lower,
    /// Up to 2^64. The last page can be looked up but not mapped.
    Upper,
}

/// What a call must know of a pool beside its words and its ledger.
#[derive(Clone, Copy, Debug, PartialEq, Eq, Hash)]
pub struct Handle {
    /// The physical address of table 0, the root. Table k is 4096 * k higher.
    pub base: PhysicalAddress,
    /// The root's level.
    pub level: Level,
    /// The end of the address space that the root spans.
    pub range: Range,
}

/// Flag bits of an entry, named as in the published crate. A caller may give bits 0, 2 to 11 and 50 to 63.
#[derive(Clone, Copy, Default, PartialEq, Eq, Hash)]
pub struct Flags(pub u64);

#[allow(missing_docs)]
impl Flags {
    pub const NONE: Flags = Flags(0);
    pub const VALID: Flags = Flags(1);
    pub const NS: Flags = Flags(1 << 5);
    pub const USER: Flags = Flags(1 << 6);
    pub const READ_ONLY: Flags = Flags(1 << 7);
    pub const OUTER_SHAREABLE: Flags = Flags(2 << 8);
    pub const INNER_SHAREABLE: Flags = Flags(3 << 8);
    pub const ACCESSED: Flags = Flags(1 << 10);
    pub const NON_GLOBAL: Flags = Flags(1 << 11);
    pub const GP: Flags = Flags(1 << 50);
    pub const DBM: Flags = Flags(1 << 51);
    pub const PXN: Flags = Flags(1 << 53);
    pub const UXN: Flags = Flags(1 << 54);
    pub const SWFLAG_0: Flags = Flags(1 << 55);
    pub const SWFLAG_1: Flags = Flags(1 << 56);
    pub const SWFLAG_2: Flags = Flags(1 << 57);
    pub const SWFLAG_3: Flags = Flags(1 << 58);
}

impl Flags {
    /// The memory type: an index from 0 to 7 into MAIR, bits 2 to 4. Higher bits of `index` are dropped.
    pub const fn attribute_index(index: u64) -> Flags {
        Flags((index & 7) << 2)
    }

    /// Whether all of these bits are set.
    pub const fn contains(self, flags: Flags) -> bool {
        self.0 & flags.0 == flags.0
    }
}

impl BitOr for Flags {
    type Output = Flags;

    fn bitor(self, other: Flags) -> Flags {
        Flags(self.0 | other.0)
    }
}

impl BitAnd for Flags {
    type Output = Flags;

    fn bitand(self, other: Flags) -> Flags {
        Flags(self.0 & other.0)
    }
}

/// What a map is bound to.
#[derive(Clone, Copy, Debug, Default, PartialEq, Eq, Hash)]
pub struct Constraints(pub u64);

impl Constraints {
    /// Blocks are written where they fit.
    pub const NONE: Constraints = Constraints(0);
    /// Only pages are written.
    pub const NO_BLOCK_MAPPINGS: Constraints = Constraints(1);
    /// Changes nothing: no contiguous hint is ever written.
    pub const NO_CONTIGUOUS_HINT: Constraints = Constraints(2);
}

/// What a walk of an address ends in. Flags are without bit 1.
#[derive(Clone, Copy, Debug, PartialEq, Eq, Hash)]
pub enum Entry {
    /// Not mapped.
    Hole {
        /// The level at which the walk ends.
        level: Level,
        /// The hole's flags.
        flags: Flags,
    },
    /// Mapped by a block, of level 1 or 2.
    Block {
        /// The block's level.
        level: Level,
        /// The frame of the address's page.
        frame: PhysicalAddress,
        /// The block's flags.
        flags: Flags,
    },
    /// Mapped by a page.
    Page {
        /// The page's frame.
        frame: PhysicalAddress,
        /// The page's flags.
        flags: Flags,
    },
}

impl Entry {
    /// The frame of the address's page, if it is mapped.
    pub const fn frame(self) -> Option<PhysicalAddress> {
        match self {
            Entry::Hole { .. } => None,
            Entry::Block { frame, .. } | Entry::Page { frame, .. } => Some(frame),
        }
    }
}

/// One line of a list: an entry that the region meets, or the part of it that lies in the region.
#[derive(Clone, Copy, Debug, Default, PartialEq, Eq, Hash)]
#[repr(transparent)]
pub struct Line(pub(crate) [u64; 4]);

impl Line {
    /// The part of the region that the entry covers.
    pub const fn region(&self) -> Region {
        Region::new(self.0[0], self.0[1])
    }

    /// The entry's word.
    pub const fn word(&self) -> u64 {
        self.0[2]
    }

    /// The entry's level.
    pub const fn level(&self) -> Level {
        match Level::of(self.0[3]) {
            Some(level) => level,
            None => unreachable!(),
        }
    }
}
