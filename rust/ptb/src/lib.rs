//! Page tables for AArch64 (VMSAv8-64, 4 KiB granule, 48 bits), proved: a safe face over the static library `libptb.a`.
//!
//! A [`Pool`] is words and a ledger, borrowed or owned, with a [`Handle`]. Every call ends on any numbers and any words; a refused call changes nothing, and its
//! [`Error`] says which refusal it is and carries the refusal's values. Nothing is kept between calls. There is no dependency, not even on `std`.
//!
//! ```
//! use ptb::{Constraints, Entry, Flags, Handle, Level, PhysicalAddress, Pool, Range, Region, VirtualAddress};
//!
//! // Eight tables at 0x8000_0000, with a root of level 1 for the lower range.
//! let handle = Handle { base: PhysicalAddress(0x8000_0000), level: Level::One, range: Range::Lower };
//! let mut words = [0; 512 * 8];
//! let mut ledger = [0; 8];
//! let mut pool = Pool::make(&mut words[..], &mut ledger[..], handle)?;
//!
//! // Two pages to the frames from 0x9000 on: three tables are then in use.
//! let flags = Flags::VALID | Flags::ACCESSED;
//! assert_eq!(pool.map(Region::new(0x1000, 0x3000), PhysicalAddress(0x9000), flags, Constraints::NONE)?, 3);
//! assert_eq!(pool.look_up(VirtualAddress(0x2345))?, Entry::Page { frame: PhysicalAddress(0xA000), flags });
//! # Ok::<(), ptb::Error>(())
//! ```
#![no_std]
#![warn(missing_docs)]

mod error;
mod names;
mod pool;
mod types;

pub use error::Error;
pub use pool::{Invalidated, Pool};
pub use types::{Constraints, Entry, Flags, Handle, Level, Line, PhysicalAddress, Range, Region, VirtualAddress};

/// The words of one table.
pub const WORDS_OF_A_TABLE: usize = 512;
/// The bytes of one table, and of a page.
pub const PAGE_SIZE: usize = 4096;
/// The most tables that a pool may have.
pub const MOST_TABLES: usize = 4096;
