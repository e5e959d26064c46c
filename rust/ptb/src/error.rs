// The refusal slip: each refusal's meaning and values.
use crate::types::{Flags, PhysicalAddress, Region, VirtualAddress};
use core::fmt::{Display, Formatter, Result};

/// Why a call was refused. It has then changed nothing that it was lent. Where several refusals apply, the lowest number is given.
///
/// ```
/// use ptb::{Error, PhysicalAddress};
/// assert_eq!(Error::Frame(PhysicalAddress(0x1234)).number(), 7);
/// assert_eq!(Error::Frame(PhysicalAddress(0x1234)).to_string(), "refusal 7: the frame 0x1234 is not a multiple of 4096, or frame + length is above 2^48");
/// ```
#[derive(Clone, Copy, Debug, PartialEq, Eq, Hash)]
pub enum Error {
    /// 1: n is 0 or above 4096, lengths disagree, base is not a multiple of 4096 or its end is above 2^48, or a table's number is not below n.
    Shape,
    /// 2: the end is 0 or above 2^64 - 4096.
    End(VirtualAddress),
    /// 3: a flag argument has bit 1.
    InvalidFlags(Flags),
    /// 4: a flag outside the set; modify: bit 0 to set, or a bit both set and cleared.
    FlagSet(Flags),
    /// 5: the rounded end is below the rounded start. It carries both, rounded.
    RegionBackwards(Region),
    /// 6: an address outside the root's span, a region's rounded.
    AddressRange(VirtualAddress),
    /// 7: the frame is not a multiple of 4096, or frame + length is above 2^48.
    Frame(PhysicalAddress),
    /// 8: the pool is not sound; look up: a table word on its path points outside the pool.
    Unsound,
    /// 9: new tables needed exceed those free at entry.
    WantOfRoom {
        /// New tables that the call needs.
        needed: u64,
        /// Tables that are free.
        free: u64,
    },
    /// 10: a live edit that the house rule forbids: the old word at the lowest such address.
    HouseRule(u64),
    /// 11: a list that is shorter than needed: the length in numbers, for a list of lines four a line.
    Short(u64),
}

impl Error {
    /// The refusal's number, from 1 to 11.
    pub const fn number(&self) -> u64 {
        match self {
            Error::Shape => 1,
            Error::End(_) => 2,
            Error::InvalidFlags(_) => 3,
            Error::FlagSet(_) => 4,
            Error::RegionBackwards(_) => 5,
            Error::AddressRange(_) => 6,
            Error::Frame(_) => 7,
            Error::Unsound => 8,
            Error::WantOfRoom { .. } => 9,
            Error::HouseRule(_) => 10,
            Error::Short(_) => 11,
        }
    }

    // What the library returned and wrote.
    pub(crate) fn of(number: u64, answer: [u64; 4]) -> Error {
        let [first, second, ..] = answer;
        match number {
            1 => Error::Shape,
            2 => Error::End(VirtualAddress(first)),
            3 => Error::InvalidFlags(Flags(first)),
            4 => Error::FlagSet(Flags(first)),
            5 => Error::RegionBackwards(Region::new(first, second)),
            6 => Error::AddressRange(VirtualAddress(first)),
            7 => Error::Frame(PhysicalAddress(first)),
            8 => Error::Unsound,
            9 => Error::WantOfRoom { needed: first, free: second },
            10 => Error::HouseRule(first),
            11 => Error::Short(first),
            other => panic!("refusal {other} is not in include/ptb.h"),
        }
    }
}

impl Display for Error {
    fn fmt(&self, to: &mut Formatter) -> Result {
        write!(to, "refusal {}: ", self.number())?;
        match self {
            Error::Shape => write!(
                to,
                "n is 0 or above 4096, lengths disagree, base not a multiple of 4096 or its end above 2^48, root level above 3, table number not below n"
            ),
            Error::End(end) => write!(to, "the end {end} is 0 or above 2^64 - 4096"),
            Error::InvalidFlags(flags) => write!(to, "the flag argument {flags} has bit 1"),
            Error::FlagSet(flags) => write!(to, "the flag argument {flags} has a flag outside the set; modify: bit 0 to set, or a bit both set and cleared"),
            Error::RegionBackwards(region) => write!(to, "the rounded end {} is below the rounded start {}", region.end, region.start),
            Error::AddressRange(address) => write!(to, "the address {address} is outside the root's span"),
            Error::Frame(frame) => write!(to, "the frame {frame} is not a multiple of 4096, or frame + length is above 2^48"),
            Error::Unsound => write!(to, "the pool is not sound; look up: a table word on its path points outside the pool"),
            Error::WantOfRoom { needed, free } => write!(to, "new tables needed ({needed}) exceed those free at entry ({free})"),
            Error::HouseRule(word) => write!(to, "live house rule broken, the old word is {word:#x}"),
            Error::Short(needed) => write!(to, "list shorter than needed: {needed} numbers"),
        }
    }
}

impl core::error::Error for Error {}
