// A stand-in for the crate bitflags, version 2, for the oracle's build: as much of it as aarch64-paging uses. As there, `!` truncates to the declared bits and
// `from_bits_retain` keeps all; `-` takes bits away without truncating.
#![no_std]

pub trait Flags: Sized {
    type Bits;
    fn bits(&self) -> Self::Bits;
    fn from_bits_retain(bits: Self::Bits) -> Self;
    fn is_empty(&self) -> bool;
    fn contains(&self, other: Self) -> bool;
}

#[macro_export]
macro_rules! bitflags {
    ($(#[$outer:meta])* pub struct $name:ident: $bits:ty { $($(#[$inner:meta])* const $flag:ident = $value:expr;)* }) => {
        $(#[$outer])*
        pub struct $name($bits);

        #[allow(non_upper_case_globals)]
        impl $name {
            $($(#[$inner])* pub const $flag: Self = Self($value);)*
            const DECLARED: $bits = 0 $(| $value)*;

            pub const fn empty() -> Self {
                Self(0)
            }
            pub const fn all() -> Self {
                Self(Self::DECLARED)
            }
            pub const fn bits(&self) -> $bits {
                self.0
            }
            pub const fn from_bits_retain(bits: $bits) -> Self {
                Self(bits)
            }
            pub const fn from_bits_truncate(bits: $bits) -> Self {
                Self(bits & Self::DECLARED)
            }
            pub const fn is_empty(&self) -> bool {
                self.0 == 0
            }
            pub const fn contains(&self, other: Self) -> bool {
                self.0 & other.0 == other.0
            }
            pub const fn union(self, other: Self) -> Self {
                Self(self.0 | other.0)
            }
        }

        impl $crate::Flags for $name {
            type Bits = $bits;
            fn bits(&self) -> $bits {
                self.0
            }
            fn from_bits_retain(bits: $bits) -> Self {
                Self(bits)
            }
            fn is_empty(&self) -> bool {
                self.0 == 0
            }
            fn contains(&self, other: Self) -> bool {
                self.0 & other.0 == other.0
            }
        }

        impl core::ops::BitOr for $name {
            type Output = Self;
            fn bitor(self, other: Self) -> Self {
                Self(self.0 | other.0)
            }
        }
        impl core::ops::BitAnd for $name {
            type Output = Self;
            fn bitand(self, other: Self) -> Self {
                Self(self.0 & other.0)
            }
        }
        impl core::ops::BitXor for $name {
            type Output = Self;
            fn bitxor(self, other: Self) -> Self {
                Self(self.0 ^ other.0)
            }
        }
        impl core::ops::Sub for $name {
            type Output = Self;
            fn sub(self, other: Self) -> Self {
                Self(self.0 & !other.0)
            }
        }
        impl core::ops::Not for $name {
            type Output = Self;
            fn not(self) -> Self {
                Self(!self.0 & Self::DECLARED)
            }
        }
    };
}
