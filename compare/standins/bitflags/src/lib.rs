//! Stand-in for the crate `bitflags`, version 2: the part of its interface that gpu-alloc uses.
//!
//! A flag type is a word of bits; the operations are the Boolean ones on that word.

#![no_std]

/// Makes a flag type with one constant for each named bit.
#[macro_export]
macro_rules! bitflags {
    (
        $(#[$outer:meta])*
        pub struct $Flags:ident: $Bits:ty {
            $(
                $(#[$inner:meta])*
                const $NAME:ident = $value:expr;
            )*
        }
    ) => {
        $(#[$outer])*
        pub struct $Flags($Bits);

        impl $Flags {
            $(
                $(#[$inner])*
                pub const $NAME: Self = Self($value);
            )*

            /// No bit set.
            pub const fn empty() -> Self {
                Self(0)
            }

            /// The named bits of a word; the others are dropped.
            pub const fn from_bits_truncate(bits: $Bits) -> Self {
                Self(bits & (0 $(| $value)*))
            }

            /// The word.
            pub const fn bits(&self) -> $Bits {
                self.0
            }

            /// Whether no bit is set.
            pub const fn is_empty(&self) -> bool {
                self.0 == 0
            }

            /// Whether every bit of `other` is set.
            pub const fn contains(&self, other: Self) -> bool {
                self.0 & other.0 == other.0
            }

            /// Whether some bit of `other` is set.
            pub const fn intersects(&self, other: Self) -> bool {
                self.0 & other.0 != 0
            }
        }

        impl core::ops::BitOr for $Flags {
            type Output = Self;

            fn bitor(self, other: Self) -> Self {
                Self(self.0 | other.0)
            }
        }

        impl core::ops::BitAnd for $Flags {
            type Output = Self;

            fn bitand(self, other: Self) -> Self {
                Self(self.0 & other.0)
            }
        }
    };
}
