//! Why a call was not done.
use core::fmt;

macro_rules! refusals {
    ($($number:literal $name:ident $text:literal)*) => {
        /// Why a call was not done. It has left every lent byte as it was. Of the refusals that apply the first in this list is given.
        #[derive(Clone, Copy, Debug, PartialEq, Eq, Hash)]
        #[non_exhaustive]
        pub enum Refusal {
            $(#[doc = concat!(stringify!($number), ": ", $text, ".")] $name,)*
            /// A number that this crate has no name for: the archive is newer.
            Other(u32),
        }

        impl Refusal {
            /// The number that the index has for it.
            #[must_use]
            pub const fn number(self) -> u32 {
                match self {
                    $(Self::$name => $number,)*
                    Self::Other(number) => number,
                }
            }

            /// The refusal of a number that a call of [`raw`](crate::raw) answered; none for 0, which means done.
            #[must_use]
            pub const fn from_number(number: u32) -> Option<Self> {
                match number {
                    0 => None,
                    $($number => Some(Self::$name),)*
                    _ => Some(Self::Other(number)),
                }
            }
        }

        impl fmt::Display for Refusal {
            fn fmt(&self, f: &mut fmt::Formatter<'_>) -> fmt::Result {
                let why = match self {
                    $(Self::$name => $text,)*
                    Self::Other(_) => "a refusal without a name",
                };
                write!(f, "refused as {}: {why}", self.number())
            }
        }
    };
}

refusals! {
    1 WrongSetting "a setting or the pool's length is wrong"
    2 NotSound "a pool is not sound"
    19 NoTree "the tree's number is not 0 or 1; a call that is given a `Tree` never gives it"
    17 SettingsDiffer "the order or the minimum of either tree differs between the two pools"
    18 TargetNotNew "the pool to pack into is not new"
    3 BatchTooLong "the batch is longer than the tree's order"
    4 ReferencesDiffer "places, sizes and keys differ in number"
    5 KeysDescend "keys descend somewhere"
    6 TooDeep "the tree has depth 8, and the batch is no Remove"
    8 LineEmpty "the line is empty"
    9 LineNotHex "the line has an odd length, or a byte that is not 0-9, a-f"
    13 UnknownHeader "the line's header is not 0 or 1"
    10 LineNotWhole "the line holds no whole number of entries"
    11 TooManyEntries "there are more than 32 entries"
    12 KeysNotAscending "keys do not strictly ascend"
    7 TooFewNodes "too few nodes are unused, and the batch is no Remove; or the pool to pack into has too few"
    14 NoNode "there is no such node"
    15 LineMalformed "a line of the desk program is malformed or too long; no call here gives it"
    16 LineTooShort "the line buffer is too short"
}

impl core::error::Error for Refusal {}

impl From<Refusal> for u32 {
    fn from(refusal: Refusal) -> u32 {
        refusal.number()
    }
}

/// What was told, unless the call was refused.
pub(crate) fn done<T>(number: u32, told: T) -> Result<T, Refusal> {
    match Refusal::from_number(number) {
        None => Ok(told),
        Some(refusal) => Err(refusal),
    }
}
