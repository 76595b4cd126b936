//! Why a call was refused.

use core::fmt;

macro_rules! refusals {
    ($($number:literal $name:ident $text:literal),+ $(,)?) => {
        /// Why a call was refused: the first of its tests that applied.
        #[derive(Clone, Copy, Debug, PartialEq, Eq, Hash)]
        #[non_exhaustive]
        pub enum Refusal {
            $(#[doc = $text] $name,)+
            /// The library answered with a value that its header does not
            /// have: it is of another version than this crate. Number 0.
            Unknown,
        }

        impl Refusal {
            /// Every refusal of the header, in the order of the numbers.
            pub const ALL: &'static [Refusal] = &[$(Refusal::$name),+];

            /// The number in the header and the documents.
            pub const fn number(self) -> u32 {
                match self {
                    $(Refusal::$name => $number,)+
                    Refusal::Unknown => 0,
                }
            }

            /// The refusal of a number. Out of the way of the calls that are
            /// not refused: inlined, its table is looked up by every answer.
            #[cold]
            #[inline(never)]
            pub(crate) const fn of(number: u32) -> Refusal {
                match number {
                    $($number => Refusal::$name,)+
                    _ => Refusal::Unknown,
                }
            }

            /// The cause in a few words.
            const fn text(self) -> &'static str {
                match self {
                    $(Refusal::$name => $text,)+
                    Refusal::Unknown => "a value that the header does not have",
                }
            }
        }
    };
}

refusals! {
    1 PayloadTooShort "the payload is under 8 bytes",
    2 TooLong "the payload is over 65,515 bytes, or the original over 65,507",
    3 LengthOutOfRange "the UDP length is under 8 or over the payload's length",
    4 ChecksumWrong "the UDP checksum is wrong",
    5 UnsafeOption "the original has an unsafe option: nothing of it is to be delivered",
    6 OptionStartPastOriginal "the option start is past the original's end",
    7 UnreadableList "the encoded option list can't be read",
    8 TooLarge "the result is too large for the buffer or for a payload",
    9 KindNotWritten "the encoded option list has a kind that is not to be written",
    20 TableMisfit "not 1 to 12 records, or the store is not as long as their plans ask for",
    21 NoSuchClient "there is no such client",
    22 UnsoundRecord "the client's record fails the record test",
    23 OutTooShort "the out buffer is under 8,192 bytes",
    24 EmptyFragment "the fragment has no bytes",
    25 EndPastLimit "the fragment ends past 8,192",
    26 OptionStartPastEnd "the last fragment's option start is past its end",
    27 TimeBeforeLast "the time is before the client's last time",
    28 OfferedPastLimit "the client would have offered more than 10^15 bytes",
    29 NoFreeAssembly "the client has as many originals under way as its plan allows",
    30 AssemblyFull "the original has 64 fragments already",
    32 PlanOutOfRange "a client's plan is not 1 to 8",
}

impl fmt::Display for Refusal {
    fn fmt(&self, f: &mut fmt::Formatter<'_>) -> fmt::Result {
        write!(f, "refused {}: {}", self.number(), self.text())
    }
}

impl std::error::Error for Refusal {}
