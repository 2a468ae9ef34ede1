//! Why a call is refused.

use std::fmt;

macro_rules! refusals {
    ($($number:literal $name:ident $sentence:literal;)*) => {
        /// Why a call is refused. A refused call has changed nothing.
        #[derive(Clone, Copy, PartialEq, Eq, Hash, Debug)]
        #[non_exhaustive]
        pub enum Refusal {
            $(
                #[doc = concat!($sentence, " (", stringify!($number), ")")]
                $name,
            )*
        }

        impl Refusal {
            /// The number that the store's documents give it.
            pub const fn number(self) -> u32 {
                match self {
                    $(Refusal::$name => $number,)*
                }
            }

            /// The refusal of a number, if it is one.
            pub const fn from_number(number: u32) -> Option<Refusal> {
                match number {
                    $($number => Some(Refusal::$name),)*
                    _ => None,
                }
            }

            const fn sentence(self) -> &'static str {
                match self {
                    $(Refusal::$name => $sentence,)*
                }
            }
        }
    };
}

refusals! {
    1 Damaged "The store's tables contradict each other.";
    2 NoSuchEntity "There is no such entity: it was despawned, or never there.";
    3 NotFlushed "Reserved entities wait for a flush.";
    4 NoRoom "No number or no row is left for this.";
    5 ZeroGeneration "A handle with generation 0 stands for nothing.";
    6 BadPlace "There is no such archetype or row.";
    7 UniqueHeld "The column is borrowed uniquely.";
    8 WordHeld "A column is borrowed.";
    9 CountFull "The column is borrowed as often as can be counted.";
    10 NotHeld "The column is not borrowed.";
    11 WrongRelease "The column is borrowed in the other way.";
    12 BadDeclaration "The declaration breaks the sizes or the rules of columns.";
    13 BadLength "A value or a table has the wrong length.";
    14 NoTarget "No declared archetype has these components.";
    15 NoComponent "The entity or the archetype has no such component.";
}

impl fmt::Display for Refusal {
    fn fmt(&self, f: &mut fmt::Formatter<'_>) -> fmt::Result {
        f.write_str(self.sentence())
    }
}

impl std::error::Error for Refusal {}
