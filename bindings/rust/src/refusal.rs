//! Why a call is refused.

use std::error::Error;
use std::fmt;

/// Makes the refusals of a table with each one's number, name and words.
macro_rules! refusals {
    ($($number:literal $name:ident $words:literal)*) => {
        /// Why a call was refused. What was lent to it is as it was.
        #[derive(Clone, Copy, Debug, PartialEq, Eq, Hash)]
        #[non_exhaustive]
        pub enum Refusal {
            $(#[doc = concat!($number, ": ", $words, ".")] $name,)*
            /// A number that this wrapper does not know: the archive is another version's.
            Unknown(u32),
        }

        impl Refusal {
            /// The refusal of this number.
            pub(crate) fn of(number: u32) -> Refusal {
                match number {
                    $($number => Refusal::$name,)*
                    _ => Refusal::Unknown(number),
                }
            }

            /// Its number in the table of refusals.
            pub fn number(self) -> u32 {
                match self {
                    $(Refusal::$name => $number,)*
                    Refusal::Unknown(number) => number,
                }
            }

            fn words(self) -> &'static str {
                match self {
                    $(Refusal::$name => $words,)*
                    Refusal::Unknown(_) => "this wrapper does not know the number",
                }
            }
        }
    };
}

refusals! {
    1 Sizes "there is no node or more than 4,096, more than 16,384 arcs, or not a weight for each head"
    2 Starts "the first start is not 0, a start is below the one before, or the last is not the number of arcs"
    3 Arcs "an arc leaves the graph, ends where it starts, stands twice or out of order, or weighs over 1,000,000"
    4 K "k is 0 or above 32"
    5 Order "the order is no permutation of all nodes"
    6 Set "the set is of another number of nodes, or lists a node that is not there"
    7 Overlay "the overlay is faulty, of another number of nodes, or has an arc that ends outside the set"
    8 Node "a question's node is not in the graph"
    9 Outside "a question's node is not in the set"
    10 Drive "the drive is empty, longer than 4,096, leaves the graph, or has neighbours that no arc joins"
    11 Lengths "a result or work slice is of another length than asked"
    12 Room "the overlay has more than 65,536 arcs"
}

impl fmt::Display for Refusal {
    fn fmt(&self, f: &mut fmt::Formatter<'_>) -> fmt::Result {
        write!(f, "refused by {}: {}", self.number(), self.words())
    }
}

impl Error for Refusal {}

#[cfg(test)]
mod tests {
    use super::Refusal;

    #[test]
    fn each_number_is_kept() {
        for number in (0..100).chain([u32::MAX]) {
            assert_eq!(Refusal::of(number).number(), number);
            let known = !matches!(Refusal::of(number), Refusal::Unknown(_));
            assert_eq!(known, (1..=12).contains(&number));
        }
    }

    #[test]
    fn an_unknown_number_is_no_other_refusal() {
        let refusal = Refusal::of(14);
        assert_eq!(refusal, Refusal::Unknown(14));
        assert_ne!(refusal, Refusal::Room);
        assert_eq!(refusal.to_string(), "refused by 14: this wrapper does not know the number");
    }
}
