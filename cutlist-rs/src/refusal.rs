//! Why a call refused.

use std::error::Error;
use std::fmt;

/// Makes the refusals from one table: each one's number, its name and the paper's words for it.
macro_rules! refusals {
    ($($number:literal $name:ident $words:literal)*) => {
        /// Why a call refused. Its text is the paper's words, which name bytes in hexadecimal.
        ///
        /// The numbers have gaps, and more refusals come with more calls.
        #[derive(Clone, Copy, Debug, PartialEq, Eq, Hash)]
        #[non_exhaustive]
        pub enum Refusal {
            $(
                #[doc = concat!(stringify!($number), ": ", $words, ".")]
                $name,
            )*
            /// The library answered with this number, which the crate does not know: the two are
            /// of different versions.
            #[non_exhaustive]
            Unknown(u8),
        }

        impl Refusal {
            /// Every refusal that the crate knows, in the order of the numbers.
            pub const ALL: &'static [Refusal] = &[$(Refusal::$name),*];

            /// The refusal's number.
            pub fn number(self) -> u8 {
                match self {
                    $(Refusal::$name => $number,)*
                    Refusal::Unknown(number) => number,
                }
            }
        }

        impl fmt::Display for Refusal {
            fn fmt(&self, f: &mut fmt::Formatter<'_>) -> fmt::Result {
                match self {
                    $(Refusal::$name => f.write_str($words),)*
                    Refusal::Unknown(number) => {
                        write!(f, "the number {number}, which this version does not know")
                    }
                }
            }
        }
    };
}

refusals! {
    1 Truncated "the plan stops early"
    2 UnfitCommand "a byte that is no command fit for its place"
    3 TrailingByte "a byte after 45"
    4 BadNodeCount "point count not 2 to 64"
    5 TerminalOutside "server or room not below the point count"
    6 SameTerminals "server and room the same point"
    7 EdgeNumberTooHigh "cable number above 63"
    8 EdgeNumberNotRising "cable number not above the one before"
    9 EndOutside "a cable end not below the point count"
    11 RowsDiffer "cut rows and side rows differ in number"
    12 TooManyCuts "more minimal cuts than rows lent"
    13 AbsentEdgeNotZero "an absent cable with an end or metres not 0"
    14 EdgeNotPresent "a given set or row holds a cable not present"
    15 BufferTooShort "the plan needs more bytes than were lent"
    16 BadEvent "an event with an unknown command, or half an event"
    17 NoSuchEdge "an event or a works window of a cable not present"
    18 TooManyEvents "more whole events than bytes lent"
    19 BadRooms "no room, more than 8, a room twice, the server, or a point outside the plan"
    20 WorkTooShort "a step for several rooms needs more work rows than were lent"
    23 TooManyWindows "more than 14 opening windows, or more than 16 works windows"
    24 BadWindow "a window whose start is not below its end or whose end is above 10,080, or a piece of one"
    25 TooManySteps "more than 65,535 steps"
    26 NotTrimmed "some point or present cable is not useful"
    28 BadLength "a length that is not of the cable just before it, or of 0 metres"
}

impl Refusal {
    /// The refusal of this number, if the crate knows one.
    pub fn from_number(number: u8) -> Option<Refusal> {
        let mut all = Refusal::ALL.iter().copied();
        all.find(|refusal| refusal.number() == number)
    }
}

impl Error for Refusal {}

/// The answer to a call that gave this number beside its result: complete only if it is 0.
pub(crate) fn answer<T>(number: u8, result: T) -> Result<T, Refusal> {
    match number {
        0 => Ok(result),
        _ => Err(Refusal::from_number(number).unwrap_or(Refusal::Unknown(number))),
    }
}

#[cfg(test)]
mod tests {
    use super::{answer, Refusal};

    #[test]
    fn numbers_lead_back() {
        for &refusal in Refusal::ALL {
            assert_eq!(Refusal::from_number(refusal.number()), Some(refusal));
            assert_eq!(answer(refusal.number(), ()), Err(refusal));
        }
        assert_eq!(Refusal::from_number(0), None);
        assert_eq!(answer(0, "result"), Ok("result"));
    }

    #[test]
    fn a_number_that_is_not_known_is_a_refusal_too() {
        let known = |&number: &u8| Refusal::from_number(number).is_some();
        let unknown: Vec<u8> = (1..=u8::MAX).filter(|number| !known(number)).collect();
        assert!(unknown.contains(&10) && unknown.contains(&u8::MAX));
        for number in unknown {
            let refusal = answer(number, ()).expect_err("no success");
            assert_eq!(refusal, Refusal::Unknown(number));
            assert_eq!(refusal.number(), number);
            assert!(refusal.to_string().contains(&number.to_string()));
        }
    }
}
