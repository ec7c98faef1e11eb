//! The numbers with which a call declines, and what each of them says.

use std::error::Error;
use std::fmt::{self, Display, Formatter};

/// The number of a refusal. It displays as the number and what is wrong.
#[derive(Clone, Copy, Debug, PartialEq, Eq)]
pub struct Refused(pub u8);

/// Writes each number's constant and what it displays from one line.
macro_rules! refusals {
    ($($name:ident = $number:literal, $wrong:literal;)*) => {
        impl Refused {
            $(
                #[doc = concat!("Number ", $number, ": ", $wrong, ".")]
                pub const $name: Refused = Refused($number);
            )*

            /// What is wrong.
            fn wrong(self) -> &'static str {
                match self.0 {
                    $($number => $wrong,)*
                    _ => "a number that this wrapper doesn't know",
                }
            }
        }
    };
}

refusals! {
    LENGTH = 1, "a design isn't 2,048 or 2,560 bytes, or a converter file is empty, no multiple of \
        512 bytes or over 7,282 blocks";
    CHECK = 2, "a block's check is wrong";
    HEADER = 3, "a block's kind or first record is wrong";
    COUNT = 4, "a block's record count is outside its limits, or a converter file has over 65,536 \
        records";
    TRANSITIONS = 5, "a state has no transition or over 8, an event outside -63 to 63 or twice, or \
        a target that isn't a state";
    STATE_KIND = 6, "a state is neither input, output-only nor delayed";
    FORMULA = 7, "a formula has an unknown kind, an operand not lower or a proposition over 47, or \
        a rule names no formula";
    UNUSED_BYTE = 8, "an unused byte outside converter records isn't zero";
    POSITIONS = 9, "a design has over 65,536 positions";
    CONVERTER_LENGTH = 10, "a converter in memory is empty, no multiple of 52 bytes or over 65,536 \
        records";
    RECORD = 11, "a converter record has a side state over 15, a count outside 1 to 8, an event \
        outside -63 to 63, an event triple twice, a next record that isn't there, or an unused \
        byte that isn't zero";
    SHORT_RESULT = 12, "the lent result is too short; of a judge it is the list of waits";
    SHORT_WORK = 13, "the lent work is too short";
    UNMATCHED = 14, "the converter isn't matched to the sides";
    RULE = 15, "some rule doesn't hold";
    NO_CONVERTER = 16, "no converter exists, of any size";
    TICK = 17, "the runner's record isn't there, a shown event is above 0 or below -63, or no \
        transition fits";
    TEXT = 19, "a text isn't of the grammar of rules, has a line without a rule or no newline at its \
        end, or has over 32 brackets open together";
    SOME_PATH = 20, "a typed rule says \"some path\", or has a temporal part under `!` or left of \
        `->`";
    TOO_MANY_FORMULAS = 21, "a text makes over 64 formulas or over 16 rules";
    RANGES = 22, "a list of ranges is no multiple of 4 bytes, or an entry of it has a side over 2, \
        a state that isn't there or isn't delayed with its tick to itself, a count over 15 that \
        isn't 255 as the greatest, a least count above the greatest, or a state named before";
    TOO_MANY_STATES = 23, "a side has over 16 states after replacement";
}

impl Display for Refused {
    fn fmt(&self, out: &mut Formatter<'_>) -> fmt::Result {
        write!(out, "refused {}: {}", self.0, self.wrong())
    }
}

impl Error for Refused {}
