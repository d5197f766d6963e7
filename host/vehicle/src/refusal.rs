//! Why a call was refused.

use std::error::Error;
use std::fmt;

use crate::ffi::help::Finding;

/// A refused call: the refusal, and which number made it. The vehicle is then as it was before the call.
///
/// Its debug text is its words, so that a `main` that gives it says them.
#[derive(Clone, PartialEq)]
pub struct Refused {
    /// Which refusal it is.
    pub refusal: Refusal,
    /// Which wheel, field and value broke which bound, and what to do.
    pub culprit: Option<Finding>,
}

impl Refused {
    /// Nothing for 0; else the refusal of this number, explained. The explanation is asked for only here.
    pub(crate) fn unless_accepted(
        number: u32,
        explain: impl FnOnce() -> Option<Finding>,
    ) -> Result<(), Refused> {
        Refusal::unless_accepted(number).map_err(|refusal| Refused { refusal, culprit: explain() })
    }
}

impl fmt::Display for Refused {
    fn fmt(&self, f: &mut fmt::Formatter<'_>) -> fmt::Result {
        match &self.culprit {
            Some(culprit) => write!(f, "refused ({}): {culprit}", self.refusal.number()),
            None => self.refusal.fmt(f),
        }
    }
}

impl fmt::Debug for Refused {
    fn fmt(&self, f: &mut fmt::Formatter<'_>) -> fmt::Result {
        fmt::Display::fmt(self, f)
    }
}

impl Error for Refused {}

/// Bytes that are not a vehicle which this library saved, and why.
#[derive(Clone, Copy, Debug, PartialEq, Eq)]
pub struct NotSaved(pub(crate) &'static str);

impl fmt::Display for NotSaved {
    fn fmt(&self, f: &mut fmt::Formatter<'_>) -> fmt::Result {
        f.write_str(self.0)
    }
}

impl Error for NotSaved {}

/// Which refusal a call gave. `docs/RULES.md` has each of them in full.
#[derive(Clone, Copy, Debug, PartialEq, Eq)]
#[non_exhaustive]
pub enum Refusal {
    /// 1: the lent numbers are no vehicle.
    NoVehicle,
    /// 2: a number is not finite, or too large.
    BadNumber,
    /// 3: no room for another wheel.
    Full,
    /// 4: no wheel of this number.
    NoSuchWheel,
    /// 5: driven before it was aimed, or read before it was driven.
    WrongMoment,
    /// 6: the ground bodies and ray answers do not fit the vehicle.
    BadLists,
    /// 7: a tyre's demand or grip limit is too large.
    WildGrip,
    /// 8: a result is too large.
    WildStep,
    /// 10: a setting is out of its range.
    OutOfRange,
    /// 12: a ground normal of the wrong length.
    BadNormal,
    /// 17: a wheel steered by an angle whose suspension direction cannot be turned about.
    BadTurn,
    /// A number that this crate does not know.
    Other(u32),
}

/// Each refusal with its number.
const NUMBERS: [(u32, Refusal); 11] = [
    (1, Refusal::NoVehicle),
    (2, Refusal::BadNumber),
    (3, Refusal::Full),
    (4, Refusal::NoSuchWheel),
    (5, Refusal::WrongMoment),
    (6, Refusal::BadLists),
    (7, Refusal::WildGrip),
    (8, Refusal::WildStep),
    (10, Refusal::OutOfRange),
    (12, Refusal::BadNormal),
    (17, Refusal::BadTurn),
];

impl Refusal {
    /// The refusal of this number; 0 is none.
    pub fn unless_accepted(number: u32) -> Result<(), Refusal> {
        if number == 0 {
            return Ok(());
        }
        let known = NUMBERS.iter().find(|(known, _)| *known == number);
        Err(known.map_or(Refusal::Other(number), |(_, refusal)| *refusal))
    }

    /// Its number.
    pub fn number(self) -> u32 {
        if let Refusal::Other(number) = self {
            return number;
        }
        NUMBERS.iter().find(|(_, refusal)| *refusal == self).map_or(0, |(number, _)| *number)
    }

    /// What it is, where no call is at hand to name the culprit.
    fn words(self) -> &'static str {
        match self {
            Refusal::NoVehicle => {
                "the lent numbers are no vehicle, or a list has the wrong length."
            }
            Refusal::BadNumber => {
                "a number handed in is not finite or above 2^20, or a stored one above 2^40."
            }
            Refusal::Full => "the vehicle has 16 wheels already.",
            Refusal::NoSuchWheel => "the vehicle has no wheel of this number.",
            Refusal::WrongMoment => "a drive without an aim, or a read without a drive.",
            Refusal::BadLists => "the ray answers and ground bodies do not fit the vehicle.",
            Refusal::WildGrip => "a tyre's demand or grip limit would be above 2^40.",
            Refusal::WildStep => "the call would store a number above 2^40.",
            Refusal::OutOfRange => "a setting is out of its range.",
            Refusal::BadNormal => "a normal of the ground is not of length one.",
            Refusal::BadTurn => {
                "a wheel that is steered by an angle has no suspension direction to turn about."
            }
            Refusal::Other(_) => {
                "the library is newer than this program, which does not know the number."
            }
        }
    }
}

impl fmt::Display for Refusal {
    fn fmt(&self, f: &mut fmt::Formatter<'_>) -> fmt::Result {
        write!(f, "refused ({}): {}", self.number(), self.words())
    }
}

impl Error for Refusal {}
