//! Scenario streams for comparing two programs, each determined by its kind and seed.
//!
//! The generators use only +, −, ×, ÷ and the root, so that the same seed gives the same bytes
//! on every machine.
#![forbid(unsafe_code)]

mod axle;
mod bad;
mod broken;
mod car;
mod edge;
mod example;
mod parts;
mod random;
mod roll;
mod rubbish;
mod script;
mod steer;
mod turning;
mod wild;

pub use example::{drives, example, landing};
pub use random::Random;
pub use rubbish::{rubbish, Rubbish};
pub use steer::unbroken;

/// What a scenario is like.
#[derive(Copy, Clone, Debug, PartialEq)]
pub enum Kind {
    /// A car over many frames that hang together.
    Car,
    /// Numbers, counts and demands at the ends of what is accepted.
    Edge,
    /// Wild finite numbers in wild orders of calls.
    Wild,
    /// Numbers that are not finite, too large or out of range; wrong counts.
    Bad,
    /// Streams that are cut or have a malformed place.
    Broken,
    /// The others with roll influences: adds by code 6.
    Roll,
    /// The others with axles along the ground's normal or without a length: reads by code 9.
    Axle,
    /// The others with wheels steered by angle: controls by code 10.
    Steer,
}

impl Kind {
    pub const ALL: [Kind; 8] = [
        Kind::Car,
        Kind::Edge,
        Kind::Wild,
        Kind::Bad,
        Kind::Broken,
        Kind::Roll,
        Kind::Axle,
        Kind::Steer,
    ];

    pub fn name(self) -> &'static str {
        match self {
            Kind::Car => "car",
            Kind::Edge => "edge",
            Kind::Wild => "wild",
            Kind::Bad => "bad",
            Kind::Broken => "broken",
            Kind::Roll => "roll",
            Kind::Axle => "axle",
            Kind::Steer => "steer",
        }
    }

    pub fn named(name: &str) -> Option<Kind> {
        Kind::ALL.into_iter().find(|kind| kind.name() == name)
    }
}

/// The bytes of the scenario of this kind and seed.
pub fn generate(kind: Kind, seed: u64) -> Vec<u8> {
    let mut random = Random::new(kind as u64, seed);
    match kind {
        Kind::Car => car::scenario(&mut random),
        Kind::Edge => edge::scenario(&mut random, seed),
        Kind::Wild => wild::scenario(&mut random),
        Kind::Bad => bad::scenario(&mut random, seed),
        Kind::Broken => broken::scenario(&mut random, seed),
        Kind::Roll => roll::scenario(&mut random, seed),
        Kind::Axle => axle::scenario(&mut random, seed),
        Kind::Steer => steer::scenario(&mut random, seed),
    }
}
