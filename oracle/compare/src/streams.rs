//! What is compared: seeds of some kinds, or every beginning of one stream.

use scenarios::{generate, Kind};

pub enum Streams {
    /// The kinds in turn for each seed.
    Seeds { from: u64, seeds: u64, kinds: Vec<Kind> },
    /// A stream cut at every byte: its first 0 bytes, its first byte, and so on to all of it.
    Cuts(Vec<u8>),
}

/// What a stream is called: its kind and seed, or how many bytes are left of it.
#[derive(Copy, Clone, Debug, PartialEq)]
pub struct Name {
    pub group: &'static str,
    pub number: u64,
}

/// The group of cut streams.
pub const CUT: &str = "cut";

impl Streams {
    /// How many of each group are to be compared.
    pub fn groups(&self) -> Vec<(&'static str, u64)> {
        match self {
            Streams::Seeds { seeds, kinds, .. } => {
                kinds.iter().map(|kind| (kind.name(), *seeds)).collect()
            }
            Streams::Cuts(stream) => vec![(CUT, stream.len() as u64 + 1)],
        }
    }

    pub fn count(&self) -> u64 {
        self.groups().iter().fold(0, |sum, (_, count)| sum.saturating_add(*count))
    }

    /// The name of the stream at this place in the order.
    pub fn name(&self, place: u64) -> Name {
        match self {
            Streams::Seeds { from, kinds, .. } => {
                let turns = kinds.len() as u64;
                let group = kinds[(place % turns) as usize].name();
                Name { group, number: from.wrapping_add(place / turns) }
            }
            Streams::Cuts(_) => Name { group: CUT, number: place },
        }
    }

    /// The bytes of the stream at this place.
    pub fn bytes(&self, place: u64) -> Vec<u8> {
        match self {
            Streams::Seeds { kinds, .. } => {
                let kind = kinds[(place % kinds.len() as u64) as usize];
                generate(kind, self.name(place).number)
            }
            Streams::Cuts(stream) => stream[..place as usize].to_vec(),
        }
    }
}

#[cfg(test)]
mod tests {
    use super::*;

    #[test]
    fn kinds_come_in_turn() {
        let kinds = vec![Kind::Edge, Kind::Bad];
        let streams = Streams::Seeds { from: 5, seeds: 2, kinds };
        let names: Vec<(&str, u64)> = (0..streams.count())
            .map(|place| streams.name(place))
            .map(|name| (name.group, name.number))
            .collect();
        assert_eq!(names, [("edge", 5), ("bad", 5), ("edge", 6), ("bad", 6)]);
        assert_eq!(streams.bytes(3), generate(Kind::Bad, 6));
    }

    #[test]
    fn a_stream_is_cut_at_every_byte() {
        let streams = Streams::Cuts(vec![5, 0, 0]);
        let cuts: Vec<Vec<u8>> = (0..streams.count()).map(|place| streams.bytes(place)).collect();
        assert_eq!(cuts, [vec![], vec![5], vec![5, 0], vec![5, 0, 0]]);
    }
}
