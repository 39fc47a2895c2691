//! The bytes in which the names of a rig lie, and their places.

use crate::rng::Rng;
use crate::rows::Place;
use oracle::{Bone, GRAPHICS_BASE, SYSTEM_BASE};

/// The names one behind the other in a system half, each ended by a zero; the half and the place of each bone's name.
pub fn packed(bones: &[Bone]) -> (Vec<u8>, Vec<Place>) {
    let mut half = Vec::new();
    let place = |b: &Bone| {
        let Some(name) = &b.name else { return Place::default() };
        let address = SYSTEM_BASE + half.len() as u64;
        half.extend(name.iter().chain(&[0]));
        Place { address, size: name.len() as u64 }
    };
    let places = bones.iter().map(place).collect();
    (half, places)
}

/// System and graphics.
const BASES: [u64; 2] = [SYSTEM_BASE, GRAPHICS_BASE];

/// Names in two halves, and the place of each bone's name.
pub struct Names {
    pub halves: [Vec<u8>; 2],
    pub places: Vec<Place>,
}

impl Names {
    /// The names in either half, with any bytes between them or none, the last of a half often at its very end. The size
    /// of no name is drawn: it is not looked at.
    pub fn spread(rng: &mut Rng, bones: &[Bone]) -> Names {
        let halves = [0; 2].map(|_: usize| {
            let n = rng.below(20);
            rng.bytes(n)
        });
        let mut names = Names { halves, places: Vec::new() };
        for b in bones {
            let half = rng.one_in(3) as usize;
            let place = match &b.name {
                Some(name) => names.add(half, name),
                None => Place { address: 0, size: rng.next() >> rng.below(64) },
            };
            names.places.push(place);
            let behind = rng.below(8).saturating_sub(4);
            names.halves[half].extend(rng.bytes(behind));
        }
        names
    }

    /// Puts a name behind the bytes of a half; gives its place.
    fn add(&mut self, half: usize, name: &[u8]) -> Place {
        let address = BASES[half] + self.halves[half].len() as u64;
        self.halves[half].extend(name);
        Place { address, size: name.len() as u64 }
    }

    /// Gives one bone a name that the writer refuses, or one just inside the limit.
    pub fn spoil(&mut self, rng: &mut Rng) {
        if self.places.is_empty() {
            return;
        }
        let (half, bone) = (rng.one_in(3) as usize, rng.below(self.places.len()));
        let end = BASES[half] + self.halves[half].len() as u64;
        self.places[bone] = match rng.below(9) {
            0 => self.add(half, &[b'n'; 255]),
            1 => self.add(half, &[b'n'; 256]),
            2 => self.add(half, b"a\0b"),
            3 => self.add(half, b"\0"),
            // an empty name at the end, and one behind it
            4 => Place { address: end, size: 0 },
            5 => Place { address: end + 1, size: 0 },
            // the last byte and one that is not there
            6 => Place { address: end - 1, size: 2 },
            7 => Place { address: end, size: rng.pick(&[1, 255, 256, 1 << 32, u64::MAX]) },
            _ => Place { address: rng.pick(&[1, 0x4FFF_FFFF, 0x7000_0000, 1 << 32 | end, u64::MAX]), size: rng.below(3) as u64 },
        };
    }
}
