//! Places and PSW bits that change from case to case.

use super::scene::{Place, Scene};
use crate::processor::PSW_V;

/// Goes round all places, in each with V clear and set.
#[derive(Default)]
pub struct Turn(usize);

impl Turn {
    /// A scene with these words at the next place.
    pub fn scene(&mut self, words: &[u32]) -> Scene {
        self.at(&Place::ALL, words)
    }

    /// The same for places in Kernel Mode alone.
    pub fn kernel(&mut self, words: &[u32]) -> Scene {
        let places = Place::ALL.map(|place| match place {
            Place::User => Place::KernelRom,
            other => other,
        });
        self.at(&places, words)
    }

    /// User Mode, and Kernel Mode in ROM.
    pub fn either_mode(&mut self, words: &[u32]) -> Scene {
        self.at(&[Place::User, Place::KernelRom], words)
    }

    fn at(&mut self, places: &[Place], words: &[u32]) -> Scene {
        let n = self.0;
        self.0 += 1;
        let v = if n / places.len() % 2 == 1 { PSW_V } else { 0 };
        places[n % places.len()].scene(words).with_psw(v)
    }
}
