//! What the generator meant to do in a session, for the coverage table.

use std::collections::BTreeMap;

#[derive(Default)]
pub struct Intentions {
    /// How often each script ran.
    pub scripts: BTreeMap<&'static str, u64>,
    /// How often each kind of password guess was made.
    pub guesses: BTreeMap<&'static str, u64>,
    /// Guesses wrong in exactly this byte.
    pub wrong_bytes: [u64; 32],
    /// How the recording was damaged, if it was.
    pub damage: Option<&'static str>,
}

impl Intentions {
    pub fn script(&mut self, name: &'static str) {
        *self.scripts.entry(name).or_default() += 1;
    }

    pub fn guess(&mut self, name: &'static str) {
        *self.guesses.entry(name).or_default() += 1;
    }
}
