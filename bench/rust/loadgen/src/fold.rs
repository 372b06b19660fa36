//! A client's presence list, folded from the states and diffs that it is told.

use serde::Deserialize;
use std::borrow::Cow;
use std::collections::HashMap;
use std::hash::{BuildHasherDefault, Hasher};

/// Mixes numbers that are hashes already, so that the load program has time for its clients.
#[derive(Default)]
struct Mixer(u64);

impl Hasher for Mixer {
    fn finish(&self) -> u64 {
        self.0
    }

    fn write(&mut self, bytes: &[u8]) {
        self.write_u64(hash(bytes));
    }

    fn write_u64(&mut self, number: u64) {
        self.0 = (self.0.rotate_left(5) ^ number).wrapping_mul(0x517c_c1b7_2722_0a95);
    }
}

/// FNV-1a, and its upper bits mixed into the lower ones.
fn hash(bytes: &[u8]) -> u64 {
    let start = 0xcbf2_9ce4_8422_2325;
    let found = bytes.iter().fold(start, |sum: u64, byte| (sum ^ u64::from(*byte)).wrapping_mul(0x100_0000_01b3));
    found ^ (found >> 29)
}

#[derive(Deserialize)]
struct Meta<'a> {
    #[serde(borrow)]
    phx_ref: Cow<'a, str>,
    /// The number that each client puts into its own meta.
    #[serde(default, rename = "n")]
    number: u64,
}

#[derive(Deserialize)]
struct Metas<'a> {
    #[serde(borrow)]
    metas: Vec<Meta<'a>>,
}

type Presences<'a> = HashMap<Cow<'a, str>, Metas<'a>>;

#[derive(Deserialize)]
struct Diff<'a> {
    #[serde(borrow)]
    joins: Presences<'a>,
    #[serde(borrow)]
    leaves: Presences<'a>,
}

/// What a payload that is no state or diff is refused with.
#[derive(Debug)]
pub struct Malformed;

/// The list: for each key and reference, by their hashes, the number in the meta.
#[derive(Default)]
pub struct Fold {
    members: HashMap<(u64, u64), u64, BuildHasherDefault<Mixer>>,
    pub has_state: bool,
    /// Diffs in front of the first state: phoenix.js keeps them, and applies them behind it.
    early: Vec<Vec<u8>>,
}

impl Fold {
    pub fn len(&self) -> usize {
        self.members.len()
    }

    /// The numbers in the metas, in order.
    pub fn numbers(&self) -> Vec<u64> {
        let mut numbers: Vec<u64> = self.members.values().copied().collect();
        numbers.sort_unstable();
        numbers
    }

    pub fn state(&mut self, payload: &[u8]) -> Result<(), Malformed> {
        let state = serde_json::from_slice(payload).map_err(|_| Malformed)?;
        self.members.clear();
        self.add(&state);
        self.has_state = true;
        for diff in std::mem::take(&mut self.early) {
            self.apply(&diff)?;
        }
        Ok(())
    }

    pub fn diff(&mut self, payload: &[u8]) -> Result<(), Malformed> {
        if !self.has_state {
            self.early.push(payload.to_vec());
        }
        self.apply(payload)
    }

    fn apply(&mut self, payload: &[u8]) -> Result<(), Malformed> {
        let diff: Diff = serde_json::from_slice(payload).map_err(|_| Malformed)?;
        self.add(&diff.joins);
        for (key, metas) in &diff.leaves {
            let key = hash(key.as_bytes());
            for meta in &metas.metas {
                self.members.remove(&(key, hash(meta.phx_ref.as_bytes())));
            }
        }
        Ok(())
    }

    fn add(&mut self, joins: &Presences) {
        for (key, metas) in joins {
            let key = hash(key.as_bytes());
            for meta in &metas.metas {
                self.members.insert((key, hash(meta.phx_ref.as_bytes())), meta.number);
            }
        }
    }
}

#[cfg(test)]
mod tests {
    use super::*;

    const JOIN: &[u8] = br#"{"joins":{"b":{"metas":[{"phx_ref":"a.1.2","n":2}]}},"leaves":{}}"#;
    const LEAVE: &[u8] = br#"{"joins":{},"leaves":{"a":{"metas":[{"phx_ref":"a.1.1","n":1}]}}}"#;
    const STATE: &[u8] = br#"{"a":{"metas":[{"phx_ref":"a.1.1","n":1}]}}"#;

    #[test]
    fn diffs_behind_a_state_change_it() {
        let mut fold = Fold::default();
        fold.state(STATE).unwrap();
        assert_eq!(fold.numbers(), [1]);
        fold.diff(JOIN).unwrap();
        assert_eq!(fold.numbers(), [1, 2]);
        fold.diff(LEAVE).unwrap();
        assert_eq!(fold.numbers(), [2]);
    }

    #[test]
    fn diffs_in_front_of_it_wait() {
        let mut fold = Fold::default();
        fold.diff(JOIN).unwrap();
        assert!(!fold.has_state);
        fold.state(STATE).unwrap();
        assert_eq!(fold.numbers(), [1, 2]);
    }

    #[test]
    fn another_payload_is_malformed() {
        assert!(Fold::default().state(b"[]").is_err() && Fold::default().diff(b"{}").is_err());
    }
}
