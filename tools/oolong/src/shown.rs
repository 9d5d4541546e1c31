//! A point of a run as it is shown: what led to it, the state, and what is due at each position.

use crate::state::State;

/// What a position would do next.
#[derive(Clone, Debug, PartialEq, Eq)]
pub struct Next {
    /// Offer sets its flag.
    pub able: bool,
    /// The shut object that it waits for.
    pub waits_for: Option<usize>,
    /// In words: "takes the lock of object 2", "waits: object 2 is held by 4", "has finished with 3".
    pub words: String,
}

pub struct Shown {
    /// The choice that led here; none at the beginning.
    pub choice: Option<u8>,
    /// What the choice did, in a line; at the beginning, where the run begins.
    pub said: String,
    pub state: State,
    /// For each tree position.
    pub next: Vec<Next>,
}
