//! A block with its script, looked at byte by byte as docs/BLOCK.md and docs/SCRIPT.md lay them out, and moved by the engine.

use engine::RunReply;
use second::FLAGS;

/// The first words of a tree position's record.
const AT_NODE: u16 = 1;
const WITH_VALUE: u16 = 2;
const JOIN: u16 = 4;

/// Kinds of nodes.
pub const NEW: u16 = 6;
pub const FORK: u16 = 8;
pub const LOCK: u16 = 9;
/// "Silent: null becomes a value; kinds 3, 4, 5 and 7 descend"; kind 10 "becomes a value silently as null does".
const VALUES: [u16; 2] = [0, 10];
const DESCENTS: [u16; 4] = [3, 4, 5, 7];

const MOST_FRAMES: u16 = 2_048;

fn word(bytes: &[u8], at: usize) -> u16 {
    u16::from_le_bytes([bytes[at], bytes[at + 1]])
}

/// A side of a join.
#[derive(Clone, Copy)]
pub enum Side {
    Left,
    Right,
}

#[derive(Clone)]
pub struct Lent<'s> {
    pub script: &'s [u8],
    pub block: Vec<u8>,
}

impl Lent<'_> {
    pub fn positions(&self) -> usize {
        word(&self.block, 6).into()
    }

    /// How many frames there are still places for.
    pub fn room_for_frames(&self) -> u16 {
        MOST_FRAMES - word(&self.block, 4)
    }

    /// The bytes of a position's record.
    pub fn record(&self, position: usize) -> &[u8] {
        &self.block[37_896 + 14 * position..][..14]
    }

    fn is(&self, position: usize, kind: u16) -> bool {
        word(self.record(position), 0) == kind
    }

    /// The node that a thread is at.
    pub fn node(&self, position: usize) -> Option<u16> {
        self.is(position, AT_NODE).then(|| word(self.record(position), 2))
    }

    /// The kind of this node.
    pub fn kind(&self, position: usize) -> Option<u16> {
        let node = self.node(position)?;
        Some(word(self.script, usize::from(word(self.script, 20)) + 8 * usize::from(node)))
    }

    /// Whether the move due is a silent one.
    pub fn is_silent(&self, position: usize) -> bool {
        self.kind(position).is_some_and(|kind| VALUES.contains(&kind) || DESCENTS.contains(&kind))
    }

    /// Whether it is a silent one that leaves a frame.
    pub fn descends(&self, position: usize) -> bool {
        self.kind(position).is_some_and(|kind| DESCENTS.contains(&kind))
    }

    /// Whether a thread has a value that so many frames wait for.
    pub fn waiting_frames(&self, position: usize) -> Option<u16> {
        self.is(position, WITH_VALUE).then(|| word(self.record(position), 12))
    }

    /// The position behind this one and all that is beneath it.
    fn behind(&self, position: usize) -> usize {
        match self.is(position, JOIN) {
            true => self.behind(self.behind(position + 1)),
            false => position + 1,
        }
    }

    /// The way from the root to a position.
    pub fn way_to(&self, position: usize) -> Vec<Side> {
        let (mut at, mut way) = (0, vec![]);
        while at != position {
            let right = self.behind(at + 1);
            let (side, next) = if position < right { (Side::Left, at + 1) } else { (Side::Right, right) };
            way.push(side);
            at = next;
        }
        way
    }

    /// The position that a way leads to, if there is one.
    pub fn at(&self, way: &[Side]) -> Option<usize> {
        let mut at = 0;
        for side in way {
            if !self.is(at, JOIN) {
                return None;
            }
            at = match side {
                Side::Left => at + 1,
                Side::Right => self.behind(at + 1),
            };
        }
        Some(at)
    }

    /// A Run of one choice, which may not be refused.
    pub fn choose(&mut self, position: usize) -> Result<RunReply, String> {
        let reply = engine::run(self.script, &mut self.block, &[position as u8]);
        match (reply.number, reply.place) {
            (0, 0) => Ok(reply),
            _ => Err(format!("a Run is refused: {reply:?}")),
        }
    }

    /// Whether Offer flags a position.
    pub fn is_offered(&self, position: usize) -> bool {
        let mut flags = [7; FLAGS];
        engine::offer(self.script, &self.block, &mut flags);
        flags[position] == 1
    }
}
