//! Where things stand in a block: docs/BLOCK.md, layout 2. No other module has an offset.

/// Bytes of a block, of Offer's flags and of the longest choice list that one call takes.
pub const BLOCK: usize = 65_536;
pub const FLAGS: usize = 63;
pub const CHOICES_MOST: usize = 4_096;

/// What a block has room for.
pub const OBJECTS_MOST: usize = 256;
pub const BINDINGS_MOST: usize = 2_048;
pub const FRAMES_MOST: usize = 2_048;
pub const THREADS_MOST: usize = 32;

/// Fields that an object's record has places for.
pub const FIELDS_MOST: usize = 8;

/// An area: where its count stands, where its records begin, and how long one is.
#[derive(Clone, Copy)]
pub struct Area {
    pub count: usize,
    pub at: usize,
    pub size: usize,
}

pub const OBJECTS: Area = Area { count: 0, at: 8, size: 52 };
pub const BINDINGS: Area = Area { count: 2, at: 13_320, size: 12 };
pub const FRAMES: Area = Area { count: 4, at: 38_778, size: 6 };
pub const POSITIONS: Area = Area { count: 6, at: 37_896, size: 14 };
pub const AREAS: [Area; 4] = [OBJECTS, BINDINGS, FRAMES, POSITIONS];

/// Bytes of a value, and where the values of a record begin.
pub const VALUE: usize = 6;
pub const OBJECT_FIELDS: usize = 4;
pub const BINDING_VALUE: usize = 4;
pub const BINDING_LINK: usize = 10;
pub const POSITION_VALUE: usize = 6;
pub const POSITION_FRAMES: usize = 12;

/// The first word of a position's record.
pub const AT_NODE: usize = 1;
pub const WITH_VALUE: usize = 2;
pub const FAILED: usize = 3;
pub const JOIN: usize = 4;

/// The first word of a frame's record.
pub const WAITING: usize = 1;
pub const CAST: usize = 2;
pub const LOCK: usize = 3;

pub fn word(bytes: &[u8], at: usize) -> usize {
    usize::from(bytes[at]) + 256 * usize::from(bytes[at + 1])
}

pub fn put(bytes: &mut [u8], at: usize, word: usize) {
    bytes[at] = (word % 256) as u8;
    bytes[at + 1] = (word / 256 % 256) as u8;
}

impl Area {
    /// How many records of the area a block has.
    pub fn len(self, block: &[u8]) -> usize {
        word(block, self.count)
    }

    /// Where record i begins.
    pub fn record(self, i: usize) -> usize {
        self.at + self.size * i
    }
}
