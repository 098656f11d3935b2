//! Document 01, The disk and its three lives: the factory geometry; Commands, 91h: the translation.

/// Document 01, The disk: the factory counts of cylinders, heads and sectors per track.
#[derive(Clone, Copy, Debug, PartialEq, Eq)]
pub struct Geometry {
    pub(crate) cylinders: u32,
    pub(crate) heads: u32,
    pub(crate) sectors: u32,
}

impl Geometry {
    pub const MOST_CYLINDERS: u32 = 1_024;
    pub const MOST_HEADS: u32 = 16;
    pub const MOST_SECTORS: u32 = 63;

    /// Document 01, The disk: "A geometry is made from three counts", each from 1 to its ceiling.
    pub fn new(cylinders: u32, heads: u32, sectors: u32) -> Option<Geometry> {
        let geometry = Geometry {
            cylinders,
            heads,
            sectors,
        };
        geometry.within_limits().then_some(geometry)
    }

    /// Document 01, The disk: C 1 to 1,024, H 1 to 16, S 1 to 63.
    pub fn within_limits(&self) -> bool {
        (1..=Self::MOST_CYLINDERS).contains(&self.cylinders)
            && (1..=Self::MOST_HEADS).contains(&self.heads)
            && (1..=Self::MOST_SECTORS).contains(&self.sectors)
    }

    /// Document 01, The disk: "Capacity is C x H x S".
    pub fn capacity(&self) -> u32 {
        self.cylinders * self.heads * self.sectors
    }

    /// Document 01, The disk: the translation after power-on and every reset is the geometry itself.
    pub fn factory_translation(&self) -> Translation {
        Translation {
            cylinders: self.cylinders,
            heads: self.heads,
            sectors: self.sectors,
        }
    }
}

/// Document 01, Commands: the cylinders, heads and sectors per track that CHS addresses count in.
#[derive(Clone, Copy, Debug, PartialEq, Eq)]
pub struct Translation {
    pub(crate) cylinders: u32,
    pub(crate) heads: u32,
    pub(crate) sectors: u32,
}

impl Translation {
    pub const MOST_CYLINDERS: u32 = 65_535;

    /// Document 01, Commands, 91h: cylinders = capacity / (H x S), none if S or cylinders is 0.
    pub fn new(capacity: u32, heads: u32, sectors: u32) -> Option<Translation> {
        let cylinders = capacity
            .checked_div(heads * sectors)?
            .min(Self::MOST_CYLINDERS);
        (cylinders > 0).then_some(Translation {
            cylinders,
            heads,
            sectors,
        })
    }

    /// Document 01, IDENTIFY words 57-58: the product; CHS addresses name the sectors below it.
    pub fn total(&self) -> u32 {
        self.cylinders * self.heads * self.sectors
    }
}
