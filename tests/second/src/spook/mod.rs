//! What Spook[128,512,su] is made of (document 004, section 3), from its table and matrices. The mode that they serve is in `paper`.

pub mod clyde;
pub mod layers;
pub mod printed;
pub mod shadow;

/// The number of this instance.
pub const SPOOK: u32 = 5;
/// r = 256 bits of data or text to a call of Shadow.
pub const BLOCK: usize = 256 / 8;
