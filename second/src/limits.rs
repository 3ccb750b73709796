// The numbers that a later request may move, each named in this one place.
// A code has N = 2^n symbols; positions count from 0.

/// The largest n.
pub const LARGEST_EXPONENT: usize = 9;

/// Bytes of the mask in a sheet record; position j is bit j mod 8 of byte j div 8.
pub const MASK_BYTES: usize = 64;

/// Bytes of a sheet record: kind, constant, two zeros, mask.
pub const RECORD_BYTES: usize = 4 + MASK_BYTES;

/// The largest ceiling on unknowns.
pub const LARGEST_CEILING: usize = 255;

/// Bytes of one strip in an answer record of the stream.
pub const STRIP_BYTES: usize = 512;

/// Bytes in front of the strips in an answer record of the stream.
pub const HEADER_BYTES: usize = 16;

/// Bytes of a cartridge's record in a whole strip; lane t is bit t mod 8 of byte t div 8.
pub const CARTRIDGE_BYTES: usize = 64;

/// The lanes of a strip.
pub const LANES: usize = 8 * CARTRIDGE_BYTES;

/// How many ones stand in front of the free bits when the check polynomial divides: r of them.
pub fn leading_ones(r: usize) -> usize {
    r
}
