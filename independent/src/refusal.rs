//! The refusal numbers of document 01, and from 14 on those of document 02.

/// The file ends inside a count or entry.
pub const FILE_ENDS: u8 = 1;
/// A count, or N given to a call, is out of range; or writing more than 4,096 moves.
pub const OUT_OF_RANGE: u8 = 2;
/// Angle or mode out of range.
pub const ANGLE_OR_MODE: u8 = 3;
/// State number N or more.
pub const STATE_NUMBER: u8 = 4;
/// Numbers or pairs not strictly rising.
pub const NOT_RISING: u8 = 5;
/// Bytes after the last section.
pub const EXTRA_BYTES: u8 = 6;
/// A lent buffer of the wrong length.
pub const WRONG_LENGTH: u8 = 7;
/// Run buffer fails the entry check.
pub const ENTRY_CHECK: u8 = 8;
/// Proposal not allowed (single rule).
pub const NOT_ALLOWED: u8 = 9;
/// Already concluded (single rule).
pub const CONCLUDED: u8 = 10;
/// Unfold due and n is 258.
pub const NO_ROOM: u8 = 11;
/// Output shorter than the file to be written.
pub const OUTPUT_SHORT: u8 = 12;
/// Table not sound, a set given to f or g has members from N up, or an angle
/// or mode from place N up not 0.
pub const NOT_SOUND: u8 = 13;
/// The two tables disagree in any row or column up to 255.
pub const DISAGREE: u8 = 14;
/// Adding a move that is there or removing one that isn't.
pub const NOTHING_TO_EDIT: u8 = 15;
