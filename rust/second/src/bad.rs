//! The codes of a refused file.

/// Why a file is refused.
#[derive(Clone, Copy, Debug, PartialEq, Eq)]
#[repr(u8)]
pub enum Bad {
    /// Too long, or head or table cut off.
    Table = 201,
    /// An offset or the end is not where the table says.
    Offset = 202,
    /// The kind of a body is unknown.
    Kind = 203,
    /// A body is empty, or its length is wrong for its kind and number.
    Body = 204,
}
