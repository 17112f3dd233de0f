//! Every limit of the specification, each named once.

/// Longest token, in bytes ("Answers", 1).
pub const TOKEN_MAX: usize = 32_768;
/// Longest decoded header, in bytes ("Answers", 5).
pub const HEADER_MAX: usize = 4_096;
/// Greatest depth of arrays and objects; the top object is depth 1 ("Header").
pub const DEPTH_MAX: usize = 16;

/// Shortest key table, in bytes: its fixed part ("Key table").
pub const TABLE_MIN: usize = 8;
/// Longest key table, in bytes.
pub const TABLE_MAX: usize = 8_192;
/// The key table's edition.
pub const TABLE_EDITION: usize = 1;
/// Most keys in a table.
pub const KEYS_MAX: usize = 32;
/// Bytes of one table entry.
pub const ENTRY_LEN: usize = 12;
/// Shortest key id, in bytes.
pub const ID_MIN: usize = 1;
/// Longest key id, in bytes.
pub const ID_MAX: usize = 64;
/// Shortest secret, in bytes.
pub const SECRET_MIN: usize = 32;
/// Longest secret, in bytes.
pub const SECRET_MAX: usize = 128;

/// Lowest format number ("Members with a meaning").
pub const FORMAT_MIN: i64 = 1;
/// Highest format number.
pub const FORMAT_MAX: i64 = 8;
/// Bytes of an HS256 MAC ("Signature").
pub const MAC_LEN: usize = 32;
