//! Two commands for people who make and debug tokens, over the proved library: `jws-table` builds, shows and checks key
//! tables, `jws-token` signs, verifies and shows a header's members.
//!
//! The proved library decides: which tables are good, which tokens are accepted, where a member lies. What is here reads
//! files and arguments and puts the answers into words. [`table`] has a small reader of its own, so that a bad table can
//! be told in words; its verdict is held against the library's each time.

#![forbid(unsafe_code)]

pub mod answer;
pub mod boundary;
pub mod encoding;
pub mod files;
pub mod keys_file;
pub mod options;
pub mod refusals;
pub mod table;
pub mod table_command;
pub mod token_command;
