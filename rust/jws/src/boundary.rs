//! The number of the boundary between this crate and the archive.

use crate::ffi;

/// `JWS_BOUNDARY` of the `include/jws.h` that this crate was written for.
pub const BOUNDARY: u32 = 1;

/// The number of the boundary that the linked archive has.
///
/// Where it isn't [`BOUNDARY`], the archive's functions take other arguments or write other words than this crate takes them for. A
/// program whose archive comes by another way than this crate compares the two at its start, and makes no other call if they differ:
///
/// ```
/// assert_eq!(jws::boundary(), jws::BOUNDARY, "the linked archive is for another version of this crate");
/// ```
pub fn boundary() -> u32 {
    // SAFETY: nothing is lent.
    unsafe { ffi::jws_boundary() }
}
