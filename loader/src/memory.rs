//! Memory for answers, or the refusal where there is none.

use crate::{Error, MAX_REGION};
use alloc::vec::Vec;

/// An empty vector with room for so many.
pub fn reserved<T>(n: usize) -> Result<Vec<T>, Error> {
    let mut v = Vec::new();
    v.try_reserve_exact(n).map_err(|_| Error::plain(Error::NO_MEMORY))?;
    Ok(v)
}

/// So many zeros.
pub fn zeros<T: Clone + Default>(n: usize) -> Result<Vec<T>, Error> {
    let mut v = reserved(n)?;
    v.resize(n, T::default());
    Ok(v)
}

/// A length that a good region, or an image to compare, can have; any other is refused by the proved code before it looks at the
/// buffer.
pub fn bounded(n: u64) -> usize {
    if n <= MAX_REGION {
        n as usize
    } else {
        0
    }
}
