//! Stands in for tracing: a warning is counted, since the original's only one is given for a merged leaf.

use std::cell::Cell;

thread_local!(static WARNINGS: Cell<u64> = Cell::new(0));

pub fn count_warning() {
    WARNINGS.with(|w| w.set(w.get() + 1));
}

/// The warnings since the last call.
pub fn take_warnings() -> u64 {
    WARNINGS.with(|w| w.replace(0))
}

#[macro_export]
macro_rules! warn {
    ($($t:tt)*) => {
        $crate::count_warning()
    };
}
