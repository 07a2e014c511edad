//! Which of the library's functions was called, for tests: what a call gives does not tell whether it was made by four.

use std::cell::Cell;

thread_local! {
    static LAST: Cell<&'static str> = const { Cell::new("") };
}

/// Notes that this thread has called a function.
pub(super) fn note(function: &'static str) {
    LAST.set(function);
}

/// The function that this thread called last.
pub(crate) fn last() -> &'static str {
    LAST.get()
}
