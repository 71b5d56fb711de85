//! Limits of a thread's calls: how much memory each may hold, and a flag that stops them.

use crate::calls;
use std::cell::Cell;
use std::ptr;
use std::sync::atomic::AtomicI32;

thread_local! {
    static LIMIT: Cell<usize> = const { Cell::new(0) };
    static FLAG: Cell<*const AtomicI32> = const { Cell::new(ptr::null()) };
}

/// What the closure answers, where no call of this thread that it makes holds more bytes at once than so many: one that
/// would is refused. 0 is no limit. What this crate copies, vectors that it answers and handles don't count.
///
/// ```
/// use itree::{limited_to, meetings, Edge, Refused};
///
/// let edges = [Edge::from((0, 0, 9, 9)), Edge::from((0, 9, 9, 0))];
/// assert_eq!(limited_to(50, || meetings(&edges)), Err(Refused));
/// assert_eq!(limited_to(100_000, || meetings(&edges)), Ok(vec![(0, 1)]));
/// ```
pub fn limited_to<T>(bytes: usize, call: impl FnOnce() -> T) -> T {
    /// Sets the limit that was before.
    struct Before(usize);

    impl Drop for Before {
        fn drop(&mut self) {
            set_limit(self.0);
        }
    }

    let _before = Before(LIMIT.with(Cell::get));
    set_limit(bytes);
    call()
}

fn set_limit(bytes: usize) {
    LIMIT.with(|limit| limit.set(bytes));
    // SAFETY: it is a number of this thread's.
    unsafe { calls::itree_limit_memory(bytes) }
}

/// The most bytes that this thread's last call held at once, those of a handle that it wrote among them.
pub fn memory_peak() -> usize {
    // SAFETY: it is a number of this thread's.
    unsafe { calls::itree_memory_peak() }
}

/// What the closure answers, where the calls of this thread that it makes are refused once the flag isn't 0. It is looked
/// at where a call asks for memory; any thread may set it.
///
/// ```
/// use itree::{meetings, stopped_by, Edge, Refused};
/// use std::sync::atomic::{AtomicI32, Ordering};
///
/// let edges = [Edge::from((0, 0, 9, 9)), Edge::from((0, 9, 9, 0))];
/// let flag = AtomicI32::new(0);
/// assert_eq!(stopped_by(&flag, || meetings(&edges)), Ok(vec![(0, 1)]));
/// flag.store(1, Ordering::Relaxed);
/// assert_eq!(stopped_by(&flag, || meetings(&edges)), Err(Refused));
/// ```
pub fn stopped_by<T>(flag: &AtomicI32, call: impl FnOnce() -> T) -> T {
    /// Sets the flag that was before.
    struct Before(*const AtomicI32);

    impl Drop for Before {
        fn drop(&mut self) {
            // SAFETY: the flag is null, or that of a call of `stopped_by` that hasn't ended.
            unsafe { set_flag(self.0) }
        }
    }

    let _before = Before(FLAG.with(Cell::get));
    // SAFETY: the flag is borrowed until the one before it is set again.
    unsafe { set_flag(flag) };
    call()
}

/// The flag has to stay until another one, or null, is set.
unsafe fn set_flag(flag: *const AtomicI32) {
    FLAG.with(|kept| kept.set(flag));
    calls::itree_stop_flag(flag.cast());
}
