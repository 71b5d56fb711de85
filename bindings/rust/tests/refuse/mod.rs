//! Memory that is refused.

use std::cell::Cell;
use std::ffi::c_void;

thread_local! {
    /// How many requests for memory of this thread are granted before the others are refused.
    static GRANTED: Cell<usize> = const { Cell::new(usize::MAX) };
}

extern "C" {
    fn __real_malloc(size: usize) -> *mut c_void;
    fn __real_realloc(block: *mut c_void, size: usize) -> *mut c_void;
}

/// Whether one more request is granted.
fn grants() -> bool {
    GRANTED.with(|left| {
        let granted = left.get();
        left.set(granted.saturating_sub((granted != usize::MAX) as usize));
        granted != 0
    })
}

#[no_mangle]
extern "C" fn __wrap_malloc(size: usize) -> *mut c_void {
    if grants() {
        unsafe { __real_malloc(size) }
    } else {
        std::ptr::null_mut()
    }
}

#[no_mangle]
unsafe extern "C" fn __wrap_realloc(block: *mut c_void, size: usize) -> *mut c_void {
    if grants() {
        unsafe { __real_realloc(block, size) }
    } else {
        std::ptr::null_mut()
    }
}

/// What a call answers where so many requests for memory are granted.
pub fn granted<T>(requests: usize, call: impl FnOnce() -> T) -> T {
    GRANTED.with(|left| left.set(requests));
    let answer = call();
    GRANTED.with(|left| left.set(usize::MAX));
    answer
}
