//! Stands in for take_mut: replaces a value by a function of itself.

/// Ends the program if it is dropped, which happens only when the function panics.
struct AbortOnPanic;

impl Drop for AbortOnPanic {
    fn drop(&mut self) {
        std::process::abort();
    }
}

pub fn take<T, F: FnOnce(T) -> T>(place: &mut T, function: F) {
    let guard = AbortOnPanic;
    // The place is empty between the read and the write; the guard keeps anyone from seeing it so.
    unsafe {
        let old = std::ptr::read(place);
        std::ptr::write(place, function(old));
    }
    std::mem::forget(guard);
}
