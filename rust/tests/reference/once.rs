//! A value that is made where it is first asked for. From Rust 1.70 on `std::sync::OnceLock` does this.

use std::sync::{Mutex, PoisonError};

/// The value, which stays until the program ends.
pub struct Once<T: 'static>(Mutex<Option<&'static T>>);

impl<T> Once<T> {
    pub const fn new() -> Once<T> {
        Once(Mutex::new(None))
    }

    /// The value, made now if it was not yet. Where making it failed in another test it is tried again.
    pub fn get(&self, make: impl FnOnce() -> T) -> &'static T {
        let mut made = self.0.lock().unwrap_or_else(PoisonError::into_inner);
        made.get_or_insert_with(|| Box::leak(Box::new(make())))
    }
}
