//! Scratch memory of calls.

use std::fmt;
use tilgwaren_sys as sys;

/// Scratch memory of transforms and of motion. Its contents before a call don't matter. Threads
/// need one each.
#[derive(Clone)]
pub struct Context(Box<sys::Context>);

impl Context {
    /// Scratch memory for blocks of every size.
    #[must_use]
    pub fn new() -> Context {
        Context(Box::new(sys::Context { words: [0; 19813] }))
    }

    pub(crate) fn as_mut(&mut self) -> *mut sys::Context {
        &mut *self.0
    }
}

impl Default for Context {
    fn default() -> Context {
        Context::new()
    }
}

impl fmt::Debug for Context {
    fn fmt(&self, f: &mut fmt::Formatter<'_>) -> fmt::Result {
        f.write_str("Context")
    }
}
