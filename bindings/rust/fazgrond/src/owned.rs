//! What is shared by all that is open in the library.
use crate::raw;
use std::ptr;

/// A session, peer, line, viewer, player's habits, giver or taker of the library, which closes by itself.
#[derive(Debug)]
pub(crate) struct Owned {
    // From `Box::into_raw`: the library's side must not move. A raw pointer keeps `Owned` from being `Sync`.
    raw: *mut raw::Object,
}

// SAFETY: the library may be called from any thread, though not from two at once.
unsafe impl Send for Owned {}

impl Owned {
    /// One that isn't open yet.
    pub(crate) fn closed() -> Owned {
        Owned { raw: Box::into_raw(Box::new(raw::Object { full: 0, at: ptr::null_mut() })) }
    }

    pub(crate) fn raw(&self) -> *mut raw::Object {
        self.raw
    }
}

impl Drop for Owned {
    fn drop(&mut self) {
        // SAFETY: `raw` is from `Box::into_raw`, and nothing uses it any more; `fazgrond_close` closes each kind.
        unsafe {
            raw::fazgrond_close(self.raw);
            drop(Box::from_raw(self.raw));
        }
    }
}

/// What a question is answered, if there is such a thing.
pub(crate) fn answered<T: Default>(ask: impl FnOnce(&mut T) -> i32) -> Option<T> {
    let mut answer = T::default();
    (ask(&mut answer) == 0).then_some(answer)
}
