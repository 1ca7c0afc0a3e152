//! Members of an expression.
use crate::Id;
use segdag_sys as sys;
use std::fmt;
use std::iter::FusedIterator;

/// So many ids are taken from the library at once.
const BLOCK: usize = 256;

/// The ids of an expression's members, the greatest number first, as they were when it was asked, whatever becomes of the store.
pub struct Members {
    cursor: *mut sys::segdag_cursor,
    block: Vec<sys::segdag_id>,
    at: usize,
}

// A cursor belongs to no thread, and is used by one at a time.
unsafe impl Send for Members {}

impl Members {
    /// Takes a cursor that the library opened, and nobody else has.
    pub(crate) fn of(cursor: *mut sys::segdag_cursor) -> Members {
        Members {
            cursor,
            block: Vec::new(),
            at: 0,
        }
    }

    fn left(&self) -> usize {
        let behind = unsafe { sys::segdag_cursor_left(self.cursor) };
        self.block.len() - self.at + usize::try_from(behind).unwrap_or(usize::MAX)
    }

    /// Takes the next block.
    fn more(&mut self) {
        let mut count = 0;
        self.block.resize(BLOCK, sys::segdag_id { id: [0; 20] });
        // There is room for so many, and the arguments are none that it refuses.
        unsafe { sys::segdag_cursor_next(self.cursor, self.block.as_mut_ptr(), BLOCK, &mut count) };
        self.block.truncate(count);
        self.at = 0;
    }
}

impl Iterator for Members {
    type Item = Id;

    fn next(&mut self) -> Option<Id> {
        if self.at == self.block.len() {
            self.more();
        }
        let id = self.block.get(self.at)?;
        self.at += 1;
        Some((*id).into())
    }

    fn size_hint(&self) -> (usize, Option<usize>) {
        (self.left(), Some(self.left()))
    }
}

impl ExactSizeIterator for Members {}
impl FusedIterator for Members {}

impl Drop for Members {
    fn drop(&mut self) {
        unsafe { sys::segdag_cursor_close(self.cursor) };
    }
}

impl fmt::Debug for Members {
    fn fmt(&self, f: &mut fmt::Formatter<'_>) -> fmt::Result {
        write!(f, "Members({} left)", self.left())
    }
}
