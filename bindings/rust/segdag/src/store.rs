//! Open logs.
use crate::error::{Error, Result};
use crate::progress::Watch;
use crate::session::Session;
use crate::OpenOptions;
use segdag_sys as sys;
use std::ffi::{CStr, CString};
use std::os::unix::ffi::OsStrExt;
use std::path::Path;
use std::{fmt, ptr, slice};

/// The version of the library that is linked.
pub fn version() -> &'static str {
    // A text that stands for ever.
    unsafe { CStr::from_ptr(sys::segdag_version()) }
        .to_str()
        .unwrap_or("")
}

/// Opens the log at this path, which has to be there, for changes.
pub fn open(path: impl AsRef<Path>) -> Result<Store> {
    OpenOptions::new().open(path)
}

/// Follows the log at this path, beside whoever writes it.
pub fn follow(path: impl AsRef<Path>) -> Result<Store> {
    OpenOptions::new().follow(true).open(path)
}

/// An open log. It is for any thread: a call waits until the one before it has ended. Dropping it closes it; what wasn't flushed is gone.
pub struct Store {
    raw: *mut sys::segdag_store,
    /// Which the library asks until the store is closed.
    _watch: Watch,
}

// The library's calls on a store wait for each other, and nothing of it belongs to a thread.
unsafe impl Send for Store {}
unsafe impl Sync for Store {}

impl Store {
    /// Takes a store that the library opened, and nobody else has.
    pub(crate) fn of(raw: *mut sys::segdag_store, watch: Watch) -> Store {
        Store { raw, _watch: watch }
    }

    /// The store for a call of the library.
    pub(crate) fn raw(&self) -> *mut sys::segdag_store {
        self.raw
    }

    /// A session, 0 to 15.
    pub fn session(&self, number: u8) -> Result<Session<'_>> {
        if number > 15 {
            return Err(Error::argument(&format!(
                "a session is a number from 0 to 15, and this one {number}"
            )));
        }
        Ok(Session::of(self, number))
    }

    /// One more reader of this log in this process.
    pub fn follow(&self) -> Result<Store> {
        let mut raw = ptr::null_mut();
        Error::check(unsafe { sys::segdag_store_follow(self.raw, &mut raw) })?;
        Ok(Store::of(raw, Watch::default()))
    }

    /// Of a store that follows: takes what another store stored since, and tells how many changes came. Each session stays where it is until it is
    /// reloaded.
    pub fn refresh(&self) -> Result<u64> {
        let mut changes = 0;
        Error::check(unsafe { sys::segdag_store_refresh(self.raw, &mut changes) })?;
        Ok(changes)
    }

    /// Adds a mirror: a log that this one may be a clone of, by its path.
    pub fn add_mirror(&self, path: impl AsRef<Path>) -> Result<()> {
        self.add_word(path.as_ref().as_os_str().as_bytes())
    }

    /// Adds a mirror that is a bundle.
    pub fn add_bundle(&self, path: impl AsRef<Path>) -> Result<()> {
        self.add_word(&[b"bundle:", path.as_ref().as_os_str().as_bytes()].concat())
    }

    fn add_word(&self, word: &[u8]) -> Result<()> {
        let word = CString::new(word).map_err(|_| Error::argument("a path has no NUL"))?;
        Error::check(unsafe { sys::segdag_mirror_add(self.raw, word.as_ptr()) })
    }

    /// The reply to a line of the command language, as the program puts it; a refusal is one.
    pub fn line(&self, line: &str) -> Result<String> {
        let mut reply = sys::segdag_text {
            bytes: ptr::null_mut(),
            size: 0,
            room: 0,
        };
        let code = unsafe {
            sys::segdag_store_line(self.raw, line.as_ptr().cast(), line.len(), &mut reply)
        };
        let told = Error::check(code).map(|()| {
            // The library has put so many bytes there.
            let bytes = unsafe { slice::from_raw_parts(reply.bytes.cast::<u8>(), reply.size) };
            String::from_utf8_lossy(bytes).into_owned()
        });
        unsafe { sys::segdag_text_free(&mut reply) };
        told
    }
}

impl Drop for Store {
    fn drop(&mut self) {
        // Nobody else has it, and no call may begin any more.
        unsafe { sys::segdag_store_close(self.raw) };
    }
}

impl fmt::Debug for Store {
    fn fmt(&self, f: &mut fmt::Formatter<'_>) -> fmt::Result {
        f.debug_struct("Store").finish_non_exhaustive()
    }
}
