//! How a log is opened.
use crate::error::{Error, Result};
use crate::progress::{Progress, Watch};
use crate::store::Store;
use segdag_sys as sys;
use std::ffi::CString;
use std::os::unix::ffi::OsStrExt;
use std::path::Path;
use std::ptr;
use std::time::Duration;

/// How a log is opened. Without more it has to be there, is opened for changes, and nobody else has it.
#[derive(Debug, Clone, Default)]
pub struct OpenOptions {
    flags: u32,
    wait: u32,
    cache: u32,
    most_bytes: u64,
    watch: Watch,
}

impl OpenOptions {
    pub fn new() -> OpenOptions {
        OpenOptions::default()
    }

    fn set(&mut self, flag: u32, is_set: bool) -> &mut OpenOptions {
        self.flags = if is_set {
            self.flags | flag
        } else {
            self.flags & !flag
        };
        self
    }

    /// Whether a new log is made where nothing is at the path.
    pub fn create(&mut self, is: bool) -> &mut OpenOptions {
        self.set(sys::SEGDAG_OPEN_CREATE, is)
    }

    /// Whether it is opened beside others that only read it, while no writer has it.
    pub fn read_only(&mut self, is: bool) -> &mut OpenOptions {
        self.set(sys::SEGDAG_OPEN_READ_ONLY, is)
    }

    /// Whether it is opened beside whoever writes it, without a lock.
    pub fn follow(&mut self, is: bool) -> &mut OpenOptions {
        self.set(sys::SEGDAG_OPEN_FOLLOW, is)
    }

    /// Whether a file that begins as no log does is taken for one in which nothing is stored, and a change writes over it.
    pub fn any_file(&mut self, is: bool) -> &mut OpenOptions {
        self.set(sys::SEGDAG_OPEN_ANY_FILE, is)
    }

    /// How long to wait at most while another store has the log; `Duration::MAX` is for ever.
    pub fn wait(&mut self, time: Duration) -> &mut OpenOptions {
        self.wait = u32::try_from(time.as_millis()).unwrap_or(sys::SEGDAG_FOREVER);
        self
    }

    /// How many ids of mirrors are kept; 4096 where nothing is said.
    pub fn cache(&mut self, ids: u32) -> &mut OpenOptions {
        self.cache = ids;
        self
    }

    /// How many bytes the log may have, so that a longer one isn't read.
    pub fn most_bytes(&mut self, bytes: u64) -> &mut OpenOptions {
        self.most_bytes = bytes;
        self
    }

    /// Who is told how far this call and later ones on the store have come, by the thread that makes them. Where it answers true the call ends
    /// with `Code::Cancelled`, as where it panics. It makes no call on the store.
    pub fn progress(
        &mut self,
        told: impl Fn(Progress) -> bool + Send + Sync + 'static,
    ) -> &mut OpenOptions {
        self.watch = Watch::new(told);
        self
    }

    pub fn open(&self, path: impl AsRef<Path>) -> Result<Store> {
        let path = CString::new(path.as_ref().as_os_str().as_bytes())
            .map_err(|_| Error::argument("a path has no NUL"))?;
        let options = sys::segdag_open_options {
            size: std::mem::size_of::<sys::segdag_open_options>(),
            flags: self.flags,
            wait: self.wait,
            cache: self.cache,
            most_bytes: self.most_bytes,
            progress: self.watch.call(),
            context: self.watch.context(),
        };
        let mut raw = ptr::null_mut();
        // The path ends with a byte 0, and the others are valid for this call.
        Error::check(unsafe { sys::segdag_store_open(path.as_ptr(), &options, &mut raw) })?;
        Ok(Store::of(raw, self.watch.clone()))
    }
}
