//! How far a call has come, and whether it is to go on.
use segdag_sys as sys;
use std::ffi::c_void;
use std::panic::{catch_unwind, AssertUnwindSafe};
use std::sync::Arc;
use std::{fmt, ptr};

/// What a call is doing.
#[non_exhaustive]
#[derive(Debug, Clone, Copy, PartialEq, Eq, Hash)]
pub enum Stage {
    /// It waits for the log's lock: milliseconds.
    Lock,
    /// It reads a file: bytes.
    Read,
    /// It has read the log, and is to build its tables.
    Load,
    /// It answers: pairs, or members.
    Answer,
    /// A stage of a later library.
    Other,
}

/// How far a call has come. `whole` is 0 where it isn't known.
#[derive(Debug, Clone, Copy, PartialEq, Eq)]
pub struct Progress {
    pub stage: Stage,
    pub done: u64,
    pub whole: u64,
}

type Told = dyn Fn(Progress) -> bool + Send + Sync;

/// Who is told how far calls have come, if anybody is. It stays at its place in memory, which the library knows.
#[derive(Clone, Default)]
pub(crate) struct Watch(Option<Arc<Box<Told>>>);

impl Watch {
    pub(crate) fn new(told: impl Fn(Progress) -> bool + Send + Sync + 'static) -> Watch {
        Watch(Some(Arc::new(Box::new(told))))
    }

    pub(crate) fn call(&self) -> sys::segdag_progress_call {
        self.0.as_ref().map(|_| ask as _)
    }

    pub(crate) fn context(&self) -> *mut c_void {
        self.0
            .as_ref()
            .map_or(ptr::null_mut(), |told| Arc::as_ptr(told) as *mut c_void)
    }
}

impl fmt::Debug for Watch {
    fn fmt(&self, f: &mut fmt::Formatter<'_>) -> fmt::Result {
        f.write_str(if self.0.is_some() { "Watch" } else { "None" })
    }
}

/// What the library calls. A panic cancels the call, and goes no further.
unsafe extern "C" fn ask(progress: *const sys::segdag_progress, context: *mut c_void) -> bool {
    // The library gives a valid struct, and the context of a watch that its store keeps.
    let (progress, told) = (&*progress, &*(context as *const Box<Told>));
    let stage = match progress.stage {
        sys::SEGDAG_STAGE_LOCK => Stage::Lock,
        sys::SEGDAG_STAGE_READ => Stage::Read,
        sys::SEGDAG_STAGE_LOAD => Stage::Load,
        sys::SEGDAG_STAGE_ANSWER => Stage::Answer,
        _ => Stage::Other,
    };
    let progress = Progress {
        stage,
        done: progress.done,
        whole: progress.whole,
    };
    catch_unwind(AssertUnwindSafe(|| told(progress))).unwrap_or(true)
}
