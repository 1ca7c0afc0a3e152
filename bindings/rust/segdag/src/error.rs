//! What a call may fail with.
use crate::Id;
use segdag_sys as sys;
use std::ffi::CStr;
use std::{fmt, io};

pub type Result<T> = std::result::Result<T, Error>;

macro_rules! codes {
    ($($name:ident = $number:literal),* $(,)?) => {
        /// What a call ended with, as `segdag.h` says of each.
        #[non_exhaustive]
        #[derive(Debug, Clone, Copy, PartialEq, Eq, Hash)]
        pub enum Code {
            $($name = $number,)*
            /// A code of a later library.
            Other = -1,
        }

        impl Code {
            fn of(number: sys::segdag_code) -> Code {
                match number {
                    $($number => Code::$name,)*
                    _ => Code::Other,
                }
            }
        }
    };
}

codes! {
    Argument = 1, Closed = 2, Forked = 3, Memory = 4, NotOpened = 5, Locked = 6, Foreign = 7, NoLog = 8, Replaced = 9, ReadOnly = 10,
    Disk = 11, Reply = 12, Syntax = 13, Unknown = 14, Twice = 15, Differs = 16, Conflict = 17, Lost = 18, Master = 19, Empty = 20, Full = 21,
    Answer = 22, NotEmpty = 23, Pending = 24, NoRemote = 25, Remote = 26, MismatchPath = 27, MismatchNames = 28, MismatchClone = 29,
    MismatchRow = 30, Line = 31, Unsure = 32, Gone = 33, Raced = 34, Stale = 35, Database = 36,
    Cancelled = 37,
}

impl Code {
    /// Whether the store refuses, and nothing changed.
    pub fn is_refusal(self) -> bool {
        (Code::Syntax as i32..=Code::Line as i32).contains(&(self as i32))
    }

    /// Whether the store is closed by it: open it again to see what was stored.
    pub fn is_closing(self) -> bool {
        matches!(self, Code::Disk | Code::Reply | Code::Unsure | Code::Raced)
    }
}

/// Why a call failed.
#[derive(Debug)]
pub struct Error {
    code: Code,
    text: String,
    id: Option<Id>,
    call: Option<String>,
    source: Option<io::Error>,
}

impl Error {
    pub fn code(&self) -> Code {
        self.code
    }

    /// The commit that it is about: the one that isn't there, is given twice, differs and so on.
    pub fn id(&self) -> Option<Id> {
        self.id
    }

    /// The call that the system refused, as in `pwrite`. What it said is the error's source.
    pub fn call(&self) -> Option<&str> {
        self.call.as_deref()
    }

    /// An argument that the library can't be given at all.
    pub(crate) fn argument(text: &str) -> Error {
        Error {
            code: Code::Argument,
            text: text.to_string(),
            id: None,
            call: None,
            source: None,
        }
    }

    /// The last failure of this thread.
    fn last() -> Error {
        // The library gives a valid struct, whose texts end with a byte 0, and which stands until this thread's next failure.
        let last = unsafe { &*sys::segdag_last_error() };
        let text = unsafe { CStr::from_ptr(last.text.as_ptr()) }
            .to_string_lossy()
            .into_owned();
        let call = (!last.call.is_null()).then(|| {
            unsafe { CStr::from_ptr(last.call) }
                .to_string_lossy()
                .into_owned()
        });
        let source = (last.system != 0).then(|| io::Error::from_raw_os_error(last.system));
        Error {
            code: Code::of(last.code),
            text,
            id: last.has_id.then(|| last.id.into()),
            call,
            source,
        }
    }

    pub(crate) fn check(code: sys::segdag_code) -> Result<()> {
        if code == 0 {
            Ok(())
        } else {
            Err(Error::last())
        }
    }
}

impl fmt::Display for Error {
    fn fmt(&self, f: &mut fmt::Formatter<'_>) -> fmt::Result {
        f.write_str(&self.text)
    }
}

impl std::error::Error for Error {
    fn source(&self) -> Option<&(dyn std::error::Error + 'static)> {
        self.source.as_ref().map(|it| it as _)
    }
}
