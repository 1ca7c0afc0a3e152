//! Ids of commits.
use std::fmt;
use std::str::FromStr;

/// The 20 bytes by which a commit is known. As text it is 40 hex digits.
#[derive(Clone, Copy, PartialEq, Eq, PartialOrd, Ord, Hash, Default)]
#[repr(transparent)]
pub struct Id([u8; 20]);

impl Id {
    pub fn as_bytes(&self) -> &[u8; 20] {
        &self.0
    }

    pub(crate) fn raw(&self) -> *const segdag_sys::segdag_id {
        self.0.as_ptr().cast()
    }

    /// The first of these for C, which reads as many as it is told.
    pub(crate) fn first(ids: &[Id]) -> *const segdag_sys::segdag_id {
        ids.as_ptr().cast()
    }
}

impl From<[u8; 20]> for Id {
    fn from(bytes: [u8; 20]) -> Id {
        Id(bytes)
    }
}

impl From<Id> for [u8; 20] {
    fn from(id: Id) -> [u8; 20] {
        id.0
    }
}

impl From<segdag_sys::segdag_id> for Id {
    fn from(id: segdag_sys::segdag_id) -> Id {
        Id(id.id)
    }
}

impl From<Id> for segdag_sys::segdag_id {
    fn from(id: Id) -> segdag_sys::segdag_id {
        segdag_sys::segdag_id { id: id.0 }
    }
}

impl fmt::Display for Id {
    fn fmt(&self, f: &mut fmt::Formatter<'_>) -> fmt::Result {
        self.0.iter().try_for_each(|byte| write!(f, "{byte:02x}"))
    }
}

impl fmt::Debug for Id {
    fn fmt(&self, f: &mut fmt::Formatter<'_>) -> fmt::Result {
        write!(f, "Id({self})")
    }
}

/// The text isn't 40 hex digits.
#[derive(Debug, Clone, Copy, PartialEq, Eq)]
pub struct ParseIdError;

impl fmt::Display for ParseIdError {
    fn fmt(&self, f: &mut fmt::Formatter<'_>) -> fmt::Result {
        f.write_str("an id is 40 hex digits")
    }
}

impl std::error::Error for ParseIdError {}

impl FromStr for Id {
    type Err = ParseIdError;

    fn from_str(text: &str) -> std::result::Result<Id, ParseIdError> {
        if text.len() != 40 || !text.bytes().all(|it| it.is_ascii_hexdigit()) {
            return Err(ParseIdError);
        }
        let mut id = Id::default();
        for (at, byte) in id.0.iter_mut().enumerate() {
            *byte = u8::from_str_radix(&text[2 * at..2 * at + 2], 16).map_err(|_| ParseIdError)?;
        }
        Ok(id)
    }
}
