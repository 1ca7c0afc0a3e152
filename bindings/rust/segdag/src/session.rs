//! Sessions: what a client sees of a store, and its pending commits.
use crate::error::{Error, Result};
use crate::{Id, Members, Store};
use segdag_sys as sys;
use std::{ptr, slice};

/// How many commits there are in master, outside of it, and pending.
#[derive(Debug, Clone, Copy, PartialEq, Eq, Hash)]
pub struct Sizes {
    pub master: u64,
    pub others: u64,
    pub pending: u64,
}

/// How many commits the first of a pair reaches that the second doesn't, and the other way round.
#[derive(Debug, Clone, Copy, PartialEq, Eq, Hash)]
pub struct Distance {
    pub ahead: u64,
    pub behind: u64,
}

/// A client's view of a store: what was stored when it last looked, with its own pending commits on top.
#[derive(Debug, Clone, Copy)]
pub struct Session<'store> {
    store: &'store Store,
    number: u8,
}

type Raw = *mut sys::segdag_store;

impl<'store> Session<'store> {
    pub(crate) fn of(store: &'store Store, number: u8) -> Session<'store> {
        Session { store, number }
    }

    /// Makes a call of the library that tells a number.
    fn told(&self, call: impl FnOnce(Raw, u32, *mut u64) -> sys::segdag_code) -> Result<u64> {
        let mut number = 0;
        Error::check(call(self.store.raw(), self.number.into(), &mut number))?;
        Ok(number)
    }

    /// Makes a call of the library that tells sizes.
    fn sized(
        &self,
        call: impl FnOnce(Raw, u32, *mut sys::segdag_sizes) -> sys::segdag_code,
    ) -> Result<Sizes> {
        let mut sizes = sys::segdag_sizes {
            size: std::mem::size_of::<sys::segdag_sizes>(),
            master: 0,
            others: 0,
            pending: 0,
        };
        Error::check(call(self.store.raw(), self.number.into(), &mut sizes))?;
        Ok(Sizes {
            master: sizes.master,
            others: sizes.others,
            pending: sizes.pending,
        })
    }

    /// Adds a pending commit, and tells its number; one that is there with the same parents stays as it is.
    pub fn add(&self, id: &Id, parents: &[Id]) -> Result<u64> {
        self.told(|store, session, number| unsafe {
            sys::segdag_commit_add(
                store,
                session,
                id.raw(),
                Id::first(parents),
                parents.len(),
                number,
            )
        })
    }

    /// Stores the pending commits, and moves what these heads reach to master for good. It is on the disk when this returns.
    pub fn flush(&self, heads: &[Id]) -> Result<Sizes> {
        self.sized(|store, session, sizes| unsafe {
            sys::segdag_session_flush(store, session, Id::first(heads), heads.len(), sizes)
        })
    }

    /// Removes these commits outside of master, and their descendants.
    pub fn strip(&self, ids: &[Id]) -> Result<Sizes> {
        self.sized(|store, session, sizes| unsafe {
            sys::segdag_session_strip(store, session, Id::first(ids), ids.len(), sizes)
        })
    }

    /// Stores a mirror's master in a log that has nothing.
    pub fn clone_mirror(&self) -> Result<Sizes> {
        self.sized(|store, session, sizes| unsafe {
            sys::segdag_session_clone(store, session, sizes)
        })
    }

    /// Stores what is new in a mirror's master.
    pub fn pull(&self) -> Result<Sizes> {
        self.sized(|store, session, sizes| unsafe {
            sys::segdag_session_pull(store, session, sizes)
        })
    }

    /// Takes the session to the newest version, and tells how many pending commits it keeps.
    pub fn reload(&self) -> Result<u64> {
        self.told(|store, session, number| unsafe {
            sys::segdag_session_reload(store, session, number)
        })
    }

    /// Lets the pending commits go, and tells how many they were.
    pub fn discard(&self) -> Result<u64> {
        self.told(|store, session, number| unsafe {
            sys::segdag_session_discard(store, session, number)
        })
    }

    /// How many commits the session works on.
    pub fn sizes(&self) -> Result<Sizes> {
        self.sized(|store, session, sizes| unsafe {
            sys::segdag_session_sizes(store, session, sizes)
        })
    }

    /// The number of a commit. Numbers of those outside of master are [`crate::OTHERS`] and more.
    pub fn number(&self, id: &Id) -> Result<u64> {
        self.told(|store, session, number| unsafe {
            sys::segdag_commit_number(store, session, id.raw(), number)
        })
    }

    /// The id of the commit with this number.
    pub fn id(&self, number: u64) -> Result<Id> {
        let mut id = sys::segdag_id { id: [0; 20] };
        Error::check(unsafe {
            sys::segdag_commit_id(self.store.raw(), self.number.into(), number, &mut id)
        })?;
        Ok(id.into())
    }

    /// Whether `a` is `b`, or an ancestor of it.
    pub fn is_ancestor(&self, a: &Id, b: &Id) -> Result<bool> {
        let mut is = false;
        Error::check(unsafe {
            sys::segdag_commit_is_ancestor(
                self.store.raw(),
                self.number.into(),
                a.raw(),
                b.raw(),
                &mut is,
            )
        })?;
        Ok(is)
    }

    /// The merge bases of both: what both reach, and nothing else that both reach does.
    pub fn merge_bases(&self, a: &Id, b: &Id) -> Result<Vec<Id>> {
        let mut bases = sys::segdag_ids {
            ids: ptr::null_mut(),
            count: 0,
            room: 0,
        };
        let code = unsafe {
            sys::segdag_commit_merge_bases(
                self.store.raw(),
                self.number.into(),
                a.raw(),
                b.raw(),
                &mut bases,
            )
        };
        let told = Error::check(code).map(|()| match bases.count {
            0 => Vec::new(),
            // The library has put so many ids there.
            count => unsafe { slice::from_raw_parts(bases.ids, count) }
                .iter()
                .map(|id| Id::from(*id))
                .collect(),
        });
        unsafe { sys::segdag_ids_free(&mut bases) };
        told
    }

    /// Of each pair, how many commits the first reaches that the second doesn't, and the other way round.
    pub fn ahead_behind(&self, pairs: &[(Id, Id)]) -> Result<Vec<Distance>> {
        let pairs: Vec<_> = pairs
            .iter()
            .map(|(left, right)| sys::segdag_pair {
                left: (*left).into(),
                right: (*right).into(),
            })
            .collect();
        let mut distances = vec![sys::segdag_distance::default(); pairs.len()];
        let mut done = 0;
        let code = unsafe {
            sys::segdag_commit_ahead_behind(
                self.store.raw(),
                self.number.into(),
                pairs.as_ptr(),
                pairs.len(),
                distances.as_mut_ptr(),
                &mut done,
            )
        };
        Error::check(code)?;
        Ok(distances
            .iter()
            .map(|it| Distance {
                ahead: it.ahead,
                behind: it.behind,
            })
            .collect())
    }

    /// How many members an expression has.
    pub fn count(&self, expression: &str) -> Result<u64> {
        self.told(|store, session, count| unsafe {
            sys::segdag_query_count(
                store,
                session,
                expression.as_ptr().cast(),
                expression.len(),
                count,
            )
        })
    }

    /// The ids of an expression's members, the greatest number first, as they are now.
    pub fn query(&self, expression: &str) -> Result<Members> {
        let mut cursor = ptr::null_mut();
        let code = unsafe {
            sys::segdag_query_open(
                self.store.raw(),
                self.number.into(),
                expression.as_ptr().cast(),
                expression.len(),
                &mut cursor,
            )
        };
        Error::check(code)?;
        Ok(Members::of(cursor))
    }
}
