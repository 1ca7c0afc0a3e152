//! The graph of commits under a version control system, in the process that asks it: a safe face of libsegdag.
//!
//! ```no_run
//! use segdag::{Id, OpenOptions};
//!
//! # fn main() -> segdag::Result<()> {
//! # let (parent, child) = (Id::from([1; 20]), Id::from([2; 20]));
//! let store = OpenOptions::new().create(true).open("log")?;
//! let session = store.session(0)?;
//! session.add(&child, &[parent])?;
//! session.flush(&[child])?;
//! assert!(session.is_ancestor(&parent, &child)?);
//! for head in session.query("heads(all)")? {
//!     println!("{head}");
//! }
//! # Ok(())
//! # }
//! ```
//!
//! An [`Id`] is the 20 bytes by which a commit is known, a number what a store gives it: parents have smaller numbers than children. A
//! [`Session`] is a client's view of a store: what was stored when it last looked, with its own pending commits on top. A [`Store`] is for any
//! thread; a call waits until the one before it has ended.
mod error;
mod id;
mod members;
mod options;
mod progress;
mod session;
mod store;

pub use error::{Code, Error, Result};
pub use id::Id;
pub use members::Members;
pub use options::OpenOptions;
pub use progress::{Progress, Stage};
pub use session::{Distance, Session, Sizes};
pub use store::{follow, open, version, Store};

/// Numbers of commits outside of master are this and more: what the documents write as N0 is `OTHERS`, N1 is `OTHERS + 1`.
pub const OTHERS: u64 = segdag_sys::SEGDAG_OTHERS;
