//! Turepawon from Rust: which driver holds which duty, which changes may be made together, and why not.
//!
//! A board has rows (duties) and values (drivers). [`Tables`] say what is legal; a [`Roster`] says who holds what; an [`Index`] of both answers the questions. The work is done by the engine's static library, whose functions are proved to meet their contracts for all input;
//! this crate packs plain data into the slices that the library takes and gives its answers names.
//!
//! ```
//! use turepawon::{Edit, Error, Index, Roster, Tables};
//!
//! // Three duties, two drivers. A driver's key is the driver: nobody has two duties at once.
//! let mut board = Tables::builder(3, 2);
//! for duty in 0..3 {
//!     board.may_be_empty(duty, true);
//!     for driver in 0..2 {
//!         board.legal(duty, driver, true).capacity(duty, driver, driver);
//!     }
//! }
//! let mut index = Index::build(board.build()?, &Roster::new([Some(0), Some(1), None]))?;
//!
//! // Driver 0 could leave duty 0 for duty 2. To ask changes nothing.
//! assert!(index.assignment_feasible_after_edits(&[Edit::clear(0), Edit::assign(2, 0)])?.is_yes());
//!
//! // Two drivers change places. Driver 0 cannot take duty 2 as well: the answer is no, and the roster stays.
//! assert!(index.apply(&[Edit::assign(0, 1), Edit::assign(1, 0)])?.is_yes());
//! assert!(!index.apply(&[Edit::assign(2, 0)])?.is_yes());
//! assert_eq!(index.roster(), Roster::new([Some(1), Some(0), None]));
//! # Ok::<(), Error>(())
//! ```
//!
//! Nothing here panics, whatever it is handed; what does not fit is an [`Error`]. All types are plain data: they can be sent to other threads, and questions can be asked of one index by many at once.
//!
//! Link: the build script takes `target/staticlib/libengine.a` of the repository, which it has `tools/static-library` write where it is missing and the Rattle kit is there, or the archive in the folder that `TUREPAWON_LIB` names. `cargo check` and `cargo doc` need neither.
#![warn(missing_docs)]

mod builder;
mod calendar;
mod error;
mod file;
mod index;
pub mod layout;
mod outputs;
#[allow(missing_docs)]
pub mod raw;
mod refusal;
mod reinsertions;
mod rematches;
mod search;
mod tables;
mod windows;

pub use builder::TableBuilder;
pub use calendar::{read_calendar, Duty, Stamp};
pub use error::{check_library, Error, LibraryFault, ABI};
pub use file::{Column, FileFault, FileRecord, RosterFile};
pub use index::{Conflict, Edit, Index, Roster, Verdict};
pub use raw::EditRecord;
pub use refusal::{Refusal, UnnamedRefusal};
pub use reinsertions::{EjectionCursor, Reinsertions};
pub use rematches::Rematches;
pub use search::{ask_ceiling, Request, Search};
pub use tables::{Table, TableData, TableFault, Tables};
pub use windows::{Cursor, Ejection, Order, Step, Walk};

/// "No value", in packed rosters and lists.
pub const EMPTY: usize = usize::MAX;

// The library's numbers have 64 bits.
const _: () = assert!(usize::BITS == 64, "the engine's usize has 64 bits");
