//! Decides which kills a replicated cluster tolerates, within your own simulator or test.
//!
//! A guard is opened with a cluster file, and asked before each kill. It answers with the hardest
//! kill that the replication policies tolerate, and keeps a journal of all that was asked and
//! answered. The decision is that of `faultyard guard`; the crate calls the C library.
//!
//! ```
//! use faultyard::{Guard, Key, Kind, Rule};
//!
//! let mut guard = Guard::open(r#"
//! journal_limit = 1000
//! policies = ["Across(2,zoneid,One())"]
//! process = [
//!   {processid = "p0", machineid = "m0", zoneid = "z0"},
//!   {processid = "p1", machineid = "m1", zoneid = "z1"},
//! ]
//! actor = [{role = "fault", grants = [{kinds = ["Reboot", "RebootAndDelete"]}]}]
//! "#)?;
//! let first = guard.kill(0, Key::Zone, "z0", Kind::RebootAndDelete, Kind::Reboot, 0)?;
//! assert_eq!(first.struck, Some(Kind::RebootAndDelete));
//! let second = guard.kill(0, Key::Zone, "z1", Kind::RebootAndDelete, Kind::Reboot, 0)?;
//! assert_eq!(second.struck, Some(Kind::Reboot));
//! assert_eq!(second.rule, Some(Rule::TooManyDestroyed { policy: 0 }));
//! # Ok::<(), faultyard::Error>(())
//! ```
//!
//! # Threads
//!
//! The C library promises that guards of different threads have nothing in common, that a guard may
//! be moved to another thread, and that calls which only ask may be made at once. It asks for one
//! call at a time otherwise, and the compiler sees to that.
//!
//! ```
//! # fn opened() -> faultyard::Guard {
//! #     faultyard::Guard::open(include_str!("../tests/cluster.toml")).unwrap()
//! # }
//! let guard = opened();
//! let moved = std::thread::spawn(move || guard.journal_len());
//! assert_eq!(moved.join().unwrap(), 0);
//!
//! let shared = std::sync::Mutex::new(opened());
//! std::thread::scope(|scope| {
//!     scope.spawn(|| shared.lock().unwrap().up(0, 0));
//!     scope.spawn(|| shared.lock().unwrap().up(0, 1));
//! });
//! let guard = shared.into_inner().unwrap();
//! std::thread::scope(|scope| {
//!     scope.spawn(|| assert_eq!(guard.journal_len(), 2));
//!     scope.spawn(|| assert_eq!(guard.left().len(), 6));
//! });
//! ```
//!
//! Without a `Mutex` two threads can't act:
//!
//! ```compile_fail,E0499
//! # fn opened() -> faultyard::Guard {
//! #     faultyard::Guard::open(include_str!("../tests/cluster.toml")).unwrap()
//! # }
//! let mut shared = opened();
//! std::thread::scope(|scope| {
//!     scope.spawn(|| shared.up(0, 0));
//!     scope.spawn(|| shared.up(0, 1));
//! });
//! ```
//!
//! Nor can one act while another asks:
//!
//! ```compile_fail,E0502
//! # fn opened() -> faultyard::Guard {
//! #     faultyard::Guard::open(include_str!("../tests/cluster.toml")).unwrap()
//! # }
//! let mut shared = opened();
//! std::thread::scope(|scope| {
//!     scope.spawn(|| shared.journal_len());
//!     scope.spawn(|| shared.up(0, 1));
//! });
//! ```
//!
//! A guard has no copy:
//!
//! ```compile_fail,E0599
//! # fn opened() -> faultyard::Guard {
//! #     faultyard::Guard::open(include_str!("../tests/cluster.toml")).unwrap()
//! # }
//! let copy = opened().clone();
//! ```
//!
//! In a child that a process with threads forked no call may be made; only unsafe Rust forks.

#![deny(missing_docs)]
#![deny(unsafe_op_in_unsafe_fn)]
#![deny(clippy::undocumented_unsafe_blocks)]

mod acts;
mod borne;
mod check;
mod error;
mod guard;
mod plan;
mod set;
mod sight;
mod state;
mod sys;
mod verdict;
mod version;
mod words;

pub use acts::{Begun, Delivered, Kinds, Scope, Synced};
pub use borne::Borne;
pub use check::{Check, Finding};
pub use error::{ConfigFault, Error};
pub use guard::{Guard, AUDIT_HEADER};
pub use plan::{words, Attrition, Order, Plan};
pub use set::ProcessSet;
pub use sight::Sight;
pub use state::State;
pub use verdict::{Rule, Verdict};
pub use version::{version, Version};
pub use words::{Key, Kind, Part, Refusal};

#[cfg(doctest)]
#[doc = include_str!("../README.md")]
struct Readme;
