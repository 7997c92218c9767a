//! kfs-client: a process gathers its changes in a private log, reads them over what a server shows, and hands the log in with
//! its plan.
//!
//! Nobody believes it: the server judges each log by its own tree, and compares the plan. Begin with `Session` in
//! `session.rs`; docs/CLIENT.md says who keeps what, and when something is durable.

#![forbid(unsafe_code)]
#![warn(missing_docs)]

pub mod bytes;
pub mod cache;
mod change;
pub mod client;
pub mod connection;
mod course;
pub mod desk;
pub mod draft;
pub mod ending;
pub mod entry;
pub mod failure;
pub mod fault;
mod hand_in;
pub mod judge;
pub mod leases;
pub mod leftover;
mod line;
mod locking;
pub mod locks;
pub mod log;
pub mod looks;
mod losing;
pub mod memory;
pub mod name;
mod names;
pub mod node;
pub mod paths;
pub mod plan;
pub mod program;
mod replies;
mod room;
pub mod session;
pub mod shown;
mod wants;

pub use client::Client;
pub use desk::Desk;
pub use draft::Draft;
pub use entry::{Entry, Kind};
pub use failure::{Failure, HandInFault, Lost};
pub use fault::{Fault, Reason};
pub use log::{Full, Log};
pub use name::Name;
pub use node::Header;
pub use session::{Options, Session};
pub use shown::{Shown, Unshown};
