//! kfs-mount: a desk's tree as a mount of one user. It talks to the kernel by the protocol of /dev/fuse, and makes each request
//! a call of a session of kfs-client. Begin with `serve` in `serving.rs`; docs/CLIENT.md says what it has and what not.

#![forbid(unsafe_code)]

pub mod attributes;
pub mod background;
pub mod changes;
pub mod fusermount;
pub mod handles;
pub mod links;
pub mod locking;
pub mod mounting;
pub mod nodes;
pub mod protocol;
pub mod serving;
pub mod sharing;
pub mod special;
pub mod telling;
pub mod volume;
pub mod words;
