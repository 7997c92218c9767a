//! kfsd: many processes of many users come to one desk.
//!
//! It asks the kernel who connects, stamps each frame with that user's client, and talks to `kfs_serve` over pipes. It is
//! believed for naming its clients truly. What a call does, and that an answered one is kept, is `kfs_serve`'s.
//! Begin with `run` in `daemon.rs`; docs/KFSD.md is for those who run it.

#![forbid(unsafe_code)]

pub mod allowance;
pub mod asking;
pub mod bytes;
pub mod calls;
pub mod clients;
pub mod clock;
pub mod cluster;
pub mod config;
pub mod connection;
pub mod control;
pub mod cost;
pub mod daemon;
pub mod desk;
pub mod docket;
pub mod duties;
pub mod figures;
pub mod flight;
pub mod folder;
pub mod following;
pub mod frames;
pub mod journal;
pub mod leases;
pub mod locking;
pub mod locks;
pub mod log;
pub mod meter;
pub mod metrics;
pub mod moves;
pub mod outcomes;
pub mod pace;
pub mod peer;
pub mod places;
pub mod queue;
pub mod rules;
pub mod sockets;
pub mod space;
pub mod status;
pub mod store;
pub mod thread;
pub mod times;
pub mod users;
pub mod waiting;
pub mod wants;
pub mod work;
