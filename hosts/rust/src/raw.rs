//! The functions and structs of `include/kfs.h`, by hand.

#[repr(C)]
pub struct Handle {
    pub at: *mut u8,
    pub full: bool,
}

impl Handle {
    pub const EMPTY: Handle = Handle { at: std::ptr::null_mut(), full: false };
}

#[repr(C)]
pub struct ClientRow {
    pub number: u32,
    pub uid: u32,
    pub gid: u32,
    pub first: u32,
    pub last: u32,
    pub groups_start: u32,
    pub groups_count: u32,
    pub privileged: bool,
}

/// The move of a block of a file to a place of a tier. All count from 0.
#[repr(C)]
#[derive(Clone, Copy, Debug, PartialEq, Eq)]
pub struct Move {
    pub number: u32,
    pub block: u32,
    pub tier: u8,
    pub place: u32,
}

/// A lease of a client on a node.
#[repr(C)]
#[derive(Clone, Copy, Debug, PartialEq, Eq)]
pub struct Lease {
    pub number: u32,
    pub client: u32,
    /// Above the moment.
    pub end: u64,
    pub write: bool,
}

/// Why something was refused: a `KFS_` code of `include/kfs.h`, and what it is about.
#[repr(C)]
#[derive(Clone, Copy, Debug, Default, PartialEq, Eq)]
pub struct Fault {
    pub code: u32,
    pub reason: u32,
    pub index: u64,
    pub detail: u32,
}

#[repr(C)]
#[derive(Default)]
pub struct Reply {
    pub kind: u32,
    pub position: u32,
    pub rejudged: bool,
    pub need: u64,
    pub free: u32,
    pub fault: Fault,
}

#[repr(C)]
#[derive(Default)]
pub struct Act {
    pub position: u32,
    pub done: bool,
    pub number: u64,
    pub fault: Fault,
}

/// The header of a node.
#[repr(C)]
#[derive(Clone, Copy, Debug, Default, PartialEq, Eq)]
pub struct Node {
    pub directory: bool,
    pub mode: u16,
    pub links: u16,
    pub uid: u32,
    pub gid: u32,
    pub size: u64,
}

const _: () = assert!(size_of::<Handle>() == 16 && size_of::<ClientRow>() == 32 && size_of::<Move>() == 16);
const _: () = assert!(size_of::<Fault>() == 24 && size_of::<Reply>() == 56);
const _: () = assert!( size_of::<Act>() == 40 && size_of::<Node>() == 24);

extern "C" {
    pub fn kfs_open(
        handle: *mut Handle, first: u32, second: u32, third: u32, clients: *const ClientRow, clients_len: usize,
        groups: *const u32, groups_len: usize, limit: u32, fault: *mut Fault,
    ) -> u32;
    pub fn kfs_load(
        handle: *mut Handle, bytes: *const u8, bytes_len: usize, clients: *const ClientRow, clients_len: usize,
        groups: *const u32, groups_len: usize, limit: u32, fault: *mut Fault,
    ) -> u32;
    pub fn kfs_restore(
        handle: *mut Handle, bytes: *const u8, bytes_len: usize, limit: u32, fault: *mut Fault,
    ) -> u32;
    pub fn kfs_resume(
        handle: *mut Handle, bytes: *const u8, bytes_len: usize, clients: *const ClientRow, clients_len: usize,
        groups: *const u32, groups_len: usize, leases: *const Lease, leases_len: usize, moment: u64, limit: u32,
        fault: *mut Fault,
    ) -> u32;
    pub fn kfs_close(handle: *mut Handle);
    pub fn kfs_submit(
        handle: *mut Handle, client: u32, log: *const u8, log_len: usize, plan: *const u8, plan_len: usize,
        reply: *mut Reply,
    ) -> u32;
    pub fn kfs_do(handle: *mut Handle, client: u32, log: *const u8, log_len: usize, reply: *mut Reply) -> u32;
    pub fn kfs_look(handle: *mut Handle, view: *mut Handle) -> u32;
    pub fn kfs_judge(
        view: *mut Handle, client: u32, log: *const u8, log_len: usize, plan: *const u8, plan_len: usize,
        verdict: *mut Handle,
    ) -> u32;
    pub fn kfs_land(handle: *mut Handle, verdict: *mut Handle, reply: *mut Reply) -> u32;
    pub fn kfs_plan(
        handle: *mut Handle, client: u32, log: *const u8, log_len: usize, buffer: *mut u8, buffer_len: usize,
        len: *mut usize,
    ) -> u32;
    pub fn kfs_lease(
        handle: *mut Handle, client: u32, path: *const u8, path_len: usize, write: bool, end: u64, reply: *mut Act,
    ) -> u32;
    pub fn kfs_lease_at(
        handle: *mut Handle, client: u32, number: u32, write: bool, end: u64, reply: *mut Act,
    ) -> u32;
    pub fn kfs_drop(handle: *mut Handle, client: u32, number: u32, reply: *mut Act) -> u32;
    pub fn kfs_tick(handle: *mut Handle, moment: u64, reply: *mut Act) -> u32;
    pub fn kfs_migrate(handle: *mut Handle, moves: *const Move, moves_len: usize, reply: *mut Act) -> u32;
    pub fn kfs_call(
        handle: *mut Handle, bytes: *const u8, bytes_len: usize, answer: *mut u8, answer_len: usize, len: *mut usize,
        fault: *mut Fault,
    ) -> u32;
    pub fn kfs_node(handle: *mut Handle, number: u32, node: *mut Node) -> u32;
    pub fn kfs_find(handle: *mut Handle, directory: u32, name: *const u8, name_len: usize, number: *mut u32) -> u32;
    pub fn kfs_may(view: *mut Handle, access: u32, client: u32, number: u32, fault: *mut Fault) -> u32;
    pub fn kfs_name(
        handle: *mut Handle, directory: u32, after: *const u8, after_len: usize, name: *mut u8, name_len: usize,
        len: *mut usize, number: *mut u32,
    ) -> u32;
    pub fn kfs_read(
        handle: *mut Handle, number: u32, start: u64, buffer: *mut u8, buffer_len: usize, count: *mut usize,
    ) -> u32;
    pub fn kfs_place(handle: *mut Handle, number: u32, block: u32, tier: *mut u8, place: *mut u32) -> u32;
    pub fn kfs_free(handle: *mut Handle, tier: u8, count: *mut u32) -> u32;
    pub fn kfs_docket_len(handle: *mut Handle, count: *mut u32) -> u32;
    pub fn kfs_save(handle: *mut Handle, buffer: *mut u8, buffer_len: usize, len: *mut usize) -> u32;
    pub fn kfs_state(handle: *mut Handle, buffer: *mut u8, buffer_len: usize, len: *mut usize) -> u32;
}
