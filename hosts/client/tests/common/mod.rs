//! What the tests share: a random source, a plain model of a tree, and the program.
#![allow(dead_code)]

pub mod chance;
pub mod model;
pub mod seat;

use kfs_client::{Client, Draft, Shown};
use model::Model;

/// The path of the program `kfs`, which hosts/test names.
pub fn program_path() -> String {
    std::env::var("KFS_PROGRAM").expect("KFS_PROGRAM names the program `kfs` (hosts/test sets it)")
}

/// How many runs a random test makes.
pub fn runs(usual: u64) -> u64 {
    std::env::var("KFS_RUNS").ok().and_then(|text| text.parse().ok()).unwrap_or(usual)
}

/// The first seed of a random test.
pub fn first_seed() -> u64 {
    std::env::var("KFS_SEED").ok().and_then(|text| text.parse().ok()).unwrap_or(0)
}

/// Two plain users who share a group, and a privileged one.
pub fn clients() -> Vec<Client> {
    let client = |number, uid, is_privileged, grant| Client { number, uid, gid: uid, groups: vec![50], is_privileged, grant };
    vec![client(7, 1000, false, [2, 25]), client(8, 1001, false, [26, 50]), client(9, 1002, true, [51, 70])]
}

/// All that a draft shows is what the model has.
pub fn compare_draft(draft: &mut Draft, shown: &mut dyn Shown, model: &Model) {
    for number in 0..80 {
        let header = draft.header(shown, number).unwrap();
        assert_eq!(header, model.header(number), "node {number}");
        match header {
            Some(header) if header.is_directory() => {
                assert_eq!(draft.list(shown, number, None, usize::MAX).unwrap(), model.listed(number), "directory {number}");
            }
            Some(_) => {
                let bytes = draft.read(shown, number, 0, 1 << 24).unwrap();
                assert!(bytes == model.bytes(number), "file {number}");
            }
            None => {}
        }
    }
}

/// All that a server shows is what the model has.
pub fn compare_shown(shown: &mut dyn Shown, model: &Model) {
    for number in 0..80 {
        let header = shown.header(number).unwrap();
        assert_eq!(header, model.header(number), "node {number}");
        match header {
            Some(header) if header.is_directory() => {
                assert_eq!(shown.list(number, None, usize::MAX).unwrap(), model.listed(number), "directory {number}");
            }
            Some(_) => assert!(shown.read(number, 0, 1 << 24).unwrap() == model.bytes(number), "file {number}"),
            None => {}
        }
    }
}
