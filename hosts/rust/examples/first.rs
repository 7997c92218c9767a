//! From a new image to a landing. docs/EMBEDDING.md shows `serve`; tools/hosts runs it.

use kfs::{Client, Desk, Error, Reply};

/// Client 7 creates the file 5, named `a`, in the root directory, with mode 0644.
const LOG: &[u8] = b"KLOG\x01\0\0\0\x07\0\x01\x01\0\0\0\x01\x01a\0\0\0\x05\0\x01\xa4";

/// Opens a desk, lets client 7 lease the root, makes the plan of its log, judges it and lands it.
fn serve(log: &[u8]) -> Result<Reply, Error> {
    let client = Client { number: 7, uid: 1000, gid: 1000, groups: vec![50], privileged: false, grant: 2..=99 };
    // three tiers, of 4, 16 and 64 MiB; at most 1,000 calls are answered
    let mut desk = Desk::open([1024, 4096, 16_384], &[client], 1000)?;
    desk.lease(7, b"/", true, 100)?.map_err(Error::Refused)?;
    // the client's library makes the plan, where it can; else the desk does
    let plan = desk.plan(7, log)?;
    // judging looks at a view and touches nothing else: it may be done in another thread
    let mut view = desk.look()?;
    let verdict = view.judge(7, log, &plan)?;
    drop(view);
    // landing judges again only where what the verdict rests on has changed
    desk.land(verdict)
}

fn main() {
    println!("{:?}", serve(LOG));
}
