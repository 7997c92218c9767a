//! Replies behind a message that has the kernel forget a file's bytes. The kernel takes that message once nobody reads these bytes
//! any more, and reads wait for the thread that answers requests. So another one writes it, and the reply behind it.

use crate::protocol::{forget_node, reply_head, Reply};
use nix::errno::Errno;
use std::fs::File;
use std::io::{self, IoSlice, Write};
use std::sync::atomic::{AtomicUsize, Ordering};
use std::sync::mpsc::{channel, Receiver, Sender};
use std::sync::Arc;
use std::thread;

/// What is told to the kernel.
#[derive(Debug, Default)]
pub struct Told {
    /// The node of which it forgets before what it has of it.
    pub forgets: Option<u64>,
    /// The number of a request, and its answer.
    pub reply: Option<(u64, Result<Reply, Errno>)>,
}

impl Told {
    /// An answer alone.
    pub fn answer(unique: u64, answer: Result<Reply, Errno>) -> Told {
        Told { forgets: None, reply: Some((unique, answer)) }
    }
}

/// Writes a reply. The kernel takes it whole, or not at all.
pub fn put_reply(device: &mut File, unique: u64, answer: &Result<Reply, Errno>) -> io::Result<()> {
    let head = reply_head(unique, answer);
    let said = answer.as_ref().map_or(&[][..], |reply| &reply.0);
    match device.write_vectored(&[IoSlice::new(&head.0), IoSlice::new(said)]) {
        // The caller has given up meanwhile.
        Err(fault) if fault.raw_os_error() == Some(Errno::ENOENT as i32) => Ok(()),
        written => written.map(|_all| ()),
    }
}

/// Tells, and has the thread that does it where that may take long.
#[derive(Debug)]
pub struct Teller {
    device: File,
    later: Sender<Told>,
    /// How much is to be told yet by the thread.
    left: Arc<AtomicUsize>,
}

impl Teller {
    pub fn new(device: &File) -> io::Result<Teller> {
        let (later, told) = channel();
        let (left, of_thread, to) = (Arc::new(AtomicUsize::new(0)), device.try_clone()?, device.try_clone()?);
        let count = Arc::clone(&left);
        thread::Builder::new().spawn(move || tell_on(to, &told, &count))?;
        Ok(Teller { device: of_thread, later, left })
    }

    /// Whether there is something that the kernel hasn't taken yet.
    pub fn is_busy(&self) -> bool {
        self.left.load(Ordering::Acquire) > 0
    }

    pub fn tell(&mut self, told: Told) -> io::Result<()> {
        if told.forgets.is_some() {
            self.left.fetch_add(1, Ordering::AcqRel);
            // The thread lives as long as this.
            return self.later.send(told).map_err(|_| io::ErrorKind::BrokenPipe.into());
        }
        match told.reply {
            Some((unique, answer)) => put_reply(&mut self.device, unique, &answer),
            None => Ok(()),
        }
    }
}

fn tell_on(mut device: File, told: &Receiver<Told>, left: &AtomicUsize) {
    for told in told {
        if let Some(id) = told.forgets {
            // It may not have the node any more.
            let _not_known = device.write(&forget_node(id).0);
        }
        if let Some((unique, answer)) = told.reply {
            if let Err(fault) = put_reply(&mut device, unique, &answer) {
                eprintln!("kfs-mount: a reply isn't taken: {fault}");
            }
        }
        left.fetch_sub(1, Ordering::AcqRel);
    }
}
