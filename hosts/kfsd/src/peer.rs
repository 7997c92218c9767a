//! Who is at the other end of a connection. This is the one thing that kfsd is believed for.

use nix::poll::{poll, PollFd, PollFlags};
use std::io;
use std::os::unix::io::RawFd;
use tokio::net::UnixStream;

/// The effective user of the process that connected, at the moment when it did, by the kernel (`SO_PEERCRED`).
///
/// A process that is given the connection later speaks for the same user.
pub fn uid_of(stream: &UnixStream) -> io::Result<u32> {
    Ok(stream.peer_cred()?.uid())
}

/// Whether the other end of an open socket is closed, so that nobody hears what is written. One that is only written no more
/// isn't.
pub fn is_closed(socket: RawFd) -> bool {
    let mut found = [PollFd::new(socket, PollFlags::empty())];
    let is_told = poll(&mut found, 0).map_or(false, |count| count > 0);
    is_told && found[0].revents().map_or(false, |it| it.intersects(PollFlags::POLLHUP | PollFlags::POLLERR))
}

/// Whether a user may ask for kfsd's state: the superuser, and who kfsd itself runs as.
pub fn is_administrator(uid: u32) -> bool {
    uid == 0 || uid == nix::unistd::geteuid().as_raw()
}

#[cfg(test)]
mod tests {
    use super::*;
    use std::net::Shutdown;
    use std::os::unix::io::AsRawFd;
    use std::os::unix::net::UnixStream;

    #[test]
    fn a_closed_end_is_told_from_one_that_is_not_written() {
        let (here, there) = UnixStream::pair().unwrap();
        assert!(!is_closed(here.as_raw_fd()));
        there.shutdown(Shutdown::Write).unwrap();
        assert!(!is_closed(here.as_raw_fd()));
        drop(there);
        assert!(is_closed(here.as_raw_fd()));
    }
}
