//! The two sockets, and the connections that are taken there.

use crate::connection::{self, Shared};
use crate::control;
use crate::daemon::DaemonFault;
use crate::frames::Refusal;
use crate::pace::Pace;
use crate::peer::{is_closed, uid_of};
use crate::users::{Account, Place};
use nix::errno::Errno;
use nix::sys::socket::{connect, listen, socket, AddressFamily, SockFlag, SockType, UnixAddr};
use nix::unistd::{access, close, AccessFlags};
use std::convert::Infallible;
use std::fs::{self, Permissions};
use std::future::Future;
use std::io::{self, Write};
use std::os::unix::fs::{FileTypeExt, MetadataExt, PermissionsExt};
use std::os::unix::io::AsRawFd;
use std::path::{Path, PathBuf};
use std::sync::{Arc, Mutex, MutexGuard, PoisonError};
use std::time::{Duration, Instant};
use tokio::net::{UnixListener, UnixStream};
use tokio::task::{yield_now, JoinSet};
use tokio::time::{sleep, sleep_until, timeout_at};
use tracing::warn;

/// How long a listener rests where the system has no descriptor left.
const REST: Duration = Duration::from_millis(100);

/// How often kfsd looks whether a socket is there still.
const LOOK: Duration = Duration::from_secs(1);

/// How many connections kfsd refuses a second, and how many at once. Behind more of them it takes none for a while, and who
/// connects again and again waits in the kernel's line.
const REFUSALS: u32 = 50_000;
const REFUSED_AT_ONCE: u32 = 500;

/// How many connections wait in the kernel's line, so that who connects on and on isn't far before another one.
const LINE: usize = 16;

/// How long connections are taken one behind another before others go on.
const SLICE: Duration = Duration::from_micros(50);

/// A socket of a path, which goes with it. Where its path is removed it is made anew.
pub struct Socket {
    path: PathBuf,
    mode: u32,
    bound: Mutex<Bound>,
}

/// What stands at the path of a socket.
struct Bound {
    listener: Arc<UnixListener>,
    /// The device and the number of its file. The listener keeps the number from being another one's.
    file: (u64, u64),
    /// When it is looked at again.
    due: Instant,
    /// Why it couldn't be made anew.
    fault: Option<String>,
}

/// Looks whether a path can be bound: nobody else may listen there.
fn look_at(path: &Path) -> Result<(), DaemonFault> {
    let failed = |fault| DaemonFault::Io(path.to_path_buf(), fault);
    let folder = path.parent().unwrap_or_else(|| Path::new("/"));
    access(folder, AccessFlags::W_OK | AccessFlags::X_OK).map_err(|errno| failed(errno.into()))?;
    match fs::symlink_metadata(path) {
        Ok(found) if !found.file_type().is_socket() => return Err(DaemonFault::NotASocket(path.to_path_buf())),
        Err(fault) if fault.kind() != io::ErrorKind::NotFound => return Err(failed(fault)),
        _ => {}
    }
    match is_heard(path) {
        Ok(true) => Err(DaemonFault::InUse(path.to_path_buf())),
        Ok(false) => Ok(()),
        Err(errno) => Err(failed(errno.into())),
    }
}

/// Whether somebody listens at a path. Who has too many waiting isn't waited for.
fn is_heard(path: &Path) -> Result<bool, Errno> {
    let address = UnixAddr::new(path)?;
    let asking = socket(AddressFamily::Unix, SockType::Stream, SockFlag::SOCK_NONBLOCK | SockFlag::SOCK_CLOEXEC, None)?;
    let asked = connect(asking, &address);
    close(asking)?;
    match asked {
        Err(Errno::ECONNREFUSED | Errno::ENOENT) => Ok(false),
        Ok(()) | Err(Errno::EAGAIN | Errno::EPROTOTYPE) => Ok(true),
        Err(errno) => Err(errno),
    }
}

/// The device and the number of the file at a path.
fn file_at(path: &Path) -> io::Result<(u64, u64)> {
    fs::symlink_metadata(path).map(|found| (found.dev(), found.ino()))
}

impl Bound {
    /// Binds a path. A socket where nobody listens was left there.
    fn bind(path: &Path, mode: u32) -> Result<Bound, DaemonFault> {
        let failed = |fault| DaemonFault::Io(path.to_path_buf(), fault);
        look_at(path)?;
        match fs::remove_file(path) {
            Err(fault) if fault.kind() != io::ErrorKind::NotFound => return Err(failed(fault)),
            _ => {}
        }
        let listener = Arc::new(UnixListener::bind(path).map_err(failed)?);
        listen(listener.as_raw_fd(), LINE).map_err(|errno| failed(errno.into()))?;
        fs::set_permissions(path, Permissions::from_mode(mode)).map_err(failed)?;
        Ok(Bound { listener, file: file_at(path).map_err(failed)?, due: Instant::now() + LOOK, fault: None })
    }

    /// Looks whether the socket is there still, where that is due, and makes it anew where it isn't.
    fn look(&mut self, path: &Path, mode: u32) {
        if Instant::now() < self.due {
            return;
        }
        self.due = Instant::now() + LOOK;
        if file_at(path).ok() == Some(self.file) {
            self.fault = None;
            return;
        }
        match Bound::bind(path, mode) {
            Ok(bound) => {
                warn!("{} was removed, and is made anew", path.display());
                *self = bound;
            }
            Err(fault) => {
                let fault = Some(fault.to_string());
                if self.fault != fault {
                    warn!("{} was removed, and can't be made anew: {}", path.display(), fault.as_deref().unwrap_or(""));
                }
                self.fault = fault;
            }
        }
    }
}

impl Socket {
    fn bind(path: &Path, mode: u32) -> Result<Socket, DaemonFault> {
        Ok(Socket { path: path.to_path_buf(), mode, bound: Mutex::new(Bound::bind(path, mode)?) })
    }

    fn bound(&self) -> MutexGuard<'_, Bound> {
        self.bound.lock().unwrap_or_else(PoisonError::into_inner)
    }

    /// The next connection.
    pub async fn accept(&self) -> io::Result<UnixStream> {
        loop {
            let (listener, due) = {
                let mut bound = self.bound();
                bound.look(&self.path, self.mode);
                (Arc::clone(&bound.listener), bound.due)
            };
            if let Ok(taken) = timeout_at(due.into(), listener.accept()).await {
                return Ok(taken?.0);
            }
        }
    }
}

impl Drop for Socket {
    fn drop(&mut self) {
        // Another one may have it by now. Where it stays, the next start removes it.
        if file_at(&self.path).ok() == Some(self.bound().file) {
            let _ = fs::remove_file(&self.path);
        }
    }
}

/// Where clients connect, and where `kfsctl` does.
pub struct Sockets {
    pub clients: Socket,
    pub control: Socket,
}

impl Sockets {
    /// Looks whether both can be bound.
    pub fn look_at(clients: &Path, control: &Path) -> Result<(), DaemonFault> {
        look_at(clients)?;
        look_at(control)
    }

    /// Binds both.
    pub fn bind(clients: &Path, control: &Path) -> Result<Sockets, DaemonFault> {
        Ok(Sockets {
            // Who may do what is looked up in the table of users, so each may connect.
            clients: Socket::bind(clients, 0o666)?,
            control: Socket::bind(control, 0o600)?,
        })
    }
}

/// Takes connections until kfsd stops, and returns when all have ended.
pub async fn accept(sockets: Sockets, shared: Arc<Shared>) {
    let mut stopping = shared.stopping.clone();
    let mut tasks = JoinSet::new();
    let serve = |stream: UnixStream, place| {
        let shared = Arc::clone(&shared);
        async move {
            // It is open for as long as its connection is served.
            let socket = stream.as_raw_fd();
            let (from, to) = stream.into_split();
            connection::serve(from, to, || is_closed(socket), place, shared).await;
        }
    };
    tokio::select! {
        never = take_all(&sockets, &shared, &mut tasks, serve) => match never {},
        _ = stopping.changed() => {}
    }
    drop(sockets);
    while tasks.join_next().await.is_some() {}
}

/// Takes connections until it is dropped, and has each one served whose user is listed and may have one more. Those of `kfsctl`
/// are answered beside them.
pub async fn take_all<Served>(
    sockets: &Sockets,
    shared: &Arc<Shared>,
    tasks: &mut JoinSet<()>,
    serve: impl Fn(UnixStream, Place) -> Served,
) -> Infallible
where
    Served: Future<Output = ()> + Send + 'static,
{
    let (refusals, mut next, mut since) = (Pace::new(REFUSALS, REFUSED_AT_ONCE), Instant::now(), Instant::now());
    loop {
        tokio::select! {
            taken = accept_at(&sockets.clients, next) => match taken {
                Ok(stream) => {
                    match place_for(uid_of(&stream), shared) {
                        Ok(place) => drop(tasks.spawn(in_turn(Arc::clone(&place.account), serve(stream, place)))),
                        Err(refusal) => {
                            turn_away(stream, refusal);
                            next = Instant::now() + refusals.wait();
                        }
                    }
                    // Where one comes after another, the tasks of those that were taken wait for this one else.
                    if since.elapsed() > SLICE {
                        yield_now().await;
                        since = Instant::now();
                    }
                }
                Err(fault) => rest(fault).await,
            },
            taken = sockets.control.accept() => match taken {
                Ok(stream) => drop(tokio::spawn(control::serve(stream, Arc::clone(shared)))),
                Err(fault) => rest(fault).await,
            },
            Some(_) = tasks.join_next() => {}
        }
    }
}

/// The next connection, from this moment on.
async fn accept_at(socket: &Socket, moment: Instant) -> io::Result<UnixStream> {
    if moment > Instant::now() {
        sleep_until(moment.into()).await;
    }
    socket.accept().await
}

/// Rests where no connection can be taken.
async fn rest(fault: io::Error) {
    warn!("no connection is taken: {fault}");
    sleep(REST).await;
}

/// The place of a connection whose user is listed and may have one more. It is counted, and so is one that is turned away.
pub fn place_for(uid: io::Result<u32>, shared: &Shared) -> Result<Place, Refusal> {
    let place = shared.place_of(uid);
    let count = if place.is_ok() { &shared.figures.connections } else { &shared.figures.turned_away };
    count.add(1);
    place
}

/// Returns when it is the turn of one more connection of a user.
pub async fn turn_of(account: &Account) {
    account.arrivals.pause().await;
}

/// Serves a connection of a user, once it is its turn.
async fn in_turn(account: Arc<Account>, served: impl Future<Output = ()>) {
    turn_of(&account).await;
    drop(account);
    served.await;
}

/// Tells why, and closes. A new connection has room for it.
fn turn_away(stream: UnixStream, refusal: Refusal) {
    if let Ok(mut stream) = stream.into_std() {
        // It is told as far as it hears.
        let _ = stream.write_all(&refusal.reply(0));
    }
}
