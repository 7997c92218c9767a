//! From start to stop.

use crate::clients::Clients;
use crate::cluster::beginning;
use crate::cluster::door::AT_ONCE;
use crate::cluster::member::Member;
use crate::cluster::term::Term;
use crate::config::{Config, ConfigFault};
use crate::connection::Shared;
use crate::desk::{has_files, Desk, DeskFault};
use crate::docket::Docket;
use crate::duties;
use crate::figures::Figures;
use crate::folder::{look_at_owner, Folder};
use crate::following::Following;
use crate::frames::CHECKPOINT;
use crate::journal;
use crate::metrics;
use crate::moves;
use crate::queue::Queue;
use crate::rules::{Changes, Rules};
use crate::sockets::{accept, Sockets};
use crate::store::Store;
use crate::users::{lines_of, Table};
use nix::sys::resource::{getrlimit, setrlimit, Resource};
use std::io;
use std::path::{Path, PathBuf};
use std::sync::{Arc, Mutex, PoisonError};
use std::time::{Duration, Instant};
use thiserror::Error;
use tokio::signal::unix::{signal, SignalKind};
use tokio::sync::watch;
use tokio::task::JoinHandle;
use tokio::time::{sleep, timeout};
use tracing::{info, warn};

/// How long to wait before the lock of a folder is tried again.
const AGAIN: Duration = Duration::from_millis(100);

/// How long the last tick may take.
const LAST_TICK: Duration = Duration::from_secs(1);

/// Descriptors beside those of connections.
const OTHER_FILES: u64 = 64;

/// Why kfsd ends before it is told to, or can't stop in time.
#[derive(Debug, Error)]
pub enum DaemonFault {
    #[error(transparent)]
    Config(#[from] ConfigFault),
    #[error("{0}: {1}")]
    Io(PathBuf, io::Error),
    #[error("{0}: another kfsd has it, or the kfs_serve of one that was killed")]
    Locked(PathBuf),
    #[error("{0} isn't a socket")]
    NotASocket(PathBuf),
    #[error("{0}: another program listens there, as another kfsd would")]
    InUse(PathBuf),
    #[error(
        "at most {0} files may be open, and connections that are allowed need {1}: raise the one or lower connections_a_user"
    )]
    Files(u64, u64),
    #[error("signals: {0}")]
    Signals(io::Error),
    #[error(transparent)]
    Desk(#[from] DeskFault),
    #[error("kfs_serve hasn't ended in time, and was killed; what was answered is kept")]
    Killed,
    #[error("kfsd itself: {0}")]
    Task(#[from] tokio::task::JoinError),
}

impl DaemonFault {
    /// The exit status: 3 where the desk's files have failed, 4 where `kfs_serve` doesn't run or doesn't end, and else 1.
    pub fn status(&self) -> u8 {
        match self {
            DaemonFault::Desk(DeskFault::Files | DeskFault::HalfMade(..) | DeskFault::Gone(..) | DeskFault::Damaged(_)) => 3,
            DaemonFault::Desk(DeskFault::Folder(_) | DeskFault::Store(_)) => 3,
            DaemonFault::Desk(DeskFault::Fruitless(_) | DeskFault::Keeping(_)) | DaemonFault::Killed | DaemonFault::Task(_) => {
                4
            }
            // A program that isn't there is the configuration's fault, and one that can't be run for now isn't.
            DaemonFault::Desk(DeskFault::Process(_, fault)) if !is_wrong_path(fault) => 4,
            DaemonFault::Desk(DeskFault::Cluster(fault)) => fault.status(),
            _ => 1,
        }
    }
}

fn is_wrong_path(fault: &io::Error) -> bool {
    matches!(fault.kind(), io::ErrorKind::NotFound | io::ErrorKind::PermissionDenied)
}

/// What runs beside the connections.
struct Daemon {
    config: Config,
    path: PathBuf,
    /// The clients that the desk has.
    clients: Arc<Clients>,
    shared: Arc<Shared>,
    rules: watch::Sender<Arc<Rules>>,
    stopping: watch::Sender<bool>,
    desk: JoinHandle<Result<(), DeskFault>>,
    /// No client can have had a lock before.
    is_new: bool,
}

/// Runs until SIGTERM or SIGINT, and stops then.
pub async fn run(path: &Path) -> Result<(), DaemonFault> {
    let config = read_config(path)?;
    let folder = lock(&config).await?;
    // They are bound once the desk is open. What is wrong with them is told before it is made.
    Sockets::look_at(&config.socket, &config.control)?;
    let mut signals = Signals::new().map_err(DaemonFault::Signals)?;
    let place = tokio::select! {
        place = Place::of(&config, folder) => place?,
        _ = signals.stop() => return Ok(()),
    };
    let (mut daemon, mut ready) = Daemon::start(config, path, place)?;
    daemon.tell_figures().await?;
    if !daemon.is_opened(&mut ready, &mut signals).await {
        return daemon.end_desk().await;
    }
    let sockets = Sockets::bind(&daemon.config.socket, &daemon.config.control)?;
    daemon.shared.following.locks().begin(daemon.is_new, Instant::now());
    info!("clients may connect to {}", daemon.config.socket.display());
    daemon.serve(sockets, signals).await
}

/// Begins the volume of a configuration with the desk in another folder, or in that of the configuration, and returns.
pub async fn begin_with(path: &Path, from: &Path) -> Result<(), DaemonFault> {
    let config = read_config(path)?;
    let settings = config.cluster.as_ref().ok_or(ConfigFault::Limit("a volume has a table [cluster]"))?;
    let folder = lock(&config).await?;
    Ok(beginning::begin(settings, &config, &folder, from).await.map_err(DeskFault::Cluster)?)
}

/// Reads a configuration, and looks whether as many files may be open as it wants.
fn read_config(path: &Path) -> Result<Config, DaemonFault> {
    let config = Config::read(path)?;
    raise_files(&config)?;
    Ok(config)
}

/// Where the desk is: on this machine alone, or on several.
enum Place {
    /// With what kfsd itself keeps.
    Alone(Folder, Store),
    Member(Box<Member>),
}

/// The desk, before it runs.
enum Begun {
    Alone(Desk),
    Member(Box<Member>),
}

impl Place {
    /// The place that a configuration says. A member waits here until etcd answers.
    async fn of(config: &Config, folder: Folder) -> Result<Place, DaemonFault> {
        let settings = match &config.cluster {
            None => {
                let store = Store::open(folder.path()).map_err(DeskFault::Store)?;
                return Ok(Place::Alone(folder, store));
            }
            Some(settings) => settings,
        };
        let lines = lines_of(&config.users);
        let member = Member::join(settings, config, folder, &lines).await.map_err(DeskFault::Cluster)?;
        Ok(Place::Member(Box::new(member)))
    }

    /// The clients of the desk.
    fn clients(&self, config: &Config) -> Result<Clients, DaemonFault> {
        match self {
            Place::Alone(folder, store) => Ok(Clients::of_desk(clients_in(folder, store, config)?)),
            Place::Member(member) => Ok(Clients::of_volume(member.clients().to_string())),
        }
    }

    /// Whether no desk was there before. Of a volume another member may have been the first.
    fn is_new(&self) -> Result<bool, DaemonFault> {
        match self {
            Place::Alone(folder, store) => Ok(!has_files(folder, store.had_desk())?),
            Place::Member(_) => Ok(false),
        }
    }

    fn term(&self) -> Term {
        match self {
            Place::Alone(..) => Term::for_good(),
            Place::Member(_) => Term::not_yet(),
        }
    }

    fn begin(self, config: &Config, clients: &Arc<Clients>) -> Begun {
        match self {
            Place::Alone(folder, store) => Begun::Alone(Desk {
                program: config.program.clone(),
                store: Arc::new(Mutex::new(store)),
                folder,
                rows: config.rows,
                docket: Docket::new(config.rows),
                tiers: config.tiers,
                clients: Arc::clone(clients),
            }),
            Place::Member(member) => Begun::Member(member),
        }
    }
}

impl Daemon {
    fn start(config: Config, path: &Path, place: Place) -> Result<(Daemon, watch::Receiver<bool>), DaemonFault> {
        let is_new = place.is_new()?;
        let clients = Arc::new(place.clients(&config)?);
        clients.list(&config.users);
        let (rules, now) = watch::channel(Arc::new(rules_of(&config, &clients, &Table::default())));
        let (stopping, stops) = watch::channel(false);
        let (is_ready, ready) = watch::channel(false);
        let shared = Arc::new(Shared {
            queue: Queue::default(),
            figures: Figures::default(),
            following: Following::default(),
            term: place.term(),
            rules: now,
            stopping: stops,
            thread: Arc::default(),
        });
        shared.following.wants().set_time(Duration::from_secs(config.duties.wanted_seconds));
        let desk = place.begin(&config, &clients);
        if let Begun::Alone(desk) = &desk {
            let awaited = desk.store.lock().unwrap_or_else(PoisonError::into_inner).lockers();
            shared.following.locks().wait_for_clients(awaited.map_err(DeskFault::from)?);
            shared.following.note_locks_in(Arc::clone(&desk.store));
        }
        let of_desk = Arc::clone(&shared);
        let desk = tokio::spawn(async move {
            let ended = match desk {
                Begun::Alone(desk) => desk.run(&of_desk, &is_ready).await,
                Begun::Member(member) => member.run(&of_desk, &is_ready).await.map_err(DeskFault::Cluster),
            };
            // Nobody answers any more.
            of_desk.queue.give_up();
            ended
        });
        Ok((Daemon { config, path: path.to_path_buf(), clients, shared, rules, stopping, desk, is_new }, ready))
    }

    /// Waits until the desk is open. False where it has ended, or a signal says to stop.
    async fn is_opened(&mut self, ready: &mut watch::Receiver<bool>, signals: &mut Signals) -> bool {
        loop {
            tokio::select! {
                // Where the desk has ended, nobody changes this any more.
                changed = ready.changed() => return changed.is_ok(),
                asked = signals.next() => match asked {
                    Asked::Stop => return false,
                    Asked::Reload => self.reload(),
                },
            }
        }
    }

    /// Tells figures where the configuration says so.
    async fn tell_figures(&self) -> Result<(), DaemonFault> {
        if let Some(address) = self.config.figures {
            let failed = |fault| DaemonFault::Io(format!("figures on {address}").into(), fault);
            let listener = metrics::listen(address).await.map_err(failed)?;
            tokio::spawn(metrics::serve(listener, Arc::clone(&self.shared)));
        }
        Ok(())
    }

    /// Serves connections until a signal says to stop, or the desk is lost.
    async fn serve(mut self, sockets: Sockets, mut signals: Signals) -> Result<(), DaemonFault> {
        let mut clients = self.clients.changes();
        // What has changed before this.
        self.put_rules();
        let accepting = tokio::spawn(accept(sockets, Arc::clone(&self.shared)));
        let ticking = tokio::spawn(duties::tick_on(Arc::clone(&self.shared)));
        let moving = tokio::spawn(moves::move_on(Arc::clone(&self.shared)));
        let looking = tokio::spawn(duties::look_on(Arc::clone(&self.shared)));
        let lost = loop {
            tokio::select! {
                asked = signals.next() => match asked {
                    Asked::Reload => self.reload(),
                    Asked::Stop => break None,
                },
                Ok(()) = clients.changed() => self.put_rules(),
                ended = &mut self.desk => break Some(ended),
            }
        };
        info!("stopping");
        self.stopping.send_replace(true);
        if timeout(self.config.limits.stop_time(), accepting).await.is_err() {
            warn!("some connections haven't ended in time");
        }
        // One that is at the desk is made, and no other one.
        moving.abort();
        looking.abort();
        if timeout(LAST_TICK, ticking).await.is_err() {
            warn!("the desk isn't told the last moment in time");
        }
        match lost {
            Some(ended) => Ok(ended??),
            None => self.end_desk().await,
        }
    }

    /// Ends the desk, once what waits is answered.
    async fn end_desk(mut self) -> Result<(), DaemonFault> {
        let is_for_later = self.config.duties.checkpoint_at_stop && self.config.cluster.is_none();
        if is_for_later && self.shared.figures.opened.get() == 1 {
            // Where it isn't made, the next start takes longer.
            drop(self.shared.queue.push_own(vec![CHECKPOINT]));
        }
        self.shared.queue.close();
        match timeout(self.config.limits.stop_time(), &mut self.desk).await {
            Ok(ended) => Ok(ended??),
            Err(_) => {
                // The process is killed where its task is dropped.
                self.desk.abort();
                let _ = self.desk.await;
                Err(DaemonFault::Killed)
            }
        }
    }

    /// Reads the file anew. Where it is wrong all stays as it is.
    fn reload(&mut self) {
        let (config, changes) = match self.read_anew() {
            Ok(found) => found,
            Err(fault) => return warn!("the configuration stays as it is: {fault}"),
        };
        let Config { limits, duties, users, .. } = config;
        self.config = Config { limits, duties, users, ..self.config.clone() };
        self.clients.list(&self.config.users);
        self.put_rules();
        let taken = if changes.taken.is_empty() { "nothing has changed".to_string() } else { changes.taken.join("; ") };
        info!("the configuration is read anew: {taken}");
        if !changes.waiting.is_empty() {
            warn!("for the next start, since the configuration has it otherwise: {}", changes.waiting.join(", "));
        }
    }

    /// What the file says now, and what of it is otherwise.
    fn read_anew(&self) -> Result<(Config, Changes), DaemonFault> {
        let config = read_config(&self.path)?;
        let changes = Changes::between(&self.config, &config)?;
        Ok((config, changes))
    }

    /// Has the configuration and the desk's clients hold from now on, all at once.
    fn put_rules(&self) {
        let rules = rules_of(&self.config, &self.clients, &self.rules.borrow().table);
        self.shared.following.wants().set_time(Duration::from_secs(rules.duties.wanted_seconds));
        self.rules.send_replace(Arc::new(rules));
    }
}

/// What a configuration says for these clients of the desk.
fn rules_of(config: &Config, clients: &Clients, before: &Table) -> Rules {
    let table = Table::new(&config.users, &clients.lines(), &config.limits, before);
    Rules { limits: config.limits, duties: config.duties, table }
}

/// The lines of the clients of a desk, as its files have them. A first start puts those of the configuration in place.
fn clients_in(folder: &Folder, store: &Store, config: &Config) -> Result<String, DaemonFault> {
    if has_files(folder, store.had_desk())? {
        return Ok(journal::clients(folder.path()).map_err(DeskFault::Folder)?.unwrap_or_default());
    }
    config.check_first()?;
    let lines = lines_of(&config.users);
    folder.keep_clients(&lines).map_err(|fault| DaemonFault::Io(folder.clients_path(), fault))?;
    Ok(lines)
}

/// Locks the folder. The `kfs_serve` of a daemon that was killed ends soon, since its input has ended.
async fn lock(config: &Config) -> Result<Folder, DaemonFault> {
    look_at_owner(&config.folder).map_err(|fault| DaemonFault::Io(config.folder.clone(), fault))?;
    let waiting = async {
        loop {
            match Folder::lock(&config.folder) {
                Ok(Some(folder)) => return Ok(folder),
                Ok(None) => sleep(AGAIN).await,
                Err(fault) => return Err(DaemonFault::Io(config.folder.clone(), fault)),
            }
        }
    };
    match timeout(config.limits.stop_time(), waiting).await {
        Ok(found) => found,
        Err(_) => Err(DaemonFault::Locked(config.folder.clone())),
    }
}

/// Lets as many files be open as may be, and looks whether all connections that are allowed fit.
fn raise_files(config: &Config) -> Result<(), DaemonFault> {
    let failed = |errno: nix::errno::Errno| DaemonFault::Io("RLIMIT_NOFILE".into(), errno.into());
    let (_, most) = getrlimit(Resource::RLIMIT_NOFILE).map_err(failed)?;
    setrlimit(Resource::RLIMIT_NOFILE, most, most).map_err(failed)?;
    let mut wanted = config.users.len() as u64 * u64::from(config.limits.connections_a_user);
    if config.cluster.is_some() {
        // Each may be handed on by another one, and others come that haven't proved the key.
        wanted = 2 * wanted + AT_ONCE as u64;
    }
    if wanted + OTHER_FILES > most {
        return Err(DaemonFault::Files(most, wanted));
    }
    Ok(())
}

/// What a signal asks for.
enum Asked {
    Stop,
    Reload,
}

struct Signals {
    term: tokio::signal::unix::Signal,
    int: tokio::signal::unix::Signal,
    hup: tokio::signal::unix::Signal,
}

impl Signals {
    fn new() -> io::Result<Signals> {
        Ok(Signals {
            term: signal(SignalKind::terminate())?,
            int: signal(SignalKind::interrupt())?,
            hup: signal(SignalKind::hangup())?,
        })
    }

    /// Returns when one says to stop.
    async fn stop(&mut self) {
        while !matches!(self.next().await, Asked::Stop) {}
    }

    async fn next(&mut self) -> Asked {
        tokio::select! {
            _ = self.term.recv() => Asked::Stop,
            _ = self.int.recv() => Asked::Stop,
            _ = self.hup.recv() => Asked::Reload,
        }
    }
}
