//! The lines that kfsd tells on standard error. A thread of their own writes them, so nobody waits for whoever reads them, and
//! what can't be written is counted and dropped.

use crate::pace::Pace;
use std::collections::HashMap;
use std::fs::File;
use std::io::{self, Write};
use std::os::unix::io::AsFd;
use std::sync::atomic::{AtomicU64, AtomicUsize, Ordering};
use std::sync::mpsc::{sync_channel, Receiver, SyncSender};
use std::sync::{Arc, Mutex, PoisonError};
use std::thread::Builder;
use std::time::{Duration, Instant};
use tokio::io::{AsyncBufReadExt, AsyncReadExt, BufReader};
use tokio::process::ChildStderr;
use tokio::time::sleep;
use tracing::callsite::Identifier;
use tracing::{error, warn, Metadata};
use tracing_subscriber::fmt::MakeWriter;

/// How many lines may wait, and how many bytes they may have together.
const WAITING_LINES: usize = 4_096;
const WAITING_BYTES: usize = 1 << 20;

/// How many lines of one place in the code are told a second, and how many at once. What a user brings about on and on, as by
/// connections, fills no disk then.
const A_SECOND: u32 = 20;
const AT_ONCE: u32 = 1_000;

/// The most bytes of a line of another process.
const LONGEST: u64 = 1_024;

/// How long the end waits for lines that aren't written yet, and how often it looks.
const LAST_MOMENT: Duration = Duration::from_secs(1);
const LOOK: Duration = Duration::from_millis(2);

/// There is one standard error, so one count of what it was never told.
static DROPPED: AtomicU64 = AtomicU64::new(0);

/// How many lines were dropped since the start.
pub fn dropped() -> u64 {
    DROPPED.load(Ordering::Relaxed)
}

/// How many processes of `kfs_serve` may say something still.
static TELLING: AtomicUsize = AtomicUsize::new(0);

fn drop_one() {
    DROPPED.fetch_add(1, Ordering::Relaxed);
}

/// Where lines are handed in.
#[derive(Clone, Debug)]
pub struct Log {
    to: SyncSender<Vec<u8>>,
    /// The bytes of lines that aren't written yet.
    waiting: Arc<AtomicUsize>,
    /// How often each place in the code may tell something.
    paces: Arc<Mutex<HashMap<Identifier, Pace>>>,
}

/// One line that is about to be handed in; none where its place in the code tells too much.
pub struct Line(Option<Log>);

impl Log {
    /// Begins to write to standard error.
    pub fn begin() -> io::Result<Log> {
        // Another handle of the same file: whoever writes through Rust's own one isn't held up by this thread.
        Log::write_to(File::from(io::stderr().as_fd().try_clone_to_owned()?))
    }

    fn write_to(file: impl Write + Send + 'static) -> io::Result<Log> {
        let (to, from) = sync_channel(WAITING_LINES);
        let waiting = Arc::new(AtomicUsize::new(0));
        let left = Arc::clone(&waiting);
        Builder::new().name("log".to_string()).spawn(move || write_on(from, file, &left))?;
        Ok(Log { to, waiting, paces: Arc::default() })
    }

    /// Has what a thread says when it panics told like all else.
    pub fn tell_panics() {
        std::panic::set_hook(Box::new(|info| error!("{info}")));
    }

    /// Hands a line in. It is dropped where too many wait.
    fn put(&self, line: &[u8]) {
        let before = self.waiting.fetch_add(line.len(), Ordering::AcqRel);
        if before + line.len() > WAITING_BYTES || self.to.try_send(line.to_vec()).is_err() {
            self.waiting.fetch_sub(line.len(), Ordering::AcqRel);
            drop_one();
        }
    }

    /// Waits for a moment until all is told and written.
    pub async fn end(&self) {
        let is_over = || TELLING.load(Ordering::Acquire) == 0 && self.waiting.load(Ordering::Acquire) == 0;
        let end = Instant::now() + LAST_MOMENT;
        while !is_over() && Instant::now() < end {
            sleep(LOOK).await;
        }
    }
}

/// Writes lines until nobody has any more.
fn write_on(from: Receiver<Vec<u8>>, mut file: impl Write, left: &AtomicUsize) {
    for line in from {
        // A full disk, or a pipe that nobody reads any more.
        if file.write_all(&line).is_err() {
            drop_one();
        }
        left.fetch_sub(line.len(), Ordering::AcqRel);
    }
}

impl<'a> MakeWriter<'a> for Log {
    type Writer = Line;

    fn make_writer(&'a self) -> Line {
        Line(Some(self.clone()))
    }

    fn make_writer_for(&'a self, of: &Metadata<'_>) -> Line {
        let mut paces = self.paces.lock().unwrap_or_else(PoisonError::into_inner);
        let pace = paces.entry(of.callsite()).or_insert_with(|| Pace::new(A_SECOND, AT_ONCE));
        Line(pace.may().then(|| self.clone()))
    }
}

impl Write for Line {
    fn write(&mut self, line: &[u8]) -> io::Result<usize> {
        match &self.0 {
            Some(log) => log.put(line),
            None => drop_one(),
        }
        Ok(line.len())
    }

    fn flush(&mut self) -> io::Result<()> {
        Ok(())
    }
}

/// Tells what `kfs_serve` says on its standard error, until that ends. On kfsd's own it would wait for the reader.
pub fn tell_of(said: Option<ChildStderr>) {
    if let Some(said) = said {
        TELLING.fetch_add(1, Ordering::AcqRel);
        tokio::spawn(async move {
            tell_on(said).await;
            TELLING.fetch_sub(1, Ordering::AcqRel);
        });
    }
}

async fn tell_on(said: ChildStderr) {
    let mut said = BufReader::new(said);
    let mut line = Vec::new();
    while matches!((&mut said).take(LONGEST).read_until(b'\n', &mut line).await, Ok(1..)) {
        warn!("kfs_serve says: {}", String::from_utf8_lossy(&line).trim_end());
        line.clear();
    }
}

#[cfg(test)]
mod tests {
    use super::*;
    use std::sync::mpsc::{channel, Sender};
    use tracing::info;
    use tracing::subscriber::with_default;

    /// A file that nobody reads until it is told, and that hands on what it has.
    struct Slow(Receiver<()>, Sender<Vec<u8>>);

    impl Write for Slow {
        fn write(&mut self, line: &[u8]) -> io::Result<usize> {
            self.0.recv().map_err(|_| io::ErrorKind::BrokenPipe)?;
            self.1.send(line.to_vec()).map_err(|_| io::ErrorKind::BrokenPipe)?;
            Ok(line.len())
        }

        fn flush(&mut self) -> io::Result<()> {
            Ok(())
        }
    }

    #[tokio::test]
    async fn nobody_waits_for_a_reader() {
        let (read, reads) = channel();
        let (put, written) = channel();
        let log = Log::write_to(Slow(reads, put)).unwrap();
        let before = dropped();
        let long = vec![b'x'; WAITING_BYTES / 4];
        (0..6).for_each(|_| log.put(&long));
        // other tests drop some, too
        assert!(dropped() - before >= 2);
        (0..4).for_each(|_| read.send(()).unwrap());
        log.end().await;
        assert_eq!(written.try_iter().count(), 4);
        // what the file doesn't take is dropped, too
        log.put(b"a");
        drop(read);
        log.end().await;
        assert!(dropped() - before >= 3);
        assert_eq!(log.waiting.load(Ordering::Acquire), 0);
    }

    #[tokio::test]
    async fn one_place_tells_so_much_at_once() {
        let (read, reads) = channel();
        let (put, written) = channel();
        let log = Log::write_to(Slow(reads, put)).unwrap();
        (0..2 * AT_ONCE).for_each(|_| read.send(()).unwrap());
        let subscriber = tracing_subscriber::fmt().with_writer(log.clone()).without_time().with_target(false).finish();
        with_default(subscriber, || {
            (0..AT_ONCE + 100).for_each(|at| info!("{at}"));
            info!("another");
        });
        log.end().await;
        let told: Vec<_> = written.try_iter().collect();
        assert!((AT_ONCE as usize + 1..AT_ONCE as usize + 50).contains(&told.len()), "{}", told.len());
        assert_eq!(told.last().unwrap(), b" INFO another\n");
    }
}
