//! The docket: how many rows it has, and when it is begun anew. Each answered call takes a row, and `kfs_serve` takes no call
//! once it has as many as it may. They go back at a start behind a checkpoint.

use std::sync::atomic::{AtomicU32, Ordering};
use tokio::sync::Notify;

/// Behind a checkpoint that was refused the next one is made when so many parts of all rows came on top.
const PARTS: u32 = 16;

/// The rows of a docket.
#[derive(Debug)]
pub struct Docket {
    /// As many as there may be.
    most: u32,
    /// From how many on it is begun anew, and how many it has.
    due_from: AtomicU32,
    rows: AtomicU32,
    due: Notify,
}

impl Docket {
    pub fn new(most: u32) -> Docket {
        Docket { most, due_from: AtomicU32::new(three_quarters(most)), rows: AtomicU32::new(0), due: Notify::new() }
    }

    /// A call has the row at this position.
    pub fn has(&self, position: u32) {
        self.rows.store(position, Ordering::Relaxed);
        if position >= self.due_from.load(Ordering::Relaxed) {
            // It is due once.
            self.due_from.store(u32::MAX, Ordering::Relaxed);
            self.due.notify_one();
        }
    }

    /// It has no row left.
    pub fn is_full(&self) {
        self.has(self.most);
    }

    /// Returns when it is to be begun anew.
    pub async fn is_due(&self) {
        self.due.notified().await;
    }

    /// It couldn't be begun anew. That is tried again behind some more rows.
    pub fn wait(&self) {
        let rows = self.rows.load(Ordering::Relaxed).saturating_add(self.most / PARTS);
        self.due_from.store(rows.min(self.most), Ordering::Relaxed);
    }

    /// Another process begins, which has those behind the last checkpoint.
    pub fn begin_anew(&self) {
        self.due_from.store(three_quarters(self.most), Ordering::Relaxed);
    }

    /// How many calls may be sent behind the checkpoint, before it is made.
    pub fn room(&self) -> usize {
        (self.most / PARTS) as usize
    }
}

/// From how many rows on a docket that may have so many is begun anew.
pub fn three_quarters(most: u32) -> u32 {
    most - most / 4
}

#[cfg(test)]
mod tests {
    use super::*;
    use std::time::Duration;
    use tokio::time::timeout;

    async fn is_due(docket: &Docket) -> bool {
        timeout(Duration::from_millis(10), docket.is_due()).await.is_ok()
    }

    #[tokio::test]
    async fn it_is_due_once_at_three_quarters() {
        let docket = Docket::new(1600);
        docket.has(1199);
        assert!(!is_due(&docket).await);
        (1200..1300).for_each(|position| docket.has(position));
        assert!(is_due(&docket).await && !is_due(&docket).await);
        docket.wait();
        docket.has(1398);
        assert!(!is_due(&docket).await);
        docket.has(1399);
        assert!(is_due(&docket).await);
        docket.begin_anew();
        docket.is_full();
        assert!(is_due(&docket).await);
    }

    #[test]
    fn a_small_docket_has_some_rows_before() {
        assert_eq!((three_quarters(0), three_quarters(1), three_quarters(4), three_quarters(u32::MAX)), (0, 1, 3, 3 << 30));
    }
}
