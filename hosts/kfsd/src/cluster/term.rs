//! Until when nobody else leads.

use std::time::Instant;
use tokio::sync::watch;

/// Says whether this kfsd may answer by what its desk shows. One that leads may, up to an instant that its last sign in etcd gives it.
#[derive(Debug)]
pub struct Term(watch::Sender<Option<Instant>>);

impl Term {
    /// The desk is on this machine alone.
    pub fn for_good() -> Term {
        Term(watch::channel(None).0)
    }

    /// Others may lead, and this one doesn't yet.
    pub fn not_yet() -> Term {
        Term(watch::channel(Some(Instant::now())).0)
    }

    /// Whether others may lead.
    pub fn has_end(&self) -> bool {
        self.0.borrow().is_some()
    }

    /// Nobody else leads before this instant.
    pub fn lasts_until(&self, end: Instant) {
        self.0.send_replace(Some(end));
    }

    /// Returns while nobody else leads. What was read of the desk before that was so then.
    pub async fn holds(&self) {
        let mut changes = self.0.subscribe();
        loop {
            let end = *changes.borrow_and_update();
            if end.map_or(true, |end| Instant::now() < end) {
                return;
            }
            if changes.changed().await.is_err() {
                std::future::pending::<()>().await;
            }
        }
    }
}

#[cfg(test)]
mod tests {
    use super::*;
    use std::time::Duration;
    use tokio::time::timeout;

    async fn holds(term: &Term) -> bool {
        timeout(Duration::from_millis(50), term.holds()).await.is_ok()
    }

    #[tokio::test]
    async fn it_holds_until_its_end() {
        assert!(holds(&Term::for_good()).await);
        let term = Term::not_yet();
        assert!(!holds(&term).await);
        term.lasts_until(Instant::now() + Duration::from_secs(60));
        assert!(holds(&term).await);
        term.lasts_until(Instant::now());
        assert!(!holds(&term).await);
    }
}
