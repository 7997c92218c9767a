//! So much that may be taken at once: who comes first gets it first. How much it is may be changed while some of it is taken.

use std::collections::VecDeque;
use std::sync::{Arc, Mutex, MutexGuard, PoisonError};
use tokio::sync::oneshot;

/// What is given back once this is gone.
#[derive(Debug)]
pub struct Taken {
    of: Arc<Allowance>,
    count: u64,
}

impl Drop for Taken {
    fn drop(&mut self) {
        let is_waited_for = {
            let mut state = self.of.state();
            state.taken -= self.count;
            !state.waiting.is_empty()
        };
        if is_waited_for {
            self.of.hand_out();
        }
    }
}

/// One that waits for so much.
#[derive(Debug)]
struct Waiting {
    count: u64,
    to: oneshot::Sender<Taken>,
}

#[derive(Debug)]
struct State {
    most: u64,
    taken: u64,
    waiting: VecDeque<Waiting>,
}

impl State {
    /// Whether so much may be taken now. Where nothing is taken anything may: the allowance may have become smaller than what
    /// was promised before.
    fn has(&self, count: u64) -> bool {
        self.taken == 0 || self.taken + count <= self.most
    }

    /// The next one that waits and may have what it wants, which is taken from now on.
    fn next(&mut self) -> Option<Waiting> {
        while matches!(self.waiting.front(), Some(first) if first.to.is_closed()) {
            self.waiting.pop_front();
        }
        let count = self.waiting.front()?.count;
        if !self.has(count) {
            return None;
        }
        self.taken += count;
        self.waiting.pop_front()
    }
}

/// So much that may be taken.
#[derive(Debug)]
pub struct Allowance(Mutex<State>);

/// Where the one who waits is gone, those behind it may have what they want.
struct Wait<'a> {
    of: &'a Arc<Allowance>,
    comes: oneshot::Receiver<Taken>,
}

impl Drop for Wait<'_> {
    fn drop(&mut self) {
        self.comes.close();
        self.of.hand_out();
    }
}

impl Allowance {
    /// So much at once.
    pub fn new(most: u32) -> Arc<Allowance> {
        Arc::new(Allowance(Mutex::new(State { most: most.into(), taken: 0, waiting: VecDeque::new() })))
    }

    fn state(&self) -> MutexGuard<'_, State> {
        // Each change is whole once it is begun.
        self.0.lock().unwrap_or_else(PoisonError::into_inner)
    }

    /// How much is left; 0, too, where more is taken than may be by now.
    pub fn left(&self) -> u64 {
        let state = self.state();
        state.most.saturating_sub(state.taken)
    }

    /// So much at once from now on. What is taken stays taken.
    pub fn set_most(self: &Arc<Allowance>, most: u32) {
        self.state().most = most.into();
        self.hand_out();
    }

    /// Takes so much, when all who came before have theirs and there is room, or nothing else is taken.
    pub async fn take(self: &Arc<Allowance>, count: u32) -> Taken {
        let count = u64::from(count);
        let mut wait = {
            let mut state = self.state();
            if state.waiting.is_empty() && state.has(count) {
                state.taken += count;
                return Taken { of: Arc::clone(self), count };
            }
            let (to, comes) = oneshot::channel();
            state.waiting.push_back(Waiting { count, to });
            Wait { of: self, comes }
        };
        match (&mut wait.comes).await {
            Ok(taken) => taken,
            // The one who gives is there for as long as this one.
            Err(_) => std::future::pending().await,
        }
    }

    /// Gives what is there to those who wait.
    fn hand_out(self: &Arc<Allowance>) {
        loop {
            let next = self.state().next();
            match next {
                // Where the one who waited is gone meanwhile, this comes back here at once.
                Some(Waiting { count, to }) => drop(to.send(Taken { of: Arc::clone(self), count })),
                None => return,
            }
        }
    }
}

#[cfg(test)]
mod tests {
    use super::*;
    use std::future::Future;
    use std::time::Duration;
    use tokio::time::timeout;

    /// What a future gives within a moment.
    async fn soon<T>(future: impl Future<Output = T>) -> Option<T> {
        timeout(Duration::from_millis(30), future).await.ok()
    }

    #[tokio::test]
    async fn who_comes_first_is_first() {
        let all = Allowance::new(10);
        let first = all.take(8).await;
        let (other, third) = (Arc::clone(&all), Arc::clone(&all));
        let large = tokio::spawn(async move { other.take(5).await });
        tokio::task::yield_now().await;
        let small = tokio::spawn(async move { third.take(1).await });
        tokio::task::yield_now().await;
        assert_eq!(all.left(), 2);
        assert!(!small.is_finished(), "it went before the one that came first");
        drop(first);
        let (large, small) = (large.await.unwrap(), small.await.unwrap());
        assert_eq!(all.left(), 4);
        drop((large, small));
        assert_eq!(all.left(), 10);
    }

    #[tokio::test]
    async fn who_is_gone_is_in_nobody_s_way() {
        let all = Allowance::new(10);
        let first = all.take(8).await;
        let other = Arc::clone(&all);
        let large = tokio::spawn(async move { other.take(5).await });
        tokio::task::yield_now().await;
        let third = Arc::clone(&all);
        let small = tokio::spawn(async move { third.take(1).await });
        tokio::task::yield_now().await;
        large.abort();
        assert_eq!(soon(small).await.unwrap().unwrap().count, 1);
        drop(first);
        assert_eq!(all.left(), 10);
    }

    #[tokio::test]
    async fn more_is_of_use_at_once() {
        let all = Allowance::new(1);
        let first = all.take(1).await;
        let other = Arc::clone(&all);
        let second = tokio::spawn(async move { other.take(3).await });
        tokio::task::yield_now().await;
        all.set_most(4);
        let second = soon(second).await.unwrap().unwrap();
        assert_eq!(all.left(), 0);
        drop((first, second));
        assert_eq!(all.left(), 4);
    }

    #[tokio::test]
    async fn less_stops_nobody() {
        let all = Allowance::new(10);
        let (first, second) = (all.take(5).await, all.take(5).await);
        all.set_most(3);
        assert_eq!(all.left(), 0);
        assert!(soon(all.take(1)).await.is_none());
        drop(first);
        assert!(soon(all.take(1)).await.is_none(), "more is taken than may be");
        drop(second);
        // what is longer than all goes alone
        let long = soon(all.take(7)).await.unwrap();
        assert!(soon(all.take(1)).await.is_none());
        drop(long);
        assert_eq!(all.left(), 3);
    }

    #[tokio::test]
    async fn what_nobody_fetches_comes_back() {
        let all = Allowance::new(1);
        let first = all.take(1).await;
        let mut waiting = Box::pin(all.take(1));
        assert!(soon(&mut waiting).await.is_none());
        // it is handed over, and nobody looks
        drop(first);
        drop(waiting);
        assert_eq!(all.left(), 1);
    }
}
