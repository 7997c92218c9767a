//! kfsd's one thread, and what each user has of it. Whatever a connection does there, from reading to writing, others wait for
//! it; so a user who has had much rests, where others are there, too.

use std::collections::VecDeque;
use std::future::Future;
use std::pin::Pin;
use std::sync::{Arc, Mutex, MutexGuard, PoisonError};
use std::task::{Context, Poll, Waker};
use std::time::{Duration, Instant};
use tokio::time::{sleep_until, Sleep};

/// How much of the thread a user may have on and on beside others: one part of so many. It may have so much at once.
const PART: u32 = 3;
const AT_ONCE: Duration = Duration::from_micros(600);

/// For how long a user counts as one that others hold up.
const LATELY: Duration = Duration::from_secs(1);

/// Who had the thread last.
#[derive(Debug, Default)]
pub struct Thread {
    /// The two users that had it last, the last one first.
    last: Mutex<[Option<(u32, Instant)>; 2]>,
}

impl Thread {
    fn last(&self) -> MutexGuard<'_, [Option<(u32, Instant)>; 2]> {
        self.last.lock().unwrap_or_else(PoisonError::into_inner)
    }

    /// Whether another user had it lately.
    fn has_others(&self, uid: u32, now: Instant) -> bool {
        self.last().iter().flatten().any(|(other, at)| *other != uid && now.duration_since(*at) < LATELY)
    }

    fn used(&self, uid: u32, now: Instant) {
        let mut last = self.last();
        if !matches!(last[0], Some((other, _)) if other == uid) {
            last[1] = last[0];
        }
        last[0] = Some((uid, now));
    }
}

/// What a user has had, and its connections that wait for more.
#[derive(Debug)]
pub struct Usage(Mutex<State>);

#[derive(Debug)]
struct State {
    /// When all that it has had would be over, had the user had its part alone.
    over: Instant,
    /// Those that wait, in their order. The first one is woken when it may go on, and wakes the next one then: were all woken at
    /// once, that alone would take the thread.
    waiting: VecDeque<(u64, Waker)>,
    next: u64,
}

impl Default for Usage {
    fn default() -> Usage {
        Usage(Mutex::new(State { over: Instant::now(), waiting: VecDeque::new(), next: 0 }))
    }
}

impl Usage {
    fn state(&self) -> MutexGuard<'_, State> {
        self.0.lock().unwrap_or_else(PoisonError::into_inner)
    }

    /// Puts one more behind those that wait, and tells its number.
    fn wait(&self, waker: Waker) -> u64 {
        let mut state = self.state();
        let number = state.next;
        state.next += 1;
        state.waiting.push_back((number, waker));
        number
    }

    /// Whether it is the turn of the one of this number. Else this wakes it then.
    fn is_first(&self, number: u64, waker: &Waker) -> bool {
        let mut state = self.state();
        match state.waiting.front_mut() {
            Some((first, of_first)) if *first == number => {
                of_first.clone_from(waker);
                true
            }
            _ => {
                let own = state.waiting.iter_mut().find(|(other, _)| *other == number);
                own.into_iter().for_each(|(_, of_own)| of_own.clone_from(waker));
                false
            }
        }
    }

    /// The one of this number waits no more.
    fn leave(&self, number: u64) {
        self.state().waiting.retain(|(other, _)| *other != number);
    }

    /// Wakes the one that waits first.
    fn wake(&self) {
        if let Some((_, waker)) = self.state().waiting.front() {
            waker.wake_by_ref();
        }
    }

    fn has_waiting(&self) -> bool {
        !self.state().waiting.is_empty()
    }

    /// Until when the user rests; none where it needn't.
    fn rests_until(&self, now: Instant) -> Option<Instant> {
        self.state().over.checked_sub(AT_ONCE * PART).filter(|end| *end > now)
    }

    fn spend(&self, time: Duration, now: Instant) {
        let mut state = self.state();
        state.over = state.over.max(now) + time * PART;
    }
}

/// The work of a user's connection, which waits where the user has had too much.
pub struct Shared<F> {
    work: Pin<Box<F>>,
    uid: u32,
    thread: Arc<Thread>,
    usage: Arc<Usage>,
    /// Its number among those that wait.
    waits: Option<u64>,
    rest: Option<Pin<Box<Sleep>>>,
}

impl<F: Future> Shared<F> {
    pub fn new(work: F, uid: u32, thread: &Arc<Thread>, usage: &Arc<Usage>) -> Shared<F> {
        Shared { work: Box::pin(work), uid, thread: Arc::clone(thread), usage: Arc::clone(usage), waits: None, rest: None }
    }

    /// Whether it may go on. Else it is woken when it may.
    fn may_go_on(&mut self, now: Instant, context: &mut Context<'_>) -> bool {
        let until = self.usage.rests_until(now).filter(|_| self.thread.has_others(self.uid, now));
        let number = match self.waits {
            None if until.is_none() && !self.usage.has_waiting() => return true,
            None => self.usage.wait(context.waker().clone()),
            Some(number) => number,
        };
        self.waits = Some(number);
        if !self.usage.is_first(number, context.waker()) || self.rests(until, context) {
            return false;
        }
        self.leave();
        true
    }

    /// Whether the end of a rest is still to come. Then this is woken by it.
    fn rests(&mut self, until: Option<Instant>, context: &mut Context<'_>) -> bool {
        let until = match until {
            Some(until) => until,
            None => return false,
        };
        let rest = self.rest.get_or_insert_with(|| Box::pin(sleep_until(until.into())));
        rest.as_mut().reset(until.into());
        rest.as_mut().poll(context).is_pending()
    }

    fn leave(&mut self) {
        self.rest = None;
        if let Some(number) = self.waits.take() {
            self.usage.leave(number);
        }
    }
}

impl<F> Drop for Shared<F> {
    fn drop(&mut self) {
        if let Some(number) = self.waits.take() {
            self.usage.leave(number);
            self.usage.wake();
        }
    }
}

impl<F: Future> Future for Shared<F> {
    type Output = F::Output;

    fn poll(self: Pin<&mut Self>, context: &mut Context<'_>) -> Poll<F::Output> {
        let this = self.get_mut();
        let began = Instant::now();
        if !this.may_go_on(began, context) {
            return Poll::Pending;
        }
        let polled = this.work.as_mut().poll(context);
        let now = Instant::now();
        this.usage.spend(now.duration_since(began), began);
        this.thread.used(this.uid, now);
        this.usage.wake();
        polled
    }
}

#[cfg(test)]
mod tests {
    use super::*;
    use tokio::task::yield_now;

    /// How much of 100 milliseconds the work of a user has, that does so much at a time.
    async fn share(thread: &Arc<Thread>, uid: u32) -> Duration {
        let (usage, began, mut had) = (Arc::new(Usage::default()), Instant::now(), Duration::ZERO);
        let work = async {
            while began.elapsed() < Duration::from_millis(100) {
                let at = Instant::now();
                while at.elapsed() < Duration::from_micros(50) {}
                had += at.elapsed();
                yield_now().await;
            }
        };
        Shared::new(work, uid, thread, &usage).await;
        had
    }

    #[tokio::test]
    async fn who_is_alone_has_all() {
        let thread = Arc::default();
        // other tests run beside this one
        assert!(share(&thread, 7).await > Duration::from_millis(50));
    }

    #[tokio::test]
    async fn many_that_wait_go_on_one_behind_another() {
        let (thread, usage) = (Arc::<Thread>::default(), Arc::<Usage>::default());
        thread.used(8, Instant::now());
        let mut tasks = tokio::task::JoinSet::new();
        for _ in 0..50 {
            let work = async {
                for _ in 0..4 {
                    let at = Instant::now();
                    while at.elapsed() < Duration::from_micros(50) {}
                    yield_now().await;
                }
            };
            tasks.spawn(Shared::new(work, 7, &thread, &usage));
        }
        let (began, gone) = (Instant::now(), Shared::new(std::future::pending::<()>(), 7, &thread, &usage));
        // one that goes while it waits holds nobody up
        assert!(tokio::time::timeout(Duration::from_millis(3), gone).await.is_err());
        while tasks.join_next().await.is_some() {}
        // 10 milliseconds of work, of which others have two for each
        assert!(began.elapsed() >= Duration::from_millis(25), "{:?}", began.elapsed());
        assert!(!usage.has_waiting());
    }

    #[tokio::test]
    async fn who_has_much_rests_beside_others() {
        let thread: Arc<Thread> = Arc::default();
        thread.used(8, Instant::now());
        let had = share(&thread, 7).await;
        assert!(had < Duration::from_millis(45), "{had:?}");
        // for the other one nothing has changed
        assert!(thread.has_others(7, Instant::now()) && Usage::default().rests_until(Instant::now()).is_none());
    }
}
