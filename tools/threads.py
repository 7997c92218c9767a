"""What the programs with threads share: callers of a shared desk, each in a thread of its own, as a module of Rattle.

What starts threads is proved with no answer but one: that a desk may go from thread to thread. That is proved in
`crates/kfs_desk/proofs/Sent.antt`.
"""
from benchmarks import NAME

# What the text names; a program adds its own.
USES = "kfs_image kfs_lease kfs_mode kfs_judge kfs_plan kfs_desk kfs_shared"

CREW = r"""//! Callers of a shared desk, each in a thread of its own.
//!
//! What starts threads is generic in what is shared: the prover finds that a pass may go to a thread where it need not look
//! into the object. That a desk may go is said once, where `run_desk` calls it.
ghost use Rattle.kfs_shared.specs.Passes.{IsPassOf};

use kfs_desk::{Act, ActReply, Desk, Reply};
use kfs_judge::View;
use kfs_plan::{Judged, Submission};
use kfs_shared::{Docketed, Pass, Shared};
use std::alloc::{Allocator, Global};
use std::sync::Wait;
use std::thread::{Threads, for_each_mut};
use std::time::{Clock, Duration, Instant};

/// What a thread does with its pass. It keeps what it learns.
pub trait Caller<D: Docketed, A: Allocator> {
    /// How many rounds of calls it makes.
    fn rounds(&self) -> u64;

    /// One round.
    fn call<R: Wait>(&mut self, rt: &R, shared: &Shared<D, A>, pass: &mut Pass<D>)
        requires { IsPassOf shared.now pass.old }
        ensures { IsPassOf shared.now pass.new };
}

/// A pass of a shared object.
#[derive(Drop)]
struct Held<'a, D: Docketed, A: Allocator> {
    shared: &'a Shared<D, A>,
    pass: Pass<D>,
    ghost own: { IsPassOf shared.now pass },
}

/// A caller with its pass.
#[derive(Drop)]
struct Seated<'a, D: Docketed, A: Allocator, C> {
    shared: &'a Shared<D, A>,
    pass: Pass<D>,
    caller: C,
    ghost own: { IsPassOf shared.now pass },
}

impl<'a, D: Docketed, A: Allocator> Held<'a, D, A> {
    /// Two passes for one.
    fn split(self) -> (Held<'a, D, A>, Held<'a, D, A>) {
        let Held { shared, pass } = self;
        let (first, second) = shared.split(pass);
        (Held { shared, pass: first }, Held { shared, pass: second })
    }
}

impl<'a, D: Docketed, A: Allocator, C: Caller<D, A>> Seated<'a, D, A, C> {
    fn call<R: Wait>(&mut self, rt: &R) {
        self.caller.call(rt, self.shared, &mut self.pass);
    }

    fn call_all<R: Wait>(&mut self, rt: &R) {
        for _ in 0..self.caller.rounds() {
            self.call(rt);
        }
    }
}

/// What comes of it: the object, the callers, and how long their calls took.
#[derive(Drop)]
pub struct Ran<D, A: Allocator, C> {
    pub object: D,
    pub callers: Vec<C, A>,
    pub time: Duration,
}

/// A seat for each caller.
fn seats_of<'a, D: Docketed, A: Allocator + Copy, C: Drop>(
    alloc: A,
    held: Held<'a, D, A>,
    callers: Vec<C, A>,
) -> Option<Vec<Seated<'a, D, A, C>, A>> {
    let mut held = held;
    let mut all = Vec::new(alloc);
    for caller in callers {
        let (rest, Held { shared, pass }) = held.split();
        held = rest;
        let seated = Seated { shared, pass, caller };
        all.push(seated).ok()?;
    }
    Some(all)
}

/// The callers without their seats.
fn risen<'a, D: Docketed, A: Allocator + Copy, C: Drop>(
    alloc: A,
    all: Vec<Seated<'a, D, A, C>, A>,
) -> Option<Vec<C, A>> {
    let mut callers = Vec::new(alloc);
    for seated in all {
        let Seated { caller, .. } = seated;
        callers.push(caller).ok()?;
    }
    Some(callers)
}

/// All calls, those of each caller in a thread of its own where one can be had.
fn together<
    'a,
    D: Docketed + Send,
    A: Allocator + Send + Sync,
    C: Caller<D, A> + Send,
    R: Threads + Wait + Sync,
>(rt: &R, all: &mut [Seated<'a, D, A, C>]) {
    let count = all.len();
    if count > 0 {
        for_each_mut(rt, all, count, &|_, seated| seated.call_all(rt));
    }
}

/// The same, with how long it took.
fn timed<
    'a,
    D: Docketed + Send,
    A: Allocator + Copy + Send + Sync,
    C: Caller<D, A> + Drop + Send,
    R: Threads + Wait + Sync,
    K: Clock,
>(rt: &R, clock: &K, alloc: A, all: Vec<Seated<'a, D, A, C>, A>) -> Option<(Vec<C, A>, Duration)> {
    let mut all = all;
    let start = Instant::now(clock).ok()?;
    together(rt, all.as_mut_slice());
    let time = start.elapsed(clock).ok()?;
    let callers = risen(alloc, all)?;
    Some((callers, time))
}

/// Shares the object, and each caller makes its calls in a thread of its own where one can be had.
fn run<
    D: Docketed + Send + Drop,
    A: Allocator + Copy + Send + Sync,
    C: Caller<D, A> + Drop + Send,
    R: Threads + Wait + Sync,
    K: Clock,
>(rt: &R, clock: &K, alloc: A, object: D, callers: Vec<C, A>) -> Option<Ran<D, A, C>> {
    let (shared, pass) = Shared::new(alloc, object, 0).ok()?;
    let (last, first) = shared.split(pass);
    let held = Held { shared: &shared, pass: first };
    let (callers, time) = timed(rt, clock, alloc, seats_of(alloc, held, callers)?)?;
    let object = shared.close(last).ok()?;
    Some(Ran { object, callers, time })
}

/// The same of a desk.
pub fn run_desk<
    C: Caller<Desk<Global>, Global> + Drop + Send,
    R: Threads + Wait + Sync,
    K: Clock,
>(rt: &R, clock: &K, alloc: Global, desk: Desk<Global>, callers: Vec<C>) -> Option<Ran<Desk<Global>, Global, C>> {
    run(rt, clock, alloc, desk, callers)
}

// ---- the calls, each in a function that says no more than whose the pass is

pub fn view<R: Wait>(
    rt: &R,
    shared: &Shared<Desk<Global>, Global>,
    pass: &mut Pass<Desk<Global>>,
) -> Option<View<Global>>
    requires { IsPassOf shared.now pass.old }
    ensures { IsPassOf shared.now pass.new }
{
    shared.view(rt, pass).ok()
}

pub fn land<R: Wait>(
    rt: &R,
    shared: &Shared<Desk<Global>, Global>,
    pass: &mut Pass<Desk<Global>>,
    judged: Judged<Global>,
) -> Option<Reply>
    requires { IsPassOf shared.now pass.old }
    ensures { IsPassOf shared.now pass.new }
{
    shared.land(rt, pass, judged).ok()
}

pub fn act<R: Wait>(
    rt: &R,
    shared: &Shared<Desk<Global>, Global>,
    pass: &mut Pass<Desk<Global>>,
    act: Act<'_>,
) -> Option<ActReply>
    requires { IsPassOf shared.now pass.old }
    ensures { IsPassOf shared.now pass.new }
{
    shared.act(rt, pass, act).ok()
}

/// What a client hands in: copies of these bytes.
pub fn submission(alloc: Global, client: u32, log: &[u8], plan: &[u8]) -> Option<Submission<Global>> {
    Some(Submission {
        client,
        log: Vec::from_slice(alloc, log).ok()?,
        plan: Vec::from_slice(alloc, plan).ok()?,
    })
}

/// The verdict against the view.
pub fn judge(alloc: Global, view: &View<Global>, submission: Submission<Global>) -> Option<Judged<Global>> {
    kfs_plan::judge(alloc, view, submission).ok()
}
"""

ANSWER = f"""use denote.Param.Send.{{IsSend, param_send, arg_send}}
use Rattle.std.proofs.Crossing as std
use Rattle.std.specs.contracts.alloc.Global as Heap
use Rattle.std.specs.contracts.impls.GlobalAllocator.TheImpl.{{ghosts}}
use Rattle.kfs_desk.specs.contracts.desk.Desk as Desk
use Rattle.kfs_desk.proofs.Sent.{{desk_send}}
use Rattle.{NAME}.proofs.crew.run_desk.Goals as goal

this_desk_send : IsSend (Desk.the_row Heap.the_row ghosts)
this_desk_send = desk_send Heap.the_row ghosts std.send std.sync std.frees

pub run-requires-send-D : goal.run-requires-send-D
run-requires-send-D g c = search (this_desk_send, param_send, arg_send) depth 6
"""


def files():
    """Returns the module `crew` with its proof, by the names of the files."""
    return {
        "src/crew.rt": CREW,
        "proofs/crew/run_desk/Answers.antt": ANSWER,
    }
