//! Turns, shares and ends of the calls that wait.

use super::*;
use tokio::time::timeout;

const MOST: usize = 65_536;

fn call(client: u32, length: usize) -> (Call, oneshot::Receiver<Answer>) {
    let (to, answer) = oneshot::channel();
    let asker = Asker { to, frame: None };
    (
        Call {
            client,
            line: client,
            body: vec![7; length],
            note: None,
            came: Instant::now(),
            number: None,
            bytes: None,
            asker,
        },
        answer,
    )
}

/// The next frames, which are answered at once.
async fn next(queue: &Queue) -> Option<Batch> {
    let batch = timeout(Duration::from_secs(9), queue.next(MOST)).await.unwrap()?;
    batch.sent.iter().for_each(|sent| queue.answered(sent));
    Some(batch)
}

/// The clients of the frames in these bytes, with the length of each body.
fn clients_in(mut bytes: &[u8]) -> Vec<(u32, u32)> {
    let mut found = Vec::new();
    while !bytes.is_empty() {
        let head = Head::of(bytes[..HEAD].try_into().unwrap());
        found.push((head.from, head.length));
        bytes = &bytes[HEAD + head.length as usize..];
    }
    found
}

#[tokio::test]
async fn calls_of_a_client_keep_their_order() {
    let queue = Queue::default();
    for length in 0..5 {
        queue.push(call(7, length).0);
    }
    let batch = queue.next(MOST).await.unwrap();
    assert_eq!(clients_in(&batch.bytes), [(7, 0), (7, 1), (7, 2), (7, 3), (7, 4)]);
    assert_eq!(batch.sent.iter().map(|sent| sent.number).collect::<Vec<_>>(), [0, 1, 2, 3, 4]);
    assert!(queue.is_empty());
}

#[tokio::test]
async fn a_client_with_much_lets_others_go_first() {
    let queue = Queue::default();
    for _ in 0..100 {
        queue.push(call(7, 60_000).0);
    }
    queue.push(call(8, 10).0);
    let mut before = 0;
    loop {
        let batch = next(&queue).await.unwrap();
        let clients = clients_in(&batch.bytes);
        if clients.contains(&(8, 10)) {
            break;
        }
        before += clients.len();
    }
    assert_eq!(before, 0, "so many of the other's frames went first");
}

#[tokio::test]
async fn small_frames_of_many_clients_take_turns() {
    let queue = Queue::default();
    for client in 0..20 {
        (0..1000).for_each(|_| queue.push(call(client, 20).0));
    }
    queue.push(call(99, 20).0);
    let mut before = [0; 20];
    'all: while let Some(batch) = next(&queue).await {
        for (client, _) in clients_in(&batch.bytes) {
            match before.get_mut(client as usize) {
                Some(count) => *count += 1,
                None => break 'all,
            }
        }
    }
    // 50,000 nanoseconds of frames that cost 8,200 each
    assert_eq!(before, [6; 20]);
}

#[tokio::test]
async fn a_call_of_its_own_is_from_the_front() {
    let queue = Queue::default();
    queue.push(call(7, 3).0);
    let answer = queue.push_own(vec![4; 9]);
    let batch = queue.next(MOST).await.unwrap();
    assert_eq!(clients_in(&batch.bytes), [(7, 3), (FRONT, 9)]);
    drop(batch);
    assert!(answer.await.is_err());
}

#[tokio::test]
async fn a_checkpoint_is_the_first_of_a_batch() {
    let queue = Queue::default();
    queue.push(call(7, 1).0);
    let _answer = queue.push_own(vec![CHECKPOINT]);
    queue.push(call(8, 2).0);
    let (first, second) = (queue.next(MOST).await.unwrap(), queue.next(MOST).await.unwrap());
    assert_eq!(clients_in(&first.bytes), [(7, 1)]);
    assert_eq!(clients_in(&second.bytes), [(FRONT, 1), (8, 2)]);
    assert_eq!(second.sent.iter().map(|sent| sent.is_checkpoint).collect::<Vec<_>>(), [true, false]);
}

#[tokio::test]
async fn what_is_urgent_goes_first() {
    let queue = Queue::default();
    (0..100).for_each(|_| queue.push(call(7, 1).0));
    let _answer = queue.push_first(vec![CHECKPOINT]);
    let batch = queue.next(MOST).await.unwrap();
    assert_eq!(clients_in(&batch.bytes)[..2], [(FRONT, 1), (7, 1)]);
    assert!(batch.sent[0].is_checkpoint);
    let _answer = queue.push_first(vec![4; 9]);
    queue.give_up();
    assert!(queue.is_empty() && queue.next(MOST).await.is_none());
}

#[tokio::test]
async fn a_marker_stands_before_a_numbered_call() {
    let queue = Queue::default();
    let (mut one, _answer) = call(7, 3);
    one.number = Some(9);
    queue.push(one);
    let batch = queue.next(MOST).await.unwrap();
    assert_eq!(clients_in(&batch.bytes), [(FRONT, MARKER as u32), (7, 3)]);
    assert_eq!(Marker::of(&batch.bytes[HEAD..HEAD + MARKER]), Some(Marker::new(7, 9, &[7; 3])));
    assert_eq!(batch.sent.iter().map(|sent| sent.numbered).collect::<Vec<_>>(), [None, Some(9)]);
}

#[tokio::test]
async fn a_frame_longer_than_a_batch_goes_alone() {
    let queue = Queue::default();
    queue.push(call(7, 10 * MOST).0);
    queue.push(call(8, 5).0);
    let (first, second) = (next(&queue).await.unwrap(), next(&queue).await.unwrap());
    assert_eq!(clients_in(&first.bytes), [(8, 5)]);
    assert_eq!(clients_in(&second.bytes), [(7, 10 * MOST as u32)]);
}

#[tokio::test]
async fn a_long_frame_waits_behind_one_that_is_not_done() {
    let (queue, long) = (Queue::default(), 2 * LONG);
    let next = || async { clients_in(&next(&queue).await.unwrap().bytes) };
    for _ in 0..4 {
        queue.push(call(7, long).0);
    }
    assert_eq!(next().await, [(7, long as u32)]);
    queue.push(call(8, 1).0);
    assert_eq!(next().await, [(8, 1)]);
    // it isn't answered
    assert!(timeout(Duration::from_millis(50), queue.next(MOST)).await.is_err());
    queue.long_answered(7, long, true);
    assert_eq!(next().await, [(7, long as u32)]);
    let began = Instant::now();
    queue.long_answered(7, long, false);
    queue.push(call(8, 2).0);
    assert_eq!(next().await, [(8, 2)]);
    assert_eq!(next().await, [(7, long as u32)]);
    assert!(began.elapsed() >= Duration::from_micros(31_250));
    // nobody answers it, and there is another process
    queue.begin_anew();
    assert_eq!(next().await, [(7, long as u32)]);
    assert!(queue.is_empty());
}

#[tokio::test]
async fn nothing_is_held_back_at_the_end() {
    let queue = Queue::default();
    queue.push(call(7, 2 * LONG).0);
    queue.push(call(7, 2 * LONG).0);
    assert!(next(&queue).await.is_some());
    queue.long_answered(7, 1 << 30, false);
    queue.close();
    assert!(next(&queue).await.is_some());
    assert!(next(&queue).await.is_none());
}

/// A call that is expected to cost so many nanoseconds of `kfs_serve` and some.
fn costing(client: u32, nanos: usize) -> Call {
    call(client, nanos / 10).0
}

#[tokio::test]
async fn little_of_a_client_is_sent_beside_others() {
    let queue = Queue::default();
    (0..100).for_each(|_| queue.push(costing(7, 100_000)));
    // of those that cost 128,000 nanoseconds
    let first = queue.next(usize::MAX).await.unwrap();
    assert_eq!(first.sent.len() as u64, ALONE / 128_000);
    assert!(timeout(Duration::from_millis(20), queue.next(usize::MAX)).await.is_err());
    queue.push(costing(8, 10_000));
    assert_eq!(clients_in(&queue.next(usize::MAX).await.unwrap().bytes), [(8, 1000)]);
    first.sent.iter().for_each(|sent| queue.answered(sent));
    let (other, _answer) = call(8, 10);
    queue.push(other);
    let batch = queue.next(usize::MAX).await.unwrap();
    batch.sent.iter().filter(|sent| sent.client == 8).for_each(|sent| queue.answered(sent));
    // another one was answered lately, so it has half
    let rest = clients_in(&batch.bytes).into_iter().filter(|(client, _)| *client == 7).count();
    assert!(rest as u64 <= ALONE / 128_000, "{rest}");
    batch.sent.iter().for_each(|sent| queue.answered(sent));
    assert_eq!(queue.next(usize::MAX).await.unwrap().sent.len() as u64, SHARE / 128_000);
}

#[tokio::test]
async fn who_takes_long_rests_beside_others() {
    let queue = Queue::default();
    let took = |sent: &Sent, millis| {
        queue.answered(sent);
        queue.measured(&[sent.part], Duration::from_millis(millis), Duration::ZERO);
    };
    queue.push(call(8, 1).0);
    took(&queue.next(MOST).await.unwrap().sent[0], 0);
    for _ in 0..6 {
        // what it takes isn't believed at once
        queue.push(call(7, 1).0);
        took(&next(&queue).await.unwrap().sent[0], 25);
    }
    queue.push(call(7, 2).0);
    let began = Instant::now();
    queue.push(call(8, 3).0);
    assert_eq!(clients_in(&next(&queue).await.unwrap().bytes), [(8, 3)]);
    assert_eq!(clients_in(&next(&queue).await.unwrap().bytes), [(7, 2)]);
    // four times what counted of it, but for four milliseconds
    assert!(began.elapsed() >= Duration::from_millis(20), "{:?}", began.elapsed());
}

#[tokio::test]
async fn look_ups_of_who_is_gone_are_dropped() {
    let queue = Queue::default();
    let look_up = |client| Call { body: crate::frames::node_look_up(1), ..call(client, 0).0 };
    (0..1000).for_each(|_| queue.push(look_up(7)));
    // what changes something is done
    queue.push(call(7, 5).0);
    let (asked, _answer) = call(8, 0);
    queue.push(Call { body: crate::frames::node_look_up(1), ..asked });
    let batch = queue.next(MOST).await.unwrap();
    assert_eq!(clients_in(&batch.bytes), [(7, 5), (8, 5)]);
    assert!(queue.is_empty());
}

#[tokio::test]
async fn a_closed_queue_gives_what_it_has_and_ends() {
    let queue = Queue::default();
    queue.push(call(7, 1).0);
    queue.close();
    let (late, answer) = call(7, 2);
    queue.push(late);
    assert_eq!(answer.await, Ok(Answer::NeverSent));
    assert!(queue.next(MOST).await.is_some());
    assert!(queue.next(MOST).await.is_none());
}

#[tokio::test]
async fn who_waits_is_told_when_it_is_given_up() {
    let queue = Queue::default();
    let (one, answer) = call(7, 1);
    queue.push(one);
    queue.give_up();
    assert_eq!(answer.await, Ok(Answer::NeverSent));
    assert!(queue.next(MOST).await.is_none());
}
