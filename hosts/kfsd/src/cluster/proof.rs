//! How two members prove to each other that they know the key of their volume, which neither of them sends.
//!
//! Who connects knows whom it means to reach, and says its own name and a nonce. Who listens proves itself first, and then who
//! connects does: so one without the key, wherever it listens, hears a name and a nonce alone. Each answer stands for its direction,
//! both nonces, the volume, both names, and where the one that listens does so. Who stands between two members listens elsewhere, so
//! what it hands on is believed at neither end. docs/CLUSTER.md has the bytes.

use super::volume::Peer;
use super::{secret, Settings};
use hmac::{Hmac, Mac};
use sha2::Sha256;
use std::io::{self, ErrorKind};
use thiserror::Error;
use tokio::io::{AsyncRead, AsyncReadExt, AsyncWrite, AsyncWriteExt};

/// What stands before all else, and the version behind it. An older kfsd takes the first two bytes for the length of a key, and
/// closes.
const GREETING: [u8; 6] = *b"\0\0KFSM";
const VERSION: u8 = 2;

/// How many bytes a nonce has, and how many an answer has.
const NONCE: usize = 32;
const ANSWER: usize = 32;

/// What begins the answer of each direction.
const LISTENS: &str = "kfsd 2 listens";
const CONNECTS: &str = "kfsd 2 connects";

/// How long a key may be. An older kfsd began with that, and the key behind it.
const LENGTHS: std::ops::RangeInclusive<u64> = 16..=1024;

type Nonce = [u8; NONCE];

/// Why the other end of a connection isn't believed.
#[derive(Debug, Error)]
pub enum ProofFault {
    #[error(transparent)]
    Io(#[from] io::Error),
    #[error("it is a kfsd of an older version, which shows its key: all members of a volume have the same version")]
    Older,
    #[error("what it begins with isn't what a member does")]
    Stranger,
    #[error("it is a kfsd of another version ({0}, and here {VERSION}): all members of a volume have the same version")]
    Version(u8),
    #[error("it has closed without an answer: it has too much to do, or it is a kfsd of an older version")]
    Silent,
    #[error("it hasn't proved that it is member {0} and knows the key")]
    Unproved(String),
}

impl From<ProofFault> for io::Error {
    fn from(fault: ProofFault) -> io::Error {
        match fault {
            ProofFault::Io(fault) => fault,
            other => io::Error::new(ErrorKind::PermissionDenied, other),
        }
    }
}

/// Who a member is, and what it knows.
pub struct Identity {
    key: Vec<u8>,
    volume: String,
    member: String,
    /// Where it listens.
    address: String,
}

impl std::fmt::Debug for Identity {
    fn fmt(&self, to: &mut std::fmt::Formatter<'_>) -> std::fmt::Result {
        write!(to, "member {} of {}", self.member, self.volume)
    }
}

impl Identity {
    /// That of these settings, with the key of their file: 16 bytes at least, and 1,024 at most.
    pub fn of(settings: &Settings) -> io::Result<Identity> {
        Ok(Identity {
            key: secret::read(&settings.key_file, LENGTHS)?,
            volume: settings.volume.clone(),
            member: settings.member.clone(),
            address: settings.peer.to_string(),
        })
    }
}

/// What an answer stands for, as one end sees it.
struct Meeting<'a> {
    of: &'a Identity,
    /// The names of both, and where the one listens.
    caller: &'a str,
    listener: &'a str,
    address: &'a str,
    /// What each has drawn.
    called: Nonce,
    listened: Nonce,
}

impl Meeting<'_> {
    /// The answer of a direction, before it is told or compared. Each text stands behind its length, and all nonces are as long.
    fn answer(&self, direction: &str) -> io::Result<Hmac<Sha256>> {
        let mut answer = Hmac::<Sha256>::new_from_slice(&self.of.key).map_err(|_| ErrorKind::InvalidInput)?;
        for text in [direction, &self.of.volume, self.caller, self.listener, self.address] {
            let length = u8::try_from(text.len()).map_err(|_| ErrorKind::InvalidInput)?;
            answer.update(&[length]);
            answer.update(text.as_bytes());
        }
        answer.update(&self.called);
        answer.update(&self.listened);
        Ok(answer)
    }

    fn told(&self, direction: &str) -> io::Result<[u8; ANSWER]> {
        Ok(self.answer(direction)?.finalize().into_bytes().into())
    }

    /// Compares in a time that says nothing of what is right.
    fn is_right(&self, direction: &str, answer: &[u8; ANSWER]) -> io::Result<bool> {
        Ok(self.answer(direction)?.verify_slice(answer).is_ok())
    }
}

/// Bytes that nobody can foresee.
fn nonce() -> io::Result<Nonce> {
    let mut bytes = [0; NONCE];
    getrandom::getrandom(&mut bytes).map_err(|fault| io::Error::new(ErrorKind::Other, fault))?;
    Ok(bytes)
}

/// At the end that connects: has this member prove itself, and does the same then. Nothing else is sent before.
pub async fn call(stream: &mut (impl AsyncRead + AsyncWrite + Unpin), own: &Identity, peer: &Peer) -> Result<(), ProofFault> {
    let called = nonce()?;
    let length = u8::try_from(own.member.len()).map_err(|_| io::Error::from(ErrorKind::InvalidInput))?;
    let greeting = [&GREETING[..], &[VERSION], &called, &[length], own.member.as_bytes()].concat();
    stream.write_all(&greeting).await?;
    stream.flush().await?;
    let (mut listened, mut answer) = ([0; NONCE], [0; ANSWER]);
    let said = async {
        stream.read_exact(&mut listened).await?;
        stream.read_exact(&mut answer).await
    };
    said.await.map_err(|fault| match fault.kind() {
        ErrorKind::UnexpectedEof | ErrorKind::ConnectionReset => ProofFault::Silent,
        _ => ProofFault::Io(fault),
    })?;
    let meeting = Meeting { of: own, caller: &own.member, listener: &peer.name, address: &peer.address, called, listened };
    if !meeting.is_right(LISTENS, &answer)? {
        return Err(ProofFault::Unproved(peer.name.clone()));
    }
    stream.write_all(&meeting.told(CONNECTS)?).await?;
    stream.flush().await?;
    Ok(())
}

/// At the end that listens: proves itself to whoever connects, and has it do the same. Tells the other one's name. What is read
/// has 327 bytes at most.
pub async fn listen(stream: &mut (impl AsyncRead + AsyncWrite + Unpin), own: &Identity) -> Result<String, ProofFault> {
    let (called, caller) = read_greeting(stream).await?;
    let (listener, address, listened) = (&own.member, &own.address, nonce()?);
    let meeting = Meeting { of: own, caller: &caller, listener, address, called, listened };
    stream.write_all(&[meeting.listened, meeting.told(LISTENS)?].concat()).await?;
    stream.flush().await?;
    let mut answer = [0; ANSWER];
    stream.read_exact(&mut answer).await?;
    match meeting.is_right(CONNECTS, &answer)? {
        true => Ok(caller),
        false => Err(ProofFault::Unproved(caller)),
    }
}

/// The nonce and the name of one that connects.
async fn read_greeting(stream: &mut (impl AsyncRead + Unpin)) -> Result<(Nonce, String), ProofFault> {
    let mut first = [0; 2];
    stream.read_exact(&mut first).await?;
    if first != GREETING[..2] {
        let is_older = LENGTHS.contains(&u16::from_be_bytes(first).into());
        return Err(if is_older { ProofFault::Older } else { ProofFault::Stranger });
    }
    let mut rest = [0; GREETING.len() - 2];
    stream.read_exact(&mut rest).await?;
    if rest != GREETING[2..] {
        return Err(ProofFault::Stranger);
    }
    match stream.read_u8().await? {
        VERSION => {}
        other => return Err(ProofFault::Version(other)),
    }
    let mut called = [0; NONCE];
    stream.read_exact(&mut called).await?;
    let mut name = vec![0; stream.read_u8().await?.into()];
    stream.read_exact(&mut name).await?;
    match String::from_utf8(name) {
        Ok(name) if super::is_name(&name) => Ok((called, name)),
        _ => Err(ProofFault::Stranger),
    }
}

#[cfg(test)]
mod tests {
    use super::*;
    use std::time::Duration;
    use tokio::io::{duplex, DuplexStream};
    use tokio::time::timeout;

    /// All listen there, so that nothing but what a test changes differs.
    const ADDRESS: &str = "127.0.0.1:1";

    fn identity(key: u8, volume: &str, member: &str) -> Identity {
        let address = ADDRESS.to_string();
        Identity { key: vec![key; 32], volume: volume.to_string(), member: member.to_string(), address }
    }

    fn peer(name: &str) -> Peer {
        Peer { name: name.to_string(), address: ADDRESS.to_string() }
    }

    /// How both ends of a connection fare, where the one that connects means to reach this member.
    async fn meet(caller: Identity, meant: &str, listener: Identity) -> (Result<(), ProofFault>, Result<String, ProofFault>) {
        let (mut here, mut there) = duplex(1024);
        let meant = peer(meant);
        let calling = async move { call(&mut here, &caller, &meant).await };
        let listening = async move { listen(&mut there, &listener).await };
        tokio::join!(calling, listening)
    }

    /// What comes within a moment, up to the end or a pause.
    async fn heard(from: &mut DuplexStream) -> Vec<u8> {
        let mut all = Vec::new();
        let mut bytes = [0; 1024];
        while let Ok(Ok(count @ 1..)) = timeout(Duration::from_millis(30), from.read(&mut bytes)).await {
            all.extend_from_slice(&bytes[..count]);
        }
        all
    }

    /// Hands bytes on in both directions until an end closes, and tells what each has sent.
    async fn record(one: &mut DuplexStream, other: &mut DuplexStream) -> [Vec<u8>; 2] {
        let mut sent = [heard(one).await, vec![]];
        let _ = other.write_all(&sent[0]).await;
        sent[1] = heard(other).await;
        let _ = one.write_all(&sent[1]).await;
        let last = heard(one).await;
        let _ = other.write_all(&last).await;
        sent[0].extend(last);
        sent
    }

    #[tokio::test]
    async fn members_that_know_the_key_believe_each_other() {
        let (called, listened) = meet(identity(1, "v", "a"), "b", identity(1, "v", "b")).await;
        assert!(called.is_ok());
        assert_eq!(listened.unwrap(), "a");
        let long = "m".repeat(255);
        let (called, listened) = meet(identity(1, "v", &long), "b", identity(1, "v", "b")).await;
        assert!(called.is_ok() && listened.unwrap() == long);
    }

    #[tokio::test]
    async fn another_key_volume_or_name_is_refused_at_both_ends() {
        let wrong = [
            (identity(2, "v", "a"), "b", identity(1, "v", "b")),
            (identity(1, "w", "a"), "b", identity(1, "v", "b")),
            (identity(1, "v", "a"), "c", identity(1, "v", "b")),
            // the names change places
            (identity(1, "v", "b"), "b", identity(1, "v", "a")),
            // the same letters, otherwise divided
            (identity(1, "va", "b"), "c", identity(1, "v", "c")),
            // the right member, by one that listens elsewhere and hands all on
            (identity(1, "v", "a"), "b", Identity { address: "127.0.0.1:2".to_string(), ..identity(1, "v", "b") }),
        ];
        for (caller, meant, listener) in wrong {
            let told = format!("{caller:?} {meant} {listener:?}");
            let (called, listened) = meet(caller, meant, listener).await;
            assert!(matches!(called, Err(ProofFault::Unproved(_))), "{told}: {called:?}");
            // The one that connects has said nothing further.
            assert!(matches!(listened, Err(ProofFault::Io(_))), "{told}: {listened:?}");
        }
    }

    #[tokio::test]
    async fn a_listener_without_the_key_hears_a_name_and_a_nonce() {
        let (mut here, mut there) = duplex(1024);
        let calling = tokio::spawn(async move { call(&mut here, &identity(1, "v", "a"), &peer("b")).await });
        let mut said = heard(&mut there).await;
        assert_eq!(said.split_off(7 + NONCE), b"\x01a");
        assert_eq!(said[..7], *b"\0\0KFSM\x02");
        there.write_all(&[9; NONCE + ANSWER]).await.unwrap();
        assert_eq!(heard(&mut there).await, b"");
        assert!(matches!(calling.await.unwrap(), Err(ProofFault::Unproved(name)) if name == "b"));
    }

    #[tokio::test]
    async fn what_was_recorded_serves_at_no_other_connection() {
        let (mut here, mut one) = duplex(1024);
        let (mut other, mut there) = duplex(1024);
        let calling = tokio::spawn(async move { call(&mut here, &identity(1, "v", "a"), &peer("b")).await });
        let listening = tokio::spawn(async move { listen(&mut there, &identity(1, "v", "b")).await });
        let [by_caller, by_listener] = record(&mut one, &mut other).await;
        assert!(calling.await.unwrap().is_ok() && listening.await.unwrap().is_ok());
        assert_eq!((by_caller.len(), by_listener.len()), (7 + NONCE + 2 + ANSWER, NONCE + ANSWER));

        let (mut from, mut to) = duplex(1024);
        from.write_all(&by_caller).await.unwrap();
        let again = listen(&mut to, &identity(1, "v", "b")).await;
        assert!(matches!(again, Err(ProofFault::Unproved(name)) if name == "a"));

        let (mut from, mut to) = duplex(1024);
        from.write_all(&by_listener).await.unwrap();
        let again = call(&mut to, &identity(1, "v", "a"), &peer("b")).await;
        assert!(matches!(again, Err(ProofFault::Unproved(name)) if name == "b"));
    }

    #[tokio::test]
    async fn an_answer_that_is_sent_back_is_none() {
        // One that connects to a member, and has that member's own answer for its own.
        let (mut stranger, mut to) = duplex(1024);
        let listening = tokio::spawn(async move { listen(&mut to, &identity(1, "v", "b")).await });
        stranger.write_all(&[&b"\0\0KFSM\x02"[..], &[5; NONCE], b"\x01b"].concat()).await.unwrap();
        let said = heard(&mut stranger).await;
        stranger.write_all(&said[NONCE..]).await.unwrap();
        assert!(matches!(listening.await.unwrap(), Err(ProofFault::Unproved(_))));
        // One that listens, and asks a member for what it is to answer: the member is another one.
        let (mut here, mut one) = duplex(1024);
        let (mut other, mut there) = duplex(1024);
        let calling = tokio::spawn(async move { call(&mut here, &identity(1, "v", "a"), &peer("b")).await });
        let listening = tokio::spawn(async move { listen(&mut there, &identity(1, "v", "c")).await });
        let [by_caller, _] = record(&mut one, &mut other).await;
        assert_eq!(by_caller.len(), 7 + NONCE + 2);
        assert!(matches!(calling.await.unwrap(), Err(ProofFault::Unproved(_))));
        drop(other);
        assert!(listening.await.unwrap().is_err());
        // One that sends back what it hears.
        let (mut here, mut echo) = duplex(1024);
        let calling = tokio::spawn(async move { call(&mut here, &identity(1, "v", "a"), &peer("a")).await });
        let said = heard(&mut echo).await;
        echo.write_all(&[&said[7..7 + NONCE], &[0; ANSWER]].concat()).await.unwrap();
        assert!(matches!(calling.await.unwrap(), Err(ProofFault::Unproved(_))));
    }

    #[tokio::test]
    async fn what_is_cut_short_or_changed_proves_nothing() {
        let greeting = [&b"\0\0KFSM\x02"[..], &[5; NONCE], b"\x01a"].concat();
        let whole = |listened: Nonce| {
            let own = identity(1, "v", "b");
            let address = &own.address;
            let meeting = Meeting { of: &own, caller: "a", listener: "b", address, called: [5; NONCE], listened };
            meeting.told(CONNECTS).unwrap()
        };
        // each end of the answer, and of the greeting, with and without one wrong bit
        for (count, bit) in (0..=ANSWER).map(|count| (count, 0)).chain((0..8).map(|bit| (ANSWER, 1 << bit))) {
            let (mut from, mut to) = duplex(1024);
            let listening = tokio::spawn(async move { listen(&mut to, &identity(1, "v", "b")).await });
            from.write_all(&greeting).await.unwrap();
            let said = heard(&mut from).await;
            let mut answer = whole(said[..NONCE].try_into().unwrap());
            answer[7] ^= bit;
            from.write_all(&answer[..count]).await.unwrap();
            drop(from);
            assert_eq!(listening.await.unwrap().is_ok(), count == ANSWER && bit == 0, "{count} {bit}");
        }
        for count in 0..greeting.len() {
            let (mut from, mut to) = duplex(1024);
            from.write_all(&greeting[..count]).await.unwrap();
            drop(from);
            assert!(listen(&mut to, &identity(1, "v", "b")).await.is_err(), "{count}");
        }
    }

    #[tokio::test]
    async fn others_are_told_apart() {
        let fault = |bytes: &'static [u8]| async move {
            let (mut from, mut to) = duplex(1024);
            from.write_all(bytes).await.unwrap();
            drop(from);
            listen(&mut to, &identity(1, "v", "b")).await.unwrap_err()
        };
        assert!(matches!(fault(b"\0\x20key").await, ProofFault::Older));
        assert!(matches!(fault(b"\x04\0key").await, ProofFault::Older));
        assert!(matches!(fault(b"GET / HTTP/1.1").await, ProofFault::Stranger));
        assert!(matches!(fault(b"\0\0KFSX\x02").await, ProofFault::Stranger));
        assert!(matches!(fault(b"\0\0KFSM\x03").await, ProofFault::Version(3)));
        let (mut here, there) = duplex(1024);
        drop(there);
        assert!(call(&mut here, &identity(1, "v", "a"), &peer("b")).await.is_err());
    }
}
