//! What members of a volume ask each other, over TCP: the state that one keeps, and that a leader serves a connection of a user.
//!
//! Each end proves to the other one that it knows the key before anything is asked (`proof.rs`). Who has done that is believed.
//! Without TLS nothing is encrypted, so the wire between the machines has to be theirs alone then.

use super::base::Bases;
use super::door::{Door, AT_ONCE, TELLING};
use super::proof::{self, Identity};
use super::tls::{Acceptor, Connector, Stream};
use super::volume::Peer;
use super::{ClusterFault, Settings};
use crate::connection::{self, Shared};
use crate::peer::is_closed;
use crate::sockets::{place_for, turn_of};
use nix::sys::socket::{setsockopt, sockopt};
use std::io::{self, ErrorKind};
use std::os::unix::io::AsRawFd;
use std::sync::Arc;
use std::time::Duration;
use tokio::io::{split, AsyncReadExt, AsyncWriteExt};
use tokio::net::{TcpListener, TcpStream};
use tokio::time::{interval, sleep, timeout};
use tracing::warn;

/// How long it may take until another member is reached and has proved the key.
const TIME: Duration = Duration::from_secs(5);

/// How long no byte of a state may come.
const IDLE: Duration = Duration::from_secs(10);

/// How long a listener rests where the system has no descriptor left.
const REST: Duration = Duration::from_millis(100);

/// What is asked for: a state, or a connection of a user (4).
const STATE: u8 = 1;
const USER: u8 = 2;

/// What a member shows others.
#[derive(Clone, Debug)]
pub struct Credentials {
    identity: Arc<Identity>,
    connector: Connector,
    acceptor: Acceptor,
}

impl Credentials {
    /// Those of the files that these settings name.
    pub fn of(settings: &Settings) -> Result<Credentials, ClusterFault> {
        let identity = Identity::of(settings).map_err(|fault| ClusterFault::Path(settings.key_file.clone(), fault))?;
        let (connector, acceptor) = match &settings.peer_tls {
            None => (Connector::default(), Acceptor::default()),
            Some(tls) => (tls.connector().map_err(ClusterFault::Secret)?, tls.acceptor().map_err(ClusterFault::Secret)?),
        };
        Ok(Credentials { identity: Arc::new(identity), connector, acceptor })
    }
}

/// Has small answers go at once, and ends a connection whose other end isn't there any more.
fn watch_over(stream: &TcpStream) -> io::Result<()> {
    stream.set_nodelay(true)?;
    let descriptor = stream.as_raw_fd();
    setsockopt(descriptor, sockopt::KeepAlive, &true)?;
    setsockopt(descriptor, sockopt::TcpKeepIdle, &5)?;
    setsockopt(descriptor, sockopt::TcpKeepInterval, &2)?;
    setsockopt(descriptor, sockopt::TcpKeepCount, &3)?;
    // So long may bytes be without a sign that they have come.
    setsockopt(descriptor, sockopt::TcpUserTimeout, &10_000)?;
    Ok(())
}

/// Connects to a member, and returns once it has proved the key, and this one has answered with the same.
async fn connect(peer: &Peer, own: &Credentials) -> io::Result<Stream> {
    let connecting = async {
        let stream = TcpStream::connect(&peer.address).await?;
        watch_over(&stream)?;
        let mut stream = own.connector.connect(stream, &peer.name).await?;
        proof::call(&mut stream, &own.identity, peer).await?;
        Ok(stream)
    };
    timeout(TIME, connecting).await.unwrap_or_else(|_| Err(ErrorKind::TimedOut.into()))
}

/// Has a member send the state that it keeps, into the part of these.
pub async fn fetch(peer: &Peer, own: &Credentials, bases: &Bases) -> io::Result<()> {
    let mut stream = connect(peer, own).await?;
    stream.write_u8(STATE).await?;
    stream.flush().await?;
    let mut part = tokio::fs::File::from_std(bases.part()?);
    let mut left = timeout(IDLE, stream.read_u64()).await??;
    let mut bytes = vec![0; 1 << 16];
    while left > 0 {
        let most = bytes.len().min(usize::try_from(left).unwrap_or(usize::MAX));
        let count = timeout(IDLE, stream.read(&mut bytes[..most])).await??;
        if count == 0 {
            return Err(ErrorKind::UnexpectedEof.into());
        }
        part.write_all(&bytes[..count]).await?;
        left -= count as u64;
    }
    part.flush().await
}

/// A connection to a leader that is the user's of this number.
pub async fn connect_user(peer: &Peer, own: &Credentials, uid: u32) -> io::Result<Stream> {
    let mut stream = connect(peer, own).await?;
    stream.write_u8(USER).await?;
    stream.write_u32(uid).await?;
    stream.flush().await?;
    Ok(stream)
}

/// Answers other members until it is dropped.
pub async fn serve(listener: Arc<TcpListener>, own: Credentials, bases: Bases, shared: Arc<Shared>) {
    let (door, mut telling) = (Door::new(AT_ONCE), interval(TELLING));
    loop {
        tokio::select! {
            taken = door.accept(&listener) => match taken {
                Ok((stream, from)) => {
                    let (own, bases, shared) = (own.clone(), bases.clone(), Arc::clone(&shared));
                    let (door, inside) = (Arc::clone(&door), door.enter().await);
                    tokio::spawn(async move {
                        match inside.prove(asked(stream, &own)).await {
                            Ok((stream, asked)) => answer(stream, asked, &bases, shared).await,
                            Err(fault) => door.refuse(from, &fault),
                        }
                    });
                }
                Err(fault) => {
                    warn!("no other member is answered: {fault}");
                    sleep(REST).await;
                }
            },
            _ = telling.tick() => door.tell(),
        }
    }
}

/// What a member asks for.
enum Asked {
    State,
    User(u32),
}

/// Reads a question of one that knows the key.
async fn asked(stream: TcpStream, own: &Credentials) -> io::Result<(Stream, Asked)> {
    watch_over(&stream)?;
    let mut stream = own.acceptor.accept(stream).await?;
    proof::listen(&mut stream, &own.identity).await?;
    match stream.read_u8().await? {
        STATE => Ok((stream, Asked::State)),
        USER => {
            let uid = stream.read_u32().await?;
            Ok((stream, Asked::User(uid)))
        }
        _ => Err(ErrorKind::InvalidData.into()),
    }
}

async fn answer(stream: Stream, asked: Asked, bases: &Bases, shared: Arc<Shared>) {
    match asked {
        Asked::State => {
            if let Err(fault) = send_state(stream, bases).await {
                warn!("the state isn't sent to another member: {fault}");
            }
        }
        Asked::User(uid) => serve_user(stream, uid, shared).await,
    }
}

async fn send_state(mut stream: Stream, bases: &Bases) -> io::Result<()> {
    let mut file = tokio::fs::File::from_std(bases.open()?);
    stream.write_u64(file.metadata().await?.len()).await?;
    tokio::io::copy(&mut file, &mut stream).await?;
    stream.shutdown().await
}

/// Serves a connection as that of a user, where this one leads.
async fn serve_user(mut stream: Stream, uid: u32, shared: Arc<Shared>) {
    if shared.figures.opened.get() != 1 {
        return;
    }
    let place = match place_for(Ok(uid), &shared) {
        Ok(place) => place,
        Err(refusal) => {
            // It is told as far as it hears.
            let _ = stream.write_all(&refusal.reply(0)).await;
            let _ = stream.shutdown().await;
            return;
        }
    };
    turn_of(&place.account).await;
    match stream {
        // It is open for as long as its connection is served.
        Stream::Plain(stream) => {
            let socket = stream.as_raw_fd();
            let (from, to) = stream.into_split();
            connection::serve(from, to, || is_closed(socket), place, shared).await;
        }
        Stream::Tls(stream) => {
            let socket = stream.get_ref().0.as_raw_fd();
            let (from, to) = split(stream);
            connection::serve(from, to, || is_closed(socket), place, shared).await;
        }
    }
}
