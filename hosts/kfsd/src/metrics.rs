//! Figures for Prometheus, over HTTP on an address of this machine.

use crate::connection::Shared;
use crate::figures::{Times, BOUNDS};
use crate::pace::Pace;
use crate::status::{status, Status, UserStatus};
use std::collections::VecDeque;
use std::fmt::Write as _;
use std::io;
use std::net::{Ipv4Addr, SocketAddr};
use std::sync::Arc;
use std::time::Duration;
use tokio::io::{AsyncReadExt, AsyncWriteExt};
use tokio::net::{TcpListener, TcpStream};
use tokio::task::JoinHandle;
use tokio::time::{sleep, timeout};
use tracing::{debug, warn};

/// How long a question may take to come, and how long it may take in all.
const ASKING: Duration = Duration::from_secs(1);
const TIME: Duration = Duration::from_secs(5);

/// How many connections there may be. The oldest makes way for a new one, so who asks nothing holds nobody up.
const AT_ONCE: usize = 32;

/// How many connections are taken a second. Who connects again and again takes no more of kfsd's time.
const A_SECOND: u32 = 1_000;

/// The most bytes of a question.
const LONGEST: usize = 8192;

/// How long a listener rests where the system has no descriptor left.
const REST: Duration = Duration::from_millis(100);

/// Listens on an address.
pub async fn listen(address: SocketAddr) -> io::Result<TcpListener> {
    TcpListener::bind(address).await
}

/// Answers questions until it is dropped.
pub async fn serve(listener: TcpListener, shared: Arc<Shared>) {
    let (mut open, pace) = (VecDeque::new(), Pace::new(A_SECOND, AT_ONCE as u32));
    loop {
        match listener.accept().await {
            Ok((stream, _)) => {
                make_room(&mut open);
                open.push_back(tokio::spawn(answer_in_time(stream, Arc::clone(&shared))));
                pace.pause().await;
            }
            Err(fault) => {
                warn!("nobody is told figures: {fault}");
                sleep(REST).await;
            }
        }
    }
}

/// Ends the oldest connection where there are as many as may be.
fn make_room(open: &mut VecDeque<JoinHandle<()>>) {
    open.retain(|one| !one.is_finished());
    if open.len() == AT_ONCE {
        open.pop_front().iter().for_each(JoinHandle::abort);
    }
}

async fn answer_in_time(stream: TcpStream, shared: Arc<Shared>) {
    match timeout(TIME, answer(stream, &shared)).await {
        Ok(Ok(())) => {}
        Ok(Err(fault)) => debug!("figures: {fault}"),
        Err(_) => debug!("figures: too slow"),
    }
}

async fn answer(mut stream: TcpStream, shared: &Shared) -> io::Result<()> {
    let asked = timeout(ASKING, question(&mut stream)).await.map_err(|_| io::ErrorKind::TimedOut)??;
    let (line, text) = if !asked.starts_with(b"GET /metrics ") {
        ("404 Not Found", "ask for /metrics\n".to_string())
    } else if !names_this_machine(&asked, stream.local_addr()?.port()) {
        ("403 Forbidden", "ask for 127.0.0.1, [::1] or localhost, with the port\n".to_string())
    } else {
        ("200 OK", text_of(&status(shared), &shared.figures.times))
    };
    let head = format!(
        "HTTP/1.1 {line}\r\nContent-Type: text/plain; version=0.0.4\r\nContent-Length: {}\r\nConnection: close\r\n\r\n",
        text.len()
    );
    stream.write_all((head + &text).as_bytes()).await?;
    stream.shutdown().await
}

/// A question with all of its head, or as much as comes.
async fn question(stream: &mut TcpStream) -> io::Result<Vec<u8>> {
    let mut asked = Vec::new();
    let mut part = [0; 1024];
    while !asked.windows(4).any(|it| it == b"\r\n\r\n") && asked.len() < LONGEST {
        match stream.read(&mut part).await? {
            0 => break,
            count => asked.extend_from_slice(&part[..count]),
        }
    }
    Ok(asked)
}

/// Whether a question is for an address of this machine alone. By another name a page of the web would have a browser ask, once
/// that name leads here.
fn names_this_machine(asked: &[u8], port: u16) -> bool {
    let text = String::from_utf8_lossy(asked);
    let head = text.split("\r\n\r\n").next().unwrap_or("");
    let hosts = head.split("\r\n").skip(1).filter_map(|line| line.split_once(':'));
    let mut hosts = hosts.filter(|(name, _)| name.trim().eq_ignore_ascii_case("host")).map(|(_, host)| host.trim());
    match (hosts.next(), hosts.next()) {
        (Some(host), None) => is_of_this_machine(host, port),
        _ => false,
    }
}

/// Whether a host and its port are this one by an address of this machine alone, or by the name that always is.
fn is_of_this_machine(host: &str, port: u16) -> bool {
    let is_name = |name: &str| name.eq_ignore_ascii_case("localhost");
    match (host.parse::<SocketAddr>(), host.rsplit_once(':')) {
        (Ok(address), _) => address.ip().is_loopback() && address.port() == port,
        (Err(_), Some((name, own))) => is_name(name) && own.parse() == Ok(port),
        // The port that isn't named.
        (Err(_), None) => port == 80 && (is_name(host) || host.parse().map_or(false, |ip: Ipv4Addr| ip.is_loopback())),
    }
}

/// All figures in the text format of Prometheus.
fn text_of(status: &Status, times: &Times) -> String {
    let mut text = String::new();
    let counts = [
        ("kfsd_connections_total", "Connections that were taken.", status.connections.taken),
        (
            "kfsd_connections_refused_total",
            "Connections of users that aren't listed or have too many.",
            status.connections.turned_away,
        ),
        (
            "kfsd_connections_too_slow_total",
            "Connections that were ended since a frame or a reply took too long.",
            status.connections.too_slow,
        ),
        ("kfsd_frames_sent_total", "Frames of clients that were given to kfs_serve.", status.frames.sent),
        ("kfsd_frames_answered_total", "Frames of clients that kfs_serve has answered.", status.frames.answered),
        ("kfsd_frames_unknown_total", "Frames of which nobody knows whether they were done.", status.frames.unknown),
        ("kfsd_frames_answered_here_total", "Frames that kfsd has answered itself.", status.frames.answered_here),
        ("kfsd_own_calls_total", "Calls of kfsd itself that were answered.", status.frames.own),
        ("kfsd_moved_blocks_total", "Blocks that were moved to slower tiers.", status.desk.moved_blocks),
        ("kfsd_kfs_serve_starts_total", "How often kfs_serve was started.", status.kfs_serve.starts),
        ("kfsd_log_lines_dropped_total", "Lines of the log that were dropped.", status.log_lines_dropped),
    ];
    for (name, help, value) in counts {
        put(&mut text, name, help, "counter", value);
    }
    let gauges = [
        ("kfsd_kfs_serve_open", "Whether kfs_serve has its files open.", u64::from(status.kfs_serve.is_open)),
        ("kfsd_waiting_calls", "Calls that wait for kfs_serve.", status.kfs_serve.waiting_calls as u64),
        ("kfsd_moment", "The moment.", status.desk.moment),
        ("kfsd_leases", "Leases that are held.", status.desk.leases as u64),
        ("kfsd_wanted_leases", "Leases that another client wants.", status.desk.wanted_leases as u64),
    ];
    for (name, help, value) in gauges {
        put(&mut text, name, help, "gauge", value);
    }
    if let Some(volume) = &status.volume {
        put(&mut text, "kfsd_leads", "Whether this kfsd leads its volume.", "gauge", u64::from(volume.leads));
        put(&mut text, "kfsd_next_group", "The number of the next group of the volume.", "gauge", volume.next_group);
    }
    put_users(&mut text, status, "kfsd_user_connections", "Connections of a user.", |user| user.connections.into());
    put_users(&mut text, status, "kfsd_user_blocks", "Blocks that the files of a user take.", |user| user.blocks);
    put_times(&mut text, times);
    text
}

// Nothing is refused where a String is written to, here and below.
fn put(text: &mut String, name: &str, help: &str, kind: &str, value: u64) {
    let _ = write!(text, "# HELP {name} {help}\n# TYPE {name} {kind}\n{name} {value}\n");
}

fn put_users(text: &mut String, status: &Status, name: &str, help: &str, value: impl Fn(&UserStatus) -> u64) {
    let _ = write!(text, "# HELP {name} {help}\n# TYPE {name} gauge\n");
    for user in &status.user {
        let _ = writeln!(text, "{name}{{uid=\"{}\",client=\"{}\"}} {}", user.uid, user.client, value(user));
    }
}

fn put_times(text: &mut String, times: &Times) {
    let name = "kfsd_call_seconds";
    let _ = write!(text, "# HELP {name} From a whole frame to the answer of kfs_serve.\n# TYPE {name} histogram\n");
    for (bound, count) in BOUNDS.iter().zip(times.up_to()) {
        let _ = writeln!(text, "{name}_bucket{{le=\"{}\"}} {count}", Duration::from_micros(*bound).as_secs_f64());
    }
    let (count, sum) = (times.count(), times.sum().as_secs_f64());
    let _ = write!(text, "{name}_bucket{{le=\"+Inf\"}} {count}\n{name}_sum {sum}\n{name}_count {count}\n");
}

#[cfg(test)]
mod tests {
    use super::*;

    #[test]
    fn hosts_are_of_this_machine() {
        for host in ["127.0.0.1:9469", "127.9.9.9:9469", "[::1]:9469", "localhost:9469", "LocalHost:9469"] {
            assert!(is_of_this_machine(host, 9469), "{host}");
        }
        let others =
            ["", "a.example:9469", "127.0.0.1", "localhost", "127.0.0.1:9470", "localhost:80", "127.0.0.1.a.example:9469"];
        for host in others.into_iter().chain(["192.0.2.1:9469", "[2001:db8::1]:9469", "localhost.a.example:9469", ":9469"]) {
            assert!(!is_of_this_machine(host, 9469), "{host}");
        }
        assert!(
            is_of_this_machine("127.0.0.1", 80) && is_of_this_machine("localhost", 80) && !is_of_this_machine("192.0.2.1", 80)
        );
    }

    #[test]
    fn one_host_is_named() {
        let asked = |lines: &str| names_this_machine(format!("GET /metrics HTTP/1.1\r\n{lines}\r\n").as_bytes(), 9469);
        assert!(asked("Accept: */*\r\nhOST: 127.0.0.1:9469\r\n"));
        assert!(!asked("") && !asked("Host: a.example:9469\r\n"));
        assert!(!asked("Host: 127.0.0.1:9469\r\nHost: a.example:9469\r\n"));
        // behind the head it isn't one
        assert!(!asked("Accept: */*\r\n\r\nHost: 127.0.0.1:9469\r\n"));
    }
}
