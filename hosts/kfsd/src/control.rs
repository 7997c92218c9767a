//! The socket of `kfsctl`: one line that asks, and a text that answers.

use crate::connection::Shared;
use crate::duties::{self, State};
use crate::peer::{is_administrator, uid_of};
use crate::status::{leases, status, users};
use std::io;
use std::sync::Arc;
use std::time::Duration;
use tokio::io::{AsyncBufReadExt, AsyncReadExt, AsyncWriteExt, BufReader};
use tokio::net::UnixStream;
use tokio::time::timeout;
use tracing::debug;

/// How long one question may take.
const TIME: Duration = Duration::from_secs(60);

/// The most bytes of a question.
const LINE: u64 = 64;

/// Where the desk gives no answer.
const NOT_TOLD: &str = "# kfs_serve refuses it, or has ended before it answered\n";

/// Answers one question, where an administrator asks.
pub async fn serve(stream: UnixStream, shared: Arc<Shared>) {
    match timeout(TIME, answer(stream, &shared)).await {
        Ok(Ok(())) => {}
        Ok(Err(fault)) => debug!("control: {fault}"),
        Err(_) => debug!("control: too slow"),
    }
}

async fn answer(mut stream: UnixStream, shared: &Shared) -> io::Result<()> {
    if !is_administrator(uid_of(&stream)?) {
        return stream.write_all(b"# not allowed\n").await;
    }
    let mut line = String::new();
    BufReader::new((&mut stream).take(LINE)).read_line(&mut line).await?;
    let text = match line.as_str() {
        "status\n" => toml::to_string(&status(shared)).unwrap_or_else(|fault| format!("# {fault}\n")),
        "users\n" => users(shared),
        "leases\n" => leases(shared),
        "free\n" => duties::state(shared).await.map_or_else(|| NOT_TOLD.to_string(), |state| free_in(&state)),
        "checkpoint\n" if duties::checkpoint(shared).await => "the journal is begun anew\n".to_string(),
        "checkpoint\n" => NOT_TOLD.to_string(),
        _ => "# unknown\n".to_string(),
    };
    stream.write_all(text.as_bytes()).await
}

/// The free places of each tier, and the rows of the docket.
fn free_in(state: &State) -> String {
    let [first, second, third] = state.free;
    format!(
        "free places of 4,096 bytes: tier 0 has {first}, tier 1 {second}, tier 2 {third}\nrows of the docket: {}\n",
        state.rows
    )
}
