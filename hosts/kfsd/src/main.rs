//! The daemon.

#![forbid(unsafe_code)]

use clap::Parser;
use kfsd::log::Log;
use std::io::Write;
use std::path::PathBuf;
use std::process::ExitCode;
use tokio::runtime::Builder;
use tracing::{error, Level};

/// Has many processes of many users come to one desk.
#[derive(Debug, Parser)]
#[command(version)]
struct Words {
    /// The configuration (docs/KFSD.md).
    #[arg(long)]
    config: PathBuf,
    /// Begins the volume of the configuration with the desk in this folder, and ends (docs/CLUSTER.md).
    #[arg(long)]
    begin_with: Option<PathBuf>,
    /// Tells more.
    #[arg(long)]
    verbose: bool,
}

/// How many tasks go on one behind another before sockets and pipes are looked at. One user's connections may be many tasks.
const TASKS: u32 = 8;

fn main() -> ExitCode {
    let words = Words::parse();
    // One thread waits for sockets and pipes and uses them. With several, tokio 1.24 may miss that one has become ready: it numbers
    // its waits modulo 256, and where an event has the number of the one before, what a short write takes back is the new one.
    match Builder::new_current_thread().enable_all().event_interval(TASKS).build() {
        Ok(runtime) => runtime.block_on(run_told(&words)),
        Err(fault) => {
            let _ = writeln!(std::io::stderr(), "kfsd can't begin: {fault}");
            ExitCode::FAILURE
        }
    }
}

/// Runs, and tells its log.
async fn run_told(words: &Words) -> ExitCode {
    let level = if words.verbose { Level::DEBUG } else { Level::INFO };
    let log = match Log::begin() {
        Ok(log) => log,
        Err(fault) => {
            let _ = writeln!(std::io::stderr(), "no log can be told: {fault}");
            return ExitCode::FAILURE;
        }
    };
    let told = tracing_subscriber::fmt().with_max_level(level).with_writer(log.clone()).with_target(false);
    // It would tell by itself what it can't tell, and end where that can't be written either.
    told.log_internal_errors(false).init();
    Log::tell_panics();
    let status = run(words).await;
    log.end().await;
    status
}

async fn run(words: &Words) -> ExitCode {
    let ended = match &words.begin_with {
        Some(from) => kfsd::daemon::begin_with(&words.config, from).await,
        None => kfsd::daemon::run(&words.config).await,
    };
    match ended {
        Ok(()) => ExitCode::SUCCESS,
        Err(fault) => {
            error!("{fault}");
            ExitCode::from(fault.status())
        }
    }
}
