//! The same files through the kernel: each call opens one, writes it and closes it, or takes it out.

use anyhow::{bail, Result};
use std::fs::{remove_file, OpenOptions};
use std::io::Write;
use std::path::{Path, PathBuf};
use std::thread;
use std::time::{Duration, Instant};

/// How many files a thread works on.
const FILES: usize = 4;

/// Has so many threads do so for a while. Tells how long each call took, in microseconds.
pub fn run(folder: &Path, count: u32, time: Duration) -> Result<Vec<u32>> {
    let end = Instant::now() + time;
    let started = (0..count).map(|at| {
        let folder = folder.to_path_buf();
        thread::Builder::new().stack_size(1 << 17).spawn(move || calls_of(&folder, at, end))
    });
    let running = started.collect::<std::io::Result<Vec<_>>>()?;
    let mut micros = vec![];
    for one in running {
        match one.join() {
            Ok(found) => micros.extend(found?),
            Err(_) => bail!("a thread has failed"),
        }
    }
    Ok(micros)
}

fn calls_of(folder: &Path, at: u32, end: Instant) -> Result<Vec<u32>> {
    let files: Vec<(PathBuf, Vec<u8>)> =
        (0..FILES).map(|slot| (folder.join(format!("c{at}f{slot}")), vec![slot as u8; 100 + 37 * slot])).collect();
    let mut micros = vec![];
    for (path, bytes) in files.iter().cycle() {
        if Instant::now() >= end {
            break;
        }
        for step in 0..4 {
            let began = Instant::now();
            match step {
                0 => OpenOptions::new().write(true).create_new(true).open(path)?.write_all(bytes)?,
                1 | 2 => OpenOptions::new().write(true).open(path)?.write_all(bytes)?,
                _ => remove_file(path)?,
            }
            micros.push(began.elapsed().as_micros() as u32);
        }
    }
    Ok(micros)
}
