//! Look-ups over a connection: those that are waited for, and those that are asked for ahead.

use super::{
    look_up_body, put_frame, read_body, AskedAhead, Connection, AHEAD_AT_ONCE, AT_ONCE, FIND, FOUND_LIMIT, NAMES, NAME_ROOM,
};
use crate::name::Name;
use crate::node::Header;
use crate::replies::{found_header, found_in, found_name, found_names, nonsense, Reply, FOUND_BYTES};
use crate::shown::{Ahead, FoundAhead, Shown, Stamp, Unshown};
use std::io;

impl Shown for Connection {
    fn header(&mut self, number: u32) -> Result<Option<Header>, Unshown> {
        let body = self.node_body(number);
        let found = self.look_up(&body)?.unwrap_or_default();
        self.note_stamp(number, &found);
        found_header(&found).ok_or_else(|| nonsense(&body))
    }

    /// They are asked for one behind another, without waiting. Where one isn't told, all are asked for singly.
    fn headers(&mut self, numbers: &[u32]) -> Result<Vec<Option<Header>>, Unshown> {
        let bodies: Vec<_> = numbers.iter().map(|number| self.node_body(*number)).collect();
        let told = self.ask_all(&bodies).ok();
        let mut found = |(reply, number): (Reply, &u32)| match reply {
            Reply::Found(found) => {
                self.note_stamp(*number, &found);
                found_header(&found)
            }
            _ => None,
        };
        let told = told.and_then(|replies| replies.into_iter().zip(numbers).map(&mut found).collect::<Option<Vec<_>>>());
        match told {
            Some(headers) => Ok(headers),
            None => numbers.iter().map(|number| self.header(*number)).collect(),
        }
    }

    fn find(&mut self, directory: u32, name: &Name) -> Result<Option<u32>, Unshown> {
        let mut body = look_up_body(FIND, directory);
        body.extend_from_slice(name.as_bytes());
        match self.look_up(&body)? {
            Some(found) => found_name(&found).ok_or_else(|| nonsense(&body)),
            None => Ok(None),
        }
    }

    fn list(&mut self, directory: u32, behind: Option<&Name>, most: usize) -> Result<Vec<(Name, u32)>, Unshown> {
        let mut names: Vec<(Name, u32)> = Vec::new();
        let mut has_more = true;
        while has_more && names.len() < most {
            let room = most.saturating_sub(names.len()).saturating_mul(NAME_ROOM).min(FOUND_LIMIT);
            let mut body = look_up_body(NAMES, directory);
            body.extend_from_slice(&(room as u32).to_be_bytes());
            if let Some(last) = names.last().map(|(name, _)| name).or(behind) {
                body.extend_from_slice(last.as_bytes());
            }
            let found = match self.look_up(&body)? {
                Some(found) => found_names(&found).ok_or_else(|| nonsense(&body))?,
                None => return Ok(Vec::new()),
            };
            names.extend(found.0);
            has_more = found.1;
        }
        names.truncate(most);
        Ok(names)
    }

    /// More than one look-up finds is asked for at once. The stamp is told behind the bytes: where it is the same node's as before,
    /// they are that node's.
    fn read(&mut self, number: u32, start: u64, most: usize) -> Result<Vec<u8>, Unshown> {
        let mut bytes = Vec::new();
        while bytes.len() < most {
            let counts = (0..AT_ONCE).map(|at| (most - bytes.len()).saturating_sub(at * FOUND_LIMIT).min(FOUND_LIMIT));
            let counts: Vec<usize> = counts.take_while(|count| *count > 0).collect();
            let from = start.saturating_add(bytes.len() as u64);
            let bodies: Vec<_> = (0..).zip(&counts).map(|(at, count)| read_body(number, from, at, *count)).collect();
            for ((found, count), body) in self.read_all(number, &bodies)?.into_iter().zip(&counts).zip(&bodies) {
                let found = found.unwrap_or_else(|| vec![FOUND_BYTES]);
                if found.first() != Some(&FOUND_BYTES) || found.len() > count + 1 {
                    return Err(nonsense(body));
                }
                bytes.extend_from_slice(&found[1..]);
                if found.len() <= *count {
                    return Ok(bytes);
                }
            }
        }
        Ok(bytes)
    }

    fn stamp(&self, number: u32) -> Option<Stamp> {
        self.stamps.get(&number).copied()
    }

    /// At most as many as are let be under way.
    fn ask_ahead(&mut self, some: &[(u64, Ahead)]) -> usize {
        let count = some.len().min(AHEAD_AT_ONCE.saturating_sub(self.ahead.len()));
        if self.line.is_none() || count == 0 {
            return 0;
        }
        if self.send_ahead(&some[..count]).is_err() {
            self.break_off();
        }
        count
    }

    fn told_ahead(&mut self, wait_for: Option<u64>) -> Vec<(u64, FoundAhead)> {
        if !self.ahead.is_empty() && self.take_all_ahead(wait_for).is_err() {
            self.break_off();
        }
        std::mem::take(&mut self.told)
    }
}

impl Connection {
    /// What look-ups of a file's bytes find, and behind them its stamp.
    fn read_all(&mut self, number: u32, bodies: &[Vec<u8>]) -> Result<Vec<Option<Vec<u8>>>, Unshown> {
        let stamped = self.has_stamps.then(|| self.node_body(number));
        let all: Vec<_> = bodies.iter().cloned().chain(stamped).collect();
        if all.len() > 1 {
            let replies = self.ask_all(&all).ok();
            if let Some(replies) = replies.filter(|replies| replies.iter().all(|reply| matches!(reply, Reply::Found(_)))) {
                let mut found = replies.into_iter().map(found_in).collect::<Result<Vec<_>, _>>()?;
                if self.has_stamps {
                    let told = found.pop().flatten().unwrap_or_default();
                    self.note_stamp(number, &told);
                }
                return Ok(found);
            }
        }
        // One behind another, and again where the server has ended.
        let found = self.look_up(&bodies[0])?;
        if self.has_stamps {
            self.header(number)?;
        }
        Ok(vec![found])
    }
}

/// Look-ups that nobody waits for.
impl Connection {
    fn send_ahead(&mut self, some: &[(u64, Ahead)]) -> io::Result<()> {
        let mut frames = Vec::new();
        for (serial, ahead) in some {
            self.number = self.number.wrapping_add(1);
            let body = match *ahead {
                Ahead::Header(number) => self.node_body(number),
                Ahead::Bytes { number, start, most } => read_body(number, start, 0, most as usize),
            };
            put_frame(&mut frames, self.number, self.client, &body);
            self.ahead.push_back(AskedAhead { frame: self.number, serial: *serial, ahead: *ahead });
        }
        self.line()?.send(&frames)
    }

    /// Takes what has come without waiting, and waits for one.
    pub(crate) fn take_all_ahead(&mut self, wait_for: Option<u64>) -> io::Result<()> {
        if let Some(at) = wait_for.and_then(|serial| self.ahead.iter().position(|asked| asked.serial == serial)) {
            self.settle_to(self.ahead.len() - at - 1)?;
        }
        while !self.ahead.is_empty() {
            match self.line()?.next_if_there()? {
                Some((replied, said)) => self.take_ahead(replied, &said, 0)?,
                None => break,
            }
        }
        Ok(())
    }
}
