//! A log that couldn't be handed in before its process ended, as the bytes of a file. A later session of the client takes its
//! entries again, over the tree as it is then.

use crate::desk::Desk;
use crate::draft::Draft;
use crate::entry::Entry;
use crate::failure::{Failure, Lost};
use crate::log::Log;
use crate::session::Session;
use std::collections::HashMap;

const MAGIC: &[u8; 8] = b"KFSLEFT1";
/// How many bytes stand behind it: the number of the log's last call, and how many nodes are meant.
const HEAD: usize = 12;
/// How many bytes tell which node is meant by a number.
const MEANT: usize = 12;

/// What is left of a session.
#[derive(Clone, Debug)]
pub struct Leftover {
    client: u32,
    /// The number under which the log was handed in, where nobody knows whether it was done; else 0.
    call: u64,
    /// When nodes were made that the log changes, as far as that was known.
    meant: Vec<(u32, u64)>,
    log: Log,
}

impl Leftover {
    /// The log of a draft, unless it is empty.
    pub(crate) fn of(draft: &Draft, call: u64) -> Option<Leftover> {
        let meant = draft.meant().into_iter().collect();
        (!draft.log().is_empty()).then(|| Leftover { client: draft.client().number, call, meant, log: draft.log().clone() })
    }

    /// Its bytes.
    pub fn to_bytes(&self) -> Vec<u8> {
        let mut bytes = MAGIC.to_vec();
        bytes.extend_from_slice(&self.call.to_be_bytes());
        // A log changes at most as many nodes as it has entries, and a directory more for each.
        bytes.extend_from_slice(&(self.meant.len() as u32).to_be_bytes());
        for (number, born) in &self.meant {
            bytes.extend_from_slice(&number.to_be_bytes());
            bytes.extend_from_slice(&born.to_be_bytes());
        }
        bytes.extend_from_slice(self.log.as_bytes());
        bytes
    }

    /// What these bytes are, if they are what was left.
    pub fn of_bytes(bytes: &[u8]) -> Option<Leftover> {
        let rest = bytes.strip_prefix(MAGIC)?;
        let call = u64::from_be_bytes(rest.get(..8)?.try_into().ok()?);
        let count = u32::from_be_bytes(rest.get(8..HEAD)?.try_into().ok()?) as usize;
        let length = count.checked_mul(MEANT).filter(|length| *length <= rest.len() - HEAD)?;
        let (meant, log) = rest[HEAD..].split_at(length);
        let one = |bytes: &[u8]| {
            let (number, born) = bytes.split_at(4);
            Some((u32::from_be_bytes(number.try_into().ok()?), u64::from_be_bytes(born.try_into().ok()?)))
        };
        let meant = meant.chunks(MEANT).map(one).collect::<Option<Vec<_>>>()?;
        let (client, log) = Log::read(log)?;
        Some(Leftover { client, call, meant, log })
    }

    /// The client whose log it is.
    pub fn client(&self) -> u32 {
        self.client
    }

    /// How many entries its log has.
    pub fn count(&self) -> usize {
        self.log.len()
    }
}

impl<D: Desk> Session<D> {
    /// What is left in the log, for a later session.
    pub fn leftover(&self) -> Option<Leftover> {
        let call = if self.is_uncertain { self.desk.last_call() } else { None };
        Leftover::of(&self.draft, call.unwrap_or(0))
    }

    /// Takes the entries of a log that was left into this one, and hands them in. Returns those that can't be done any more. New
    /// nodes get other numbers where theirs were given since.
    pub fn take_leftover(&mut self, left: &Leftover) -> Result<Vec<Lost>, Failure> {
        if left.call != 0 && self.desk.was_done(left.call)? {
            return Ok(Vec::new());
        }
        let (mut lost, mut renumbered) = (Vec::new(), HashMap::new());
        for entry in left.log.entries() {
            left.meant.iter().for_each(|(number, born)| self.mean(*number, *born));
            let mut entry = entry.with_numbers(|number| renumbered.get(&number).copied().unwrap_or(number));
            if let Entry::Create { number, .. } = &mut entry {
                let new = self.number_like(*number)?;
                if new != *number {
                    renumbered.insert(*number, new);
                    *number = new;
                }
            }
            match self.take_again(&entry) {
                Err(Failure::Entry { fault, .. }) => {
                    let path = format!("node {}", entry.number());
                    lost.push(Lost { calls: self.last_call()..=self.last_call(), entry, path, fault });
                }
                taken => taken?,
            }
        }
        self.sync_patiently()?;
        Ok(lost)
    }
}

#[cfg(test)]
mod tests {
    use super::*;
    use crate::client::Client;
    use crate::entry::Kind;
    use crate::memory::Memory;
    use crate::name::Name;
    use crate::session::Options;

    fn client() -> Client {
        Client { number: 7, uid: 1000, gid: 1000, groups: vec![], is_privileged: false, grant: [2, 99] }
    }

    #[test]
    fn a_log_that_is_left_is_done_later() {
        let name = |text: &str| Name::new(text.as_bytes()).unwrap();
        let mut before = Session::new(Memory::new(client()), client(), Options::default());
        let directory = before.create(1, &name("d"), Kind::Directory, 0o755).unwrap();
        let file = before.create(directory, &name("f"), Kind::File, 0o644).unwrap();
        before.write(file, 3, b"abc").unwrap();
        before.unlink(1, &name("gone"), Kind::File).unwrap_err();
        let bytes = before.leftover().unwrap().to_bytes();
        assert!(Leftover::of_bytes(&bytes[..bytes.len() - 1]).is_none() && Leftover::of_bytes(&bytes[1..]).is_none());
        let left = Leftover::of_bytes(&bytes).unwrap();
        assert_eq!((left.client(), left.count(), left.to_bytes() == bytes), (7, 3, true));
        let mut later = Session::new(Memory::new(client()), client(), Options::default());
        // Their numbers were given meanwhile.
        for text in ["x", "y", "z"] {
            later.create(1, &name(text), Kind::File, 0o644).unwrap();
        }
        assert!(later.take_leftover(&left).unwrap().is_empty());
        let file = later.walk(b"d/f").unwrap();
        assert_eq!((later.read(file, 0, 9).unwrap(), later.leftover().is_none()), (b"\0\0\0abc".to_vec(), true));
        // The names are taken now.
        let lost = later.take_leftover(&left).unwrap();
        assert_eq!(lost.len(), 3);
    }
}
