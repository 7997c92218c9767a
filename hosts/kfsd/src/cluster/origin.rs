//! What a volume was begun with, as it stands in etcd. All members begin their desks so.

use crate::bytes::Bytes;
use crate::users::User;
use std::fs::File;
use std::io::{self, ErrorKind, Read};

/// What is the same for all members of a volume, for good.
#[derive(Clone, Debug, PartialEq, Eq)]
pub struct Origin {
    /// A random number. Another volume of the same name has another one.
    pub volume: u64,
    /// How many blocks each tier has.
    pub tiers: [u32; 3],
    /// The lines of the clients.
    pub clients: String,
}

/// A number that nobody else takes.
pub fn random() -> io::Result<u64> {
    let mut bytes = [0; 8];
    File::open("/dev/urandom")?.read_exact(&mut bytes)?;
    Ok(u64::from_be_bytes(bytes))
}

fn take(from: &mut impl Read, count: usize) -> io::Result<Vec<u8>> {
    let mut bytes = vec![0; count];
    from.read_exact(&mut bytes)?;
    Ok(bytes)
}

/// The client of a row of a state, and of its groups.
fn client_of(row: &[u8], groups: &[u8]) -> Option<User> {
    let mut row = Bytes(row);
    let (client, uid, gid) = (row.word()?, row.word()?, row.word()?);
    let (privileged, grant) = (row.byte()? == 1, [row.word()?, row.word()?]);
    let groups = groups.chunks(4).filter_map(|group| Bytes(group).word()).collect();
    Some(User { uid, gid, client, groups, privileged, grant })
}

impl Origin {
    /// That of a volume that isn't there yet.
    pub fn new(tiers: [u32; 3], clients: &str) -> io::Result<Origin> {
        Ok(Origin { volume: random()?, tiers, clients: clients.to_string() })
    }

    /// That of a volume that begins with a state, which is read from its front.
    pub fn of_state(mut from: impl Read) -> io::Result<Origin> {
        let head = take(&mut from, 21)?;
        let mut counts = Bytes(&head[13..]);
        let (count, leases) = (counts.word().unwrap_or(0), counts.word().unwrap_or(0));
        let mut clients = String::new();
        for _ in 0..count {
            let row = take(&mut from, 22)?;
            let groups = take(&mut from, 4 * usize::from(row[21]))?;
            clients += &client_of(&row, &groups).ok_or(ErrorKind::InvalidData)?.line();
            clients.push('\n');
        }
        io::copy(&mut from.by_ref().take(17 * u64::from(leases)), &mut io::sink())?;
        let image = take(&mut from, 17)?;
        let mut sizes = Bytes(&image[5..]);
        let tiers = [(); 3].map(|()| sizes.word().unwrap_or(0));
        Origin::new(tiers, &clients)
    }

    /// Its text.
    pub fn text(&self) -> String {
        let [first, second, third] = self.tiers;
        format!("{:016x} {first} {second} {third}\n{}", self.volume, self.clients)
    }

    /// The origin that a text is; none where it is none.
    pub fn of(text: &str) -> Option<Origin> {
        let (line, clients) = text.split_once('\n')?;
        let (volume, tiers) = line.split_once(' ')?;
        let tiers: Vec<u32> = tiers.split(' ').map(str::parse).collect::<Result<_, _>>().ok()?;
        let volume = u64::from_str_radix(volume, 16).ok()?;
        Some(Origin { volume, tiers: tiers.try_into().ok()?, clients: clients.to_string() })
    }
}

#[cfg(test)]
mod tests {
    use super::*;

    #[test]
    fn a_state_says_what_its_volume_has() {
        let mut state = b"KDSK\x01".to_vec();
        state.extend_from_slice(&[0, 0, 0, 0, 0, 0, 0, 5, 0, 0, 0, 2, 0, 0, 0, 1]);
        state.extend_from_slice(&[0, 0, 0, 7, 0, 0, 3, 232, 0, 0, 3, 233, 0, 0, 0, 0, 2, 0, 0, 0, 99, 0]);
        state.extend_from_slice(&[0, 0, 0, 8, 0, 0, 0, 1, 0, 0, 0, 2, 1, 0, 0, 0, 3, 0, 0, 0, 4, 2, 0, 0, 0, 5, 0, 0, 1, 0]);
        state.extend_from_slice(&[0; 17]);
        state.extend_from_slice(b"KIMG\x02\0\0\0\x04\0\0\0\x10\0\x01\0\0");
        let origin = Origin::of_state(&state[..]).unwrap();
        assert_eq!(origin.tiers, [4, 16, 65_536]);
        assert_eq!(origin.clients, "client 7 1000 1001 0 2 99\nclient 8 1 2 1 3 4 5 256\n");
        for end in 0..state.len() {
            assert!(Origin::of_state(&state[..end]).is_err(), "{end}");
        }
    }

    #[test]
    fn an_origin_is_read_again() {
        let origin = Origin::new([4, 16, 64], "client 7 1000 1000 0 2 99\n").unwrap();
        assert_eq!(Origin::of(&origin.text()), Some(origin.clone()));
        assert_ne!(Origin::new([4, 16, 64], "").unwrap().volume, origin.volume);
        for wrong in ["", "1 4 16\n", "1 4 16 64", "x 4 16 64\n", "1 4 16 64 2\n"] {
            assert_eq!(Origin::of(wrong), None, "{wrong}");
        }
    }
}
