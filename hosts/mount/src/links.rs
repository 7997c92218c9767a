//! Symbolic links as files: the form that Linux's cifs client writes (`mfsymlinks`). The desk knows of none.
//!
//! Such a file has 1,067 bytes: `XSym`, the length of the target, its MD5 sum, the target, and spaces.

use std::fmt::Write as _;

/// How many bytes such a file has, and the most of a target.
pub const LENGTH: u64 = 1067;
const TARGET_LIMIT: usize = 1024;
/// How many bytes stand before the target.
const HEAD: usize = 43;

/// The bytes of a link to this target; none where it is empty, too long, or has a zero byte.
pub fn link_bytes(target: &[u8]) -> Option<Vec<u8>> {
    if target.is_empty() || target.len() > TARGET_LIMIT || target.contains(&0) {
        return None;
    }
    let mut bytes = format!("XSym\n{:04}\n{}\n", target.len(), hex(&md5(target))).into_bytes();
    bytes.extend_from_slice(target);
    if target.len() < TARGET_LIMIT {
        bytes.push(b'\n');
    }
    bytes.resize(LENGTH as usize, b' ');
    Some(bytes)
}

/// The target of a link of these bytes, if they are those of one.
pub fn target_of(bytes: &[u8]) -> Option<Vec<u8>> {
    let length: usize = std::str::from_utf8(bytes.get(5..9)?).ok()?.parse().ok()?;
    let target = bytes.get(HEAD..HEAD.checked_add(length)?)?;
    let is_one = link_bytes(target)? == bytes;
    is_one.then(|| target.to_vec())
}

fn hex(bytes: &[u8]) -> String {
    bytes.iter().fold(String::new(), |mut text, byte| {
        // Nothing is refused where a String is written to.
        let _ = write!(text, "{byte:02x}");
        text
    })
}

/// The MD5 sum of a message (RFC 1321).
fn md5(message: &[u8]) -> [u8; 16] {
    let mut padded = message.to_vec();
    padded.push(0x80);
    padded.resize((message.len() + 9 + 63) / 64 * 64 - 8, 0);
    padded.extend_from_slice(&(message.len() as u64 * 8).to_le_bytes());
    let mut state = [0x6745_2301, 0xefcd_ab89, 0x98ba_dcfe, 0x1032_5476];
    padded.chunks(64).for_each(|chunk| mix(&mut state, chunk));
    let mut sum = [0; 16];
    for (place, word) in sum.chunks_mut(4).zip(state) {
        place.copy_from_slice(&word.to_le_bytes());
    }
    sum
}

/// How far each step of a round turns.
const TURNS: [[u32; 4]; 4] = [[7, 12, 17, 22], [5, 9, 14, 20], [4, 11, 16, 23], [6, 10, 15, 21]];

fn mix(state: &mut [u32; 4], chunk: &[u8]) {
    let word = |at: usize| u32::from_le_bytes([chunk[at * 4], chunk[at * 4 + 1], chunk[at * 4 + 2], chunk[at * 4 + 3]]);
    let [mut a, mut b, mut c, mut d] = *state;
    for step in 0..64usize {
        let (mixed, at) = match step / 16 {
            0 => (b & c | !b & d, step),
            1 => (d & b | !d & c, (5 * step + 1) % 16),
            2 => (b ^ c ^ d, (3 * step + 5) % 16),
            _ => (c ^ (b | !d), 7 * step % 16),
        };
        // The constants are the first 32 bits of sines, as the algorithm has them.
        let constant = (((step + 1) as f64).sin().abs() * 4_294_967_296.0) as u32;
        let sum = a.wrapping_add(mixed).wrapping_add(constant).wrapping_add(word(at));
        (a, d, c) = (d, c, b);
        b = b.wrapping_add(sum.rotate_left(TURNS[step / 16][step % 4]));
    }
    for (old, new) in state.iter_mut().zip([a, b, c, d]) {
        *old = old.wrapping_add(new);
    }
}

#[cfg(test)]
mod tests {
    use super::*;

    #[test]
    fn sums_are_those_of_the_algorithm() {
        assert_eq!(hex(&md5(b"")), "d41d8cd98f00b204e9800998ecf8427e");
        assert_eq!(hex(&md5(b"message digest")), "f96b697d7cb7938d525a2f31aaf161d0");
        assert_eq!(hex(&md5(&b"1234567890".repeat(8))), "57edf4a22be3c955ac49da2e2107b67a");
    }

    #[test]
    fn links_are_read_as_they_are_written() {
        for target in [b"a".as_slice(), b"../b", &[b'x'; 1024], b"with\nline"] {
            let bytes = link_bytes(target).unwrap();
            assert_eq!(bytes.len() as u64, LENGTH);
            assert_eq!(target_of(&bytes).unwrap(), target);
            let mut wrong = bytes.clone();
            wrong[20] ^= 1;
            assert_eq!(target_of(&wrong), None);
        }
        assert_eq!(&link_bytes(b"a").unwrap()[..46], b"XSym\n0001\n0cc175b9c0f1b6a831c399e269772661\na\n ");
        assert!(link_bytes(b"").is_none() && link_bytes(&[b'x'; 1025]).is_none());
        assert!(target_of(b"").is_none() && target_of(&[b' '; 1067]).is_none());
    }
}
