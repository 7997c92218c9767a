//! Files with what nobody but a member may know.

use std::fs::File;
use std::io::{self, ErrorKind, Read};
use std::ops::RangeInclusive;
use std::os::unix::fs::MetadataExt;
use std::path::Path;

/// The bytes of a file that nobody but its owner may read or write, where they are as many as may be.
pub fn read(path: &Path, lengths: RangeInclusive<u64>) -> io::Result<Vec<u8>> {
    let wrong = |why: String| io::Error::new(ErrorKind::InvalidData, why);
    let file = File::open(path)?;
    if file.metadata()?.mode() & 0o077 != 0 {
        return Err(wrong("others than its owner may read or write it".to_string()));
    }
    let mut bytes = Vec::new();
    file.take(lengths.end() + 1).read_to_end(&mut bytes)?;
    if !lengths.contains(&(bytes.len() as u64)) {
        return Err(wrong(format!("it has {} to {} bytes", lengths.start(), lengths.end())));
    }
    Ok(bytes)
}

#[cfg(test)]
mod tests {
    use super::*;
    use crate::folder::tests::Room;
    use std::fs;
    use std::os::unix::fs::PermissionsExt;

    #[test]
    fn it_is_its_owners_alone() {
        let room = Room::new("secret");
        let path = room.0.join("secret");
        let put = |bytes: &[u8], mode| {
            fs::write(&path, bytes).unwrap();
            fs::set_permissions(&path, fs::Permissions::from_mode(mode)).unwrap();
        };
        put(&[7; 16], 0o600);
        assert_eq!(read(&path, 16..=20).unwrap(), [7; 16]);
        for mode in [0o640, 0o604, 0o620, 0o602] {
            put(&[7; 16], mode);
            assert!(read(&path, 16..=20).is_err(), "{mode:o}");
        }
        for length in [15, 21, 1000] {
            put(&vec![7; length], 0o600);
            assert!(read(&path, 16..=20).is_err(), "{length}");
        }
        put(&[7; 20], 0o400);
        assert_eq!(read(&path, 16..=20).unwrap(), [7; 20]);
    }
}
