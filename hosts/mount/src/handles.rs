//! What is open: files, and lists of names that are being read.

use crate::attributes::Shape;
use kfs_client::Name;
use std::collections::{HashMap, HashSet};

/// A file that is open.
#[derive(Debug, Default)]
struct OpenFile {
    /// How often.
    count: u32,
    /// The mode that it gets later. Until then its owner may read and write it, so that what is open stays so.
    late_mode: Option<u16>,
    /// Whether it has got it, since all was handed in.
    has_late_mode: bool,
    /// The name that it has got in place of its last one. It goes with the last close.
    hidden: Option<(u32, Name)>,
    /// What it was when it was opened last.
    seen: Option<Seen>,
}

/// A file as it was when it was opened: whoever has it open reads this once another client has removed it.
#[derive(Clone, Debug, PartialEq, Eq)]
pub struct Seen {
    pub shape: Shape,
    /// All of its bytes, where they are few.
    pub bytes: Option<Vec<u8>>,
}

/// What the names of hidden files begin with.
pub const HIDDEN: &str = ".kfs-hidden-";

/// How many bytes of open files are kept at most.
const SEEN: usize = 1 << 24;

/// What is to be done when a file was closed for the last time.
#[derive(Debug, Default, PartialEq, Eq)]
pub struct Closed {
    pub late_mode: Option<u16>,
    pub hidden: Option<(u32, Name)>,
}

/// Names of a directory that are read.
#[derive(Debug, Default)]
pub struct List {
    pub names: Vec<(Name, u32)>,
    /// Since when there was a lease on the directory.
    pub since: Option<u64>,
}

/// All that is open.
#[derive(Debug, Default)]
pub struct Handles {
    /// By the ids of nodes.
    files: HashMap<u64, OpenFile>,
    /// How many bytes of them are kept.
    seen: usize,
    /// The handles by which something was written since they were flushed.
    written: HashSet<u64>,
    lists: HashMap<u64, List>,
    next: u64,
    hidden_count: u64,
}

impl Handles {
    pub fn open(&mut self, id: u64) {
        self.files.entry(id).or_default().count += 1;
    }

    /// A file is closed once. What is left to do, where that was the last time.
    pub fn close(&mut self, id: u64) -> Closed {
        match self.files.get_mut(&id) {
            Some(file) if file.count > 1 => {
                file.count -= 1;
                Closed::default()
            }
            _ => {
                let file = self.files.remove(&id).unwrap_or_default();
                self.seen -= length(&file.seen);
                Closed { late_mode: file.late_mode.filter(|_| !file.has_late_mode), hidden: file.hidden }
            }
        }
    }

    /// Keeps what a file is that is opened now. Where there is no more room for its bytes they aren't kept.
    pub fn see(&mut self, id: u64, shape: Shape, bytes: Option<Vec<u8>>) {
        if let Some(file) = self.files.get_mut(&id) {
            self.seen -= length(&file.seen);
            let room = SEEN - self.seen;
            file.seen = Some(Seen { shape, bytes: bytes.filter(|bytes| bytes.len() <= room) });
            self.seen += length(&file.seen);
        }
    }

    /// What a file was when it was opened.
    pub fn seen(&self, id: u64) -> Option<&Seen> {
        self.files.get(&id)?.seen.as_ref()
    }

    /// Something was written by this handle.
    pub fn note_written(&mut self, handle: u64) {
        self.written.insert(handle);
    }

    /// Whether something was written by this handle since this was asked last.
    pub fn take_written(&mut self, handle: u64) -> bool {
        self.written.remove(&handle)
    }

    pub fn is_open(&self, id: u64) -> bool {
        self.files.contains_key(&id)
    }

    pub fn is_hidden(&self, id: u64) -> bool {
        self.files.get(&id).map_or(false, |file| file.hidden.is_some())
    }

    /// The mode that an open file gets later, if it has another one now.
    pub fn late_mode(&self, id: u64) -> Option<u16> {
        self.files.get(&id)?.late_mode
    }

    pub fn set_late_mode(&mut self, id: u64, mode: Option<u16>) {
        if let Some(file) = self.files.get_mut(&id) {
            (file.late_mode, file.has_late_mode) = (mode, false);
        }
    }

    /// The files that don't have their modes yet.
    pub fn late_modes(&self) -> Vec<(u64, u16)> {
        let late = self.files.iter().filter(|(_, file)| !file.has_late_mode);
        late.filter_map(|(id, file)| Some((*id, file.late_mode?))).collect()
    }

    /// A file has got its late mode, or hasn't any more.
    pub fn note_late_mode(&mut self, id: u64, has_it: bool) {
        if let Some(file) = self.files.get_mut(&id) {
            file.has_late_mode = has_it;
        }
    }

    /// The late mode that an open file has got.
    pub fn mode_had(&self, id: u64) -> Option<u16> {
        self.files.get(&id).filter(|file| file.has_late_mode)?.late_mode
    }

    /// Whether a name is that of an open file that is hidden.
    pub fn has_hidden(&self, directory: u32, name: &Name) -> bool {
        let is_it = |hidden: &(u32, Name)| hidden.0 == directory && hidden.1 == *name;
        self.files.values().any(|file| file.hidden.as_ref().map_or(false, is_it))
    }

    pub fn hide(&mut self, id: u64, directory: u32, name: Name) {
        if let Some(file) = self.files.get_mut(&id) {
            file.hidden = Some((directory, name));
        }
    }

    /// The next text of a name for a file that is hidden.
    pub fn hidden_name(&mut self, number: u32) -> String {
        self.hidden_count += 1;
        format!("{HIDDEN}{number}-{}-{}", std::process::id(), self.hidden_count)
    }

    /// Keeps a list of names while it is read. Returns its handle.
    pub fn open_list(&mut self, list: List) -> u64 {
        self.next += 1;
        self.lists.insert(self.next, list);
        self.next
    }

    pub fn list(&self, handle: u64) -> &[(Name, u32)] {
        self.lists.get(&handle).map_or(&[], |list| &list.names)
    }

    /// Since when a lease on the directory was held when the list was made.
    pub fn list_since(&self, handle: u64) -> Option<u64> {
        self.lists.get(&handle)?.since
    }

    pub fn close_list(&mut self, handle: u64) {
        self.lists.remove(&handle);
    }
}

fn length(seen: &Option<Seen>) -> usize {
    seen.as_ref().and_then(|seen| seen.bytes.as_ref()).map_or(0, Vec::len)
}

#[cfg(test)]
mod tests {
    use super::*;
    use crate::attributes::Form;
    use kfs_client::{Header, Kind};

    #[test]
    fn what_is_left_comes_with_the_last_close() {
        let mut handles = Handles::default();
        handles.open(5);
        handles.open(5);
        handles.set_late_mode(5, Some(0o400));
        assert_eq!(handles.close(5), Closed::default());
        assert_eq!(handles.close(5).late_mode, Some(0o400));
        assert!(!handles.is_open(5));
    }

    #[test]
    fn few_bytes_of_open_files_are_kept() {
        let mut handles = Handles::default();
        let header = Header { kind: Kind::File, mode: 0o644, uid: 1, gid: 2, links: 1, size: 3 };
        let shape = Shape { header, form: Form::Plain };
        (5..7).for_each(|id| handles.open(id));
        handles.see(5, shape, Some(vec![0; SEEN - 3]));
        handles.see(6, shape, Some(vec![1; 4]));
        assert!(handles.seen(5).unwrap().bytes.is_some() && handles.seen(6).unwrap().bytes.is_none());
        handles.see(5, shape, Some(vec![2; 3]));
        handles.see(6, shape, Some(vec![1; 4]));
        assert_eq!(handles.seen(6).unwrap().bytes, Some(vec![1; 4]));
        (5..7).for_each(|id| drop(handles.close(id)));
        assert_eq!((handles.seen, handles.seen(5)), (0, None));
    }
}
