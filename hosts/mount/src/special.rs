//! Sockets and FIFOs as files: the form that Linux's cifs client writes (`sfu`). The desk knows of none.
//!
//! Such a file has 8 bytes. The kernel asks for none of them: what goes through a socket or a FIFO stays in the kernel.

use crate::attributes::{Form, Shape};
use crate::changes::Attributes;
use crate::nodes::number_of;
use crate::sharing::OWNERS;
use crate::volume::Volume;
use kfs_client::{Desk, Header, Kind};
use nix::errno::Errno;
use std::collections::HashMap;

/// How many bytes such a file has.
pub const LENGTH: u64 = 8;
const FIFO: &[u8] = b"LnxFIFO\0";
const SOCKET: &[u8] = b"LnxSOCK\0";

/// The form of a file of these bytes.
pub fn form_of(bytes: &[u8]) -> Form {
    match bytes {
        FIFO => Form::Fifo,
        SOCKET => Form::Socket,
        _ => Form::Plain,
    }
}

/// Which nodes were shown as what. A mode that keeps the owner from reading doesn't make a file of a FIFO that the kernel knows.
#[derive(Debug, Default)]
pub struct Forms {
    of: HashMap<u32, Form>,
}

impl Forms {
    /// Whether a file may have such a form.
    pub fn may_be(header: &Header) -> bool {
        header.size == LENGTH && !header.is_directory()
    }

    /// A node has this form.
    pub fn note(&mut self, number: u32, form: Form) -> Form {
        match form {
            Form::Plain => self.of.remove(&number),
            _ => self.of.insert(number, form),
        };
        form
    }

    /// The form that a node had when it could be read.
    pub fn known(&self, number: u32) -> Form {
        self.of.get(&number).copied().unwrap_or(Form::Plain)
    }

    /// A node loses a name. Behind its last one the number may be another node's.
    pub fn unlink(&mut self, number: u32, header: &Header) {
        if header.links <= 1 {
            self.of.remove(&number);
        }
    }

    /// A node as it is shown: of a socket and a FIFO no bytes.
    pub fn shape(header: Header, form: Form) -> Shape {
        let size = if form == Form::Plain { header.size } else { 0 };
        Shape { header: Header { size, ..header }, form }
    }
}

/// Makes a socket or a FIFO.
pub fn make<D: Desk>(
    volume: &mut Volume<D>,
    directory: u64,
    name: &[u8],
    form: Form,
    mode: u16,
) -> Result<(u64, Shape), Errno> {
    let bytes = match form {
        Form::Fifo => FIFO,
        Form::Socket => SOCKET,
        Form::Plain | Form::Link => return Err(Errno::EPERM),
    };
    // A log that creates a file writes it, whatever its mode. Its bytes may come into the next log.
    let (id, _) = volume.make(directory, name, Kind::File, mode | OWNERS)?;
    let finished = finish(volume, id, (form, bytes), mode);
    if finished.is_err() {
        // Nobody has asked for a file.
        let _ = volume.unlink(directory, name, Kind::File);
    }
    finished.map(|shape| (id, shape))
}

/// Makes a new file what it is to be.
fn finish<D: Desk>(volume: &mut Volume<D>, id: u64, (form, bytes): (Form, &[u8]), mode: u16) -> Result<Shape, Errno> {
    volume.write(id, 0, bytes, 0)?;
    volume.forms.note(number_of(id), form);
    if mode & OWNERS != OWNERS {
        volume.set_attributes(id, &Attributes { mode: Some(mode.into()), ..Attributes::default() })?;
    }
    volume.shape(id)
}

#[cfg(test)]
mod tests {
    use super::*;
    use kfs_client::memory::Memory;
    use kfs_client::{Client, Options, Session};

    fn volume() -> Volume<Memory> {
        let client = Client { number: 7, uid: 1000, gid: 1000, groups: vec![], is_privileged: false, grant: [2, 99] };
        Volume::new(Session::new(Memory::new(client.clone()), client, Options::default()))
    }

    #[test]
    fn a_fifo_and_a_socket_are_shown() {
        let mut volume = volume();
        for (name, form) in [(b"f", Form::Fifo), (b"s", Form::Socket)] {
            let (number, shape) = make(&mut volume, 1, name, form, 0o640).unwrap();
            assert_eq!((shape.form, shape.header.size, shape.header.mode), (form, 0, 0o640));
            volume.sync().unwrap();
            assert_eq!(volume.lookup(1, name).unwrap(), (number, shape));
            assert_eq!(volume.read(number, 0, 99).unwrap().len() as u64, LENGTH);
            assert_eq!(make(&mut volume, 1, name, form, 0o640).unwrap_err(), Errno::EEXIST);
        }
        let (file, _) = volume.create(1, b"a", 0o644).unwrap();
        volume.write(file, 0, b"LnxFIFO.", 0).unwrap();
        assert_eq!(volume.shape(file).unwrap().form, Form::Plain);
        assert_eq!(make(&mut volume, 1, b"d", Form::Link, 0o640).unwrap_err(), Errno::EPERM);
    }

    #[test]
    fn it_stays_what_it_is_where_its_owner_may_not_read() {
        let mut volume = volume();
        let (number, shape) = make(&mut volume, 1, b"f", Form::Fifo, 0o044).unwrap();
        assert_eq!((shape.form, shape.header.mode), (Form::Fifo, 0o044));
        volume.sync().unwrap();
        assert_eq!(volume.shape(number).unwrap().form, Form::Fifo);
        volume.unlink(1, b"f", Kind::File).unwrap();
        // The number may be given anew.
        volume.sync().unwrap();
        let (file, _) = volume.make(1, b"a", Kind::File, 0o644).unwrap();
        volume.write(file, 0, b"8 bytes.", 0).unwrap();
        assert_eq!(volume.shape(file).unwrap().form, Form::Plain);
    }
}
