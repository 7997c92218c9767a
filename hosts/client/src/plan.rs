//! A plan, and its bytes (docs/FORMATS.md, "Digest plan").

use crate::bytes::Origin;
use crate::name::Name;
use crate::node::Header;

/// The version that this library writes.
const VERSION: u8 = 2;

/// Where a name leads after the log.
#[derive(Clone, Debug, PartialEq, Eq)]
pub struct NameRow {
    /// The directory of the name.
    pub directory: u32,
    /// The name.
    pub name: Name,
    /// Where it leads; none where it is gone.
    pub number: Option<u32>,
}

/// What a node is after the log.
#[derive(Clone, Copy, Debug, PartialEq, Eq)]
pub struct NodeRow {
    /// The node.
    pub number: u32,
    /// Its header; none where it is gone.
    pub now: Option<Header>,
}

/// Where bytes of a file come from.
#[derive(Clone, Copy, Debug, PartialEq, Eq)]
pub struct Piece {
    /// The file.
    pub number: u32,
    /// The place of the first byte.
    pub start: u64,
    /// How many there are.
    pub length: u64,
    /// Where they come from.
    pub origin: Origin,
}

/// What a log changes: each list ascends, and has a row for each change and for nothing else.
#[derive(Clone, Debug, Default, PartialEq, Eq)]
pub struct Plan {
    /// Names that lead elsewhere.
    pub names: Vec<NameRow>,
    /// Nodes whose header differs.
    pub nodes: Vec<NodeRow>,
    /// Bytes that were put, or made zero.
    pub pieces: Vec<Piece>,
}

impl Plan {
    /// Whether nothing changes.
    pub fn is_empty(&self) -> bool {
        self.names.is_empty() && self.nodes.is_empty() && self.pieces.is_empty()
    }

    /// Its bytes. A log has too few entries for more rows than the head can count.
    pub fn to_bytes(&self) -> Vec<u8> {
        let mut out = b"KPLN".to_vec();
        out.push(VERSION);
        out.extend_from_slice(&(self.names.len() as u16).to_be_bytes());
        out.extend_from_slice(&(self.nodes.len() as u16).to_be_bytes());
        out.extend_from_slice(&(self.pieces.len() as u32).to_be_bytes());
        for row in &self.names {
            out.extend_from_slice(&row.directory.to_be_bytes());
            row.name.spell(&mut out);
            out.extend_from_slice(&row.number.unwrap_or(0).to_be_bytes());
        }
        self.nodes.iter().for_each(|row| spell_node(row, &mut out));
        self.pieces.iter().for_each(|piece| spell_piece(piece, &mut out));
        out
    }
}

fn spell_node(row: &NodeRow, out: &mut Vec<u8>) {
    out.extend_from_slice(&row.number.to_be_bytes());
    match row.now {
        None => out.push(0),
        Some(header) => {
            out.push(header.kind as u8 + 1);
            out.extend_from_slice(&header.mode.to_be_bytes());
            out.extend_from_slice(&header.uid.to_be_bytes());
            out.extend_from_slice(&header.gid.to_be_bytes());
            out.extend_from_slice(&header.links.to_be_bytes());
            out.extend_from_slice(&header.size.to_be_bytes());
        }
    }
}

fn spell_piece(piece: &Piece, out: &mut Vec<u8>) {
    out.extend_from_slice(&piece.number.to_be_bytes());
    out.extend_from_slice(&piece.start.to_be_bytes());
    out.extend_from_slice(&piece.length.to_be_bytes());
    match piece.origin {
        Origin::Zero => out.push(0),
        Origin::Payload { entry, place } => {
            out.push(1);
            out.extend_from_slice(&entry.to_be_bytes());
            out.extend_from_slice(&place.to_be_bytes());
        }
    }
}
