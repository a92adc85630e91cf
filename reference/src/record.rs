//! The signing record of document 02, E6, with the versions of E7 and E8: its
//! reader, its writer, and the check that a broker makes of it.

use crate::calls::{reconstruct, Answer, Refusal};
use crate::shape::{row_bytes, Shape};

/// The bytes of the first field by the version byte: τ, k, w in one byte each, T in
/// two, the row length in four, from version 2 on level / 8 in one, and in version 3
/// the leaf kind in one. Nothing where the version is unknown.
fn head_bytes(version: u8) -> Option<usize> {
    match version {
        1 => Some(9),
        2 => Some(10),
        3 => Some(11),
        _ => None,
    }
}

/// The version that the writer puts: 3 for Even-Mansour leaves.
fn version_for(shape: &Shape) -> u8 {
    match shape.kind {
        0 => 2,
        _ => 3,
    }
}

/// What a record says: the numbers of its first field, and its other fields,
/// which are parts of the record.
#[derive(Clone, Copy, Debug, PartialEq, Eq)]
pub struct Record<'a> {
    pub shape: Shape,
    pub row_bits: usize,
    pub iv: &'a [u8],
    pub challenge: &'a [u8],
    pub corrections: &'a [u8],
    pub opening: &'a [u8],
    pub commitment: &'a [u8],
}

/// The number that these bytes write, the greatest first.
fn number(bytes: &[u8]) -> usize {
    bytes
        .iter()
        .fold(0, |sum, byte| 256 * sum + usize::from(*byte))
}

/// Goes over a record: holds what is still to be read.
struct Reader<'a> {
    rest: &'a [u8],
}

impl<'a> Reader<'a> {
    fn take(&mut self, n: usize) -> Option<&'a [u8]> {
        let (taken, rest) = (self.rest.get(..n)?, self.rest.get(n..)?);
        self.rest = rest;
        Some(taken)
    }

    /// The version byte: the length of the first field.
    fn version(&mut self) -> Result<usize, Refusal> {
        let version = self.take(1).ok_or(Refusal::Version)?;
        head_bytes(version[0]).ok_or(Refusal::Version)
    }

    /// The next field, which must have this length.
    fn field(&mut self, length: usize) -> Result<&'a [u8], Refusal> {
        let written = self.take(4).ok_or(Refusal::Field)?;
        if number(written) != length {
            return Err(Refusal::Field);
        }
        self.take(length).ok_or(Refusal::Field)
    }

    /// Version and first field: the shape as written, the shape meant, the row
    /// length in bits and in bytes. Version 1 means level 128, versions 1 and 2 kind
    /// 0; in version 3 the kind must be 1.
    fn front(&mut self) -> Result<(Shape, Shape, usize, usize), Refusal> {
        let length = self.version()?;
        let head = self.field(length)?;
        let part = |from: usize, to: usize| number(&head[from..to]);
        let level = head.get(9).map_or(128, |byte| 8 * usize::from(*byte));
        let kind = match head.get(10) {
            None => 0,
            Some(1) => 1,
            Some(_) => return Err(Refusal::Shape),
        };
        let (tau, k, w, t) = (part(0, 1), part(1, 2), part(2, 3), part(3, 5));
        let shape = Shape::of_kind(tau, k, w, t, level, kind);
        let row_bits = part(5, 9);
        let meant = shape.resolve().ok_or(Refusal::Shape)?;
        let b = row_bytes(row_bits).ok_or(Refusal::RowLength)?;
        Ok((shape, meant, row_bits, b))
    }
}

/// The front of a record: its shape as written, and its row length in bits.
pub fn front(bytes: &[u8]) -> Result<(Shape, usize), Refusal> {
    let (shape, _, row_bits, _) = Reader { rest: bytes }.front()?;
    Ok((shape, row_bits))
}

/// Reads the record that these bytes begin with, and gives what stands behind its
/// sixth field: 9; 10 of field one, 1, 2; 10 of the rest.
pub fn read_first(bytes: &[u8]) -> Result<(Record<'_>, &[u8]), Refusal> {
    let mut reader = Reader { rest: bytes };
    let (shape, meant, row_bits, b) = reader.front()?;
    let record = Record {
        shape,
        row_bits,
        iv: reader.field(16)?,
        challenge: reader.field(meant.node_bytes())?,
        corrections: reader.field(meant.corrections_bytes(b))?,
        opening: reader.field(meant.opening_bytes())?,
        commitment: reader.field(meant.commitment_bytes())?,
    };
    Ok((record, reader.rest))
}

/// Reads a whole record: bytes left over are 10 too.
pub fn read(bytes: &[u8]) -> Result<Record<'_>, Refusal> {
    match read_first(bytes)? {
        (record, []) => Ok(record),
        _ => Err(Refusal::Field),
    }
}

/// The bytes of the record that is written of a shape that is meant, with rows of b
/// bytes.
pub fn record_bytes(meant: &Shape, b: usize) -> usize {
    let fields = [
        9 + if meant.kind == 0 { 1 } else { 2 },
        16,
        meant.node_bytes(),
        meant.corrections_bytes(b),
        meant.opening_bytes(),
        meant.commitment_bytes(),
    ];
    1 + fields.iter().map(|length| 4 + length).sum::<usize>()
}

/// The lengths of the work buffers that a record asks for by its front: tree,
/// leaf commitments, Q.
pub fn work_lengths(bytes: &[u8]) -> Result<[usize; 3], Refusal> {
    let (_, meant, _, b) = Reader { rest: bytes }.front()?;
    Ok([
        meant.tree_bytes(),
        meant.leaf_commitments_bytes(),
        meant.matrix_bytes(b),
    ])
}

/// Check: reads the record, reconstructs from its fields with the lent work
/// buffers and compares the commitment. With 11 the buffers stay as reconstruct
/// wrote them.
pub fn check_record(
    bytes: &[u8],
    tree: &mut [u8],
    leaf_commitments: &mut [u8],
    q: &mut [u8],
) -> Answer {
    let record = match read(bytes) {
        Ok(record) => record,
        Err(refusal) => return Answer::refused(refusal, 0),
    };
    let mut commitment = vec![0; record.commitment.len()];
    let answer = reconstruct(
        record.shape,
        record.row_bits,
        record.iv,
        record.challenge,
        record.corrections,
        record.opening,
        &mut commitment,
        tree,
        leaf_commitments,
        q,
    );
    if answer.number == 0 && commitment != record.commitment {
        return Answer::refused(Refusal::Commitment, answer.count as usize);
    }
    answer
}

/// The version byte, and the fields behind their lengths.
fn joined(version: u8, head: &[u8], record: &Record) -> Vec<u8> {
    let mut bytes = vec![version];
    for field in [
        head,
        record.iv,
        record.challenge,
        record.corrections,
        record.opening,
        record.commitment,
    ] {
        bytes.extend((field.len() as u32).to_be_bytes());
        bytes.extend(field);
    }
    bytes
}

/// The first field of version 1: the shape as it is given, zeros too, but for its
/// level and kind, and the row length.
fn head_of_version_1(record: &Record) -> Vec<u8> {
    let Shape { tau, k, w, t, .. } = record.shape;
    let mut head = vec![tau as u8, k as u8, w as u8];
    head.extend((t as u16).to_be_bytes());
    head.extend((record.row_bits as u32).to_be_bytes());
    head
}

/// Write: checks 1, 2, 3. Puts version 2 at every level for kind 0, version 3 for
/// kind 1.
pub fn write_record(record: &Record, out: &mut [u8]) -> Answer {
    let Some(meant) = record.shape.resolve() else {
        return Answer::refused(Refusal::Shape, 0);
    };
    let Some(b) = row_bytes(record.row_bits) else {
        return Answer::refused(Refusal::RowLength, 0);
    };
    if record.iv.len() != 16
        || record.challenge.len() != meant.node_bytes()
        || record.corrections.len() != meant.corrections_bytes(b)
        || record.opening.len() != meant.opening_bytes()
        || record.commitment.len() != meant.commitment_bytes()
        || out.len() != record_bytes(&meant, b)
    {
        return Answer::refused(Refusal::Buffer, 0);
    }
    let mut head = head_of_version_1(record);
    head.push((meant.level / 8) as u8);
    if meant.kind == 1 {
        head.push(1);
    }
    out.copy_from_slice(&joined(version_for(&meant), &head, record));
    Answer::done(0)
}

/// A record of version 1, as E6 wrote it, for tests: nothing of it is tested.
pub fn version_1(record: &Record) -> Vec<u8> {
    joined(1, &head_of_version_1(record), record)
}
