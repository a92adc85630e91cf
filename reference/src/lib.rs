//! The batch vector commitment of FAEST v2.0 at the levels 128, 192 and 256 with
//! the ordinary and the Even-Mansour leaf commitment, written as the documents in
//! code.
//!
//! "Document 000" is the FAEST v2.0 specification; its figures and sections
//! are named beside the functions that carry them out. "Document 01" is the
//! requirements paper with the five calls and their refusals, "document 02" the
//! later requests. One of these is version 1 of FAEST, in a file of its own.

pub mod aes;
pub mod bavc;
pub mod calls;
mod cases;
pub mod cli;
pub mod enumeration;
pub mod field;
pub mod listing;
pub mod named;
pub mod prg;
pub mod record;
mod record_commands;
pub mod report;
pub mod shake;
pub mod shape;
pub mod stretch;
pub mod v1;
mod v1_commands;
pub mod vole;

/// A string of 128 bits: an IV or an AES block, at every level.
pub type Block = [u8; 16];

/// A string of λ bits: a node, a seed or a challenge.
pub type Node = Vec<u8>;

/// A leaf commitment, of n_leafcom λ bits, or a hash key, of 3λ bits.
pub type LeafCom = Vec<u8>;

/// The answer of H1 and the commitment: 2λ bits.
pub type Digest = Vec<u8>;
