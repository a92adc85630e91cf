//! The calls as a C host makes them, on slices: lists of numbers and counts are bytes, four to a number, least byte first, and the number is returned. They test no
//! length: the archives do. The typed calls of this crate are made of these.

use super::Shape;

/// A call: its numbers, the slices that it reads and those that it writes. In C a slice is a pointer and a length.
macro_rules! call {
    ($half:literal, $(#[$doc:meta])* $name:ident = $symbol:ident ($($number:ident)*; $($read:ident $read_len:ident),*; $($write:ident $write_len:ident),*)) => {
        $(#[$doc])*
        #[cfg(feature = $half)]
        #[must_use]
        #[allow(clippy::too_many_arguments)]
        pub fn $name(shape: Shape, $($number: usize,)* $($read: &[u8],)* $($write: &mut [u8],)*) -> usize {
            extern "C" {
                fn $symbol(
                    tau: usize,
                    k: usize,
                    w: usize,
                    t: usize,
                    level: usize,
                    kind: usize,
                    $($number: usize,)*
                    $($read: *const u8, $read_len: usize,)*
                    $($write: *mut u8, $write_len: usize,)*
                ) -> usize;
            }
            // SAFETY: each slice is borrowed, so it has its bytes, is not null, and overlaps no other if it is written.
            unsafe {
                $symbol(
                    shape.tau,
                    shape.k,
                    shape.w,
                    shape.t,
                    shape.level,
                    shape.kind,
                    $($number,)*
                    $($read.as_ptr(), $read.len(),)*
                    $($write.as_mut_ptr(), $write.len(),)*
                )
            }
        }
    };
}

call! { "planning",
    /// The hidden indices of a challenge.
    decode = rachnoel_decode(; challenge challenge_len; indices indices_len, count count_len)
}

call! { "planning",
    /// The nodes that an opening reveals, at the front of the list.
    plan = rachnoel_plan(; challenge challenge_len; nodes nodes_len, count count_len)
}

call! { "planning",
    /// The lengths of a shape's buffers, eleven numbers: the leaves, then those of [`super::Lengths`] in their order.
    lengths = rachnoel_lengths(row_bits; ; lengths lengths_len)
}

call! { "signer",
    /// The commitment to the tree of a root.
    commit = rachnoel_commit(row_bits; root root_len, iv iv_len; commitment commitment_len, tree tree_len, leaf_commitments leaf_commitments_len,
        u u_len, v v_len, corrections corrections_len, count count_len)
}

call! { "signer",
    /// The same with `width` bytes from byte `first` on of u, of each correction and of each column.
    commit_stretch = rachnoel_commit_stretch(row_bits first width; root root_len, iv iv_len; commitment commitment_len, tree tree_len,
        leaf_commitments leaf_commitments_len, u u_len, v v_len, corrections corrections_len, count count_len)
}

call! { "signer",
    /// The opening of a challenge.
    open = rachnoel_open(; challenge challenge_len, tree tree_len, leaf_commitments leaf_commitments_len; opening opening_len, count count_len)
}

call! { "verifier",
    /// Commitment, tree, leaf commitments and Q from an opening. The host compares the commitment with the one that it was given.
    reconstruct = rachnoel_reconstruct(row_bits; iv iv_len, challenge challenge_len, corrections corrections_len, opening opening_len;
        commitment commitment_len, tree tree_len, leaf_commitments leaf_commitments_len, q q_len, count count_len)
}

call! { "verifier",
    /// The same with `width` bytes from byte `first` on of each correction and of each column.
    reconstruct_stretch = rachnoel_reconstruct_stretch(row_bits first width; iv iv_len, challenge challenge_len, corrections corrections_len,
        opening opening_len; commitment commitment_len, tree tree_len, leaf_commitments leaf_commitments_len, q q_len, count count_len)
}

call! { "writer",
    /// The length of a record.
    record_length = rachnoel_record_length(row_bits; ; length length_len)
}

call! { "writer",
    /// The record of a shape as it is given, a row length and the other fields.
    write_record = rachnoel_write_record(row_bits; iv iv_len, challenge challenge_len, corrections corrections_len, opening opening_len,
        commitment commitment_len; record record_len)
}

call! { "v1_signer",
    /// The commitment to the trees that grow from a root.
    v1_commit = rachnoel_v1_commit(row_bits; root root_len, iv iv_len; commitment commitment_len, trees trees_len, leaf_commitments leaf_commitments_len,
        u u_len, v v_len, corrections corrections_len, count count_len)
}

call! { "v1_signer",
    /// The opening of a challenge.
    v1_open = rachnoel_v1_open(; challenge challenge_len, trees trees_len, leaf_commitments leaf_commitments_len; opening opening_len, count count_len)
}

call! { "v1_verifier",
    /// Commitment, trees, leaf commitments and Q from an opening. The host compares the commitment with the one that it was given.
    v1_reconstruct = rachnoel_v1_reconstruct(row_bits; iv iv_len, challenge challenge_len, corrections corrections_len, opening opening_len;
        commitment commitment_len, trees trees_len, leaf_commitments leaf_commitments_len, q q_len, count count_len)
}

/// The lengths of the work buffers that a record asks for: tree, leaf commitments, Q.
#[cfg(feature = "broker")]
#[must_use]
pub fn work_lengths(record: &[u8], lengths: &mut [u8]) -> usize {
    extern "C" {
        fn rachnoel_work_lengths(record: *const u8, record_len: usize, lengths: *mut u8, lengths_len: usize) -> usize;
    }
    // SAFETY: as in `call!`.
    unsafe { rachnoel_work_lengths(record.as_ptr(), record.len(), lengths.as_mut_ptr(), lengths.len()) }
}

/// A call on a record with its three work buffers and a count.
#[cfg(feature = "broker")]
macro_rules! check {
    ($(#[$doc:meta])* $name:ident = $symbol:ident) => {
        $(#[$doc])*
        #[must_use]
        pub fn $name(record: &[u8], tree: &mut [u8], leaf_commitments: &mut [u8], q: &mut [u8], count: &mut [u8]) -> usize {
            extern "C" {
                fn $symbol(
                    record: *const u8,
                    record_len: usize,
                    tree: *mut u8,
                    tree_len: usize,
                    leaf_commitments: *mut u8,
                    leaf_commitments_len: usize,
                    q: *mut u8,
                    q_len: usize,
                    count: *mut u8,
                    count_len: usize,
                ) -> usize;
            }
            // SAFETY: as in `call!`.
            unsafe {
                $symbol(
                    record.as_ptr(),
                    record.len(),
                    tree.as_mut_ptr(),
                    tree.len(),
                    leaf_commitments.as_mut_ptr(),
                    leaf_commitments.len(),
                    q.as_mut_ptr(),
                    q.len(),
                    count.as_mut_ptr(),
                    count.len(),
                )
            }
        }
    };
}

#[cfg(feature = "broker")]
check! {
    /// Whether a record has its form, reconstruct accepts its fields, and gives the record's commitment. The corrections are not bound by it.
    check_record = rachnoel_check_record
}

#[cfg(feature = "broker")]
check! {
    /// The same for the twelve sets of FAEST version 2 alone, each with its row length.
    check_named = rachnoel_check_named
}
