//! The tests. What a call gives is compared with values derived otherwise:
//! published examples, other implementations (see `tests/derive.py`), or the
//! definitions of document 01 worked out anew in these files.

mod command_line;
mod enumeration;
mod examples;
mod known_answers;
mod limits;
mod listing;
mod named;
mod primitives;
mod proved_examples;
mod records;
mod refusals;
mod report;
mod roundtrip;
mod support;
mod version_1;
mod version_1_refusals;
