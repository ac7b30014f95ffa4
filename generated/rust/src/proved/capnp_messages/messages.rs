//! Makes canonical copies and digests of whole messages, tests whether messages are in canonical
//! form, and measures them (encoding specification, "Canonicalization").

mod already_canonical;
mod canonical_copy;
mod canonical_error;
mod canonical_message;
mod command;
mod copy_memory;
mod copy_size;
mod lent_memory;
mod message_fault;
mod part;
mod part_digest;
mod path;
mod pointer_run;
mod root;
mod validation;
mod whole;
mod whole_digest;
mod writing;

pub use already_canonical::canonical_segment;
pub use canonical_copy::canonicalize_pointer;
pub use canonical_error::CanonicalError;
pub use canonical_message::is_canonical_message;
pub use command::{Command, Form};
pub use copy_memory::CopyMemory;
pub use lent_memory::LentMemory;
pub use message_fault::canonical_fault;
pub use part::{canonicalize_part, canonicalize_part_into, size_of_part};
pub use part_digest::digest_of_part;
pub use path::{follow_path, read_part, Reached};
pub use pointer_run::ElementPlace;
pub use root::read_root;
pub use validation::{validate, validate_root, MessageExtent};
pub use whole::{canonicalize, canonicalize_into, check, size};
pub use whole_digest::digest;
pub use writing::{canonical_bytes, write_canonical, write_copy, write_words};
