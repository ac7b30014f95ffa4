//! Edits: changes of a message being built, each described by a path from the root and an
//! operation.

pub mod edit;
