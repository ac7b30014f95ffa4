//! Shows what a message holds without its schema, in lines of text or in JSON: each object with its
//! place, its sizes and its data, and each fault where it is.

pub mod show;
