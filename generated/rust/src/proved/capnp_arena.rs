//! Segments, limits and allocation: what a Cap'n Proto message is made of, by the sections
//! "Messages" and "Inter-Segment Pointers" of the encoding specification.

pub mod arena;
