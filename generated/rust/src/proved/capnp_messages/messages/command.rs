//! Commands on a whole message.

/// How a canonical message is written.
#[derive(Clone, Copy, Debug, PartialEq, Eq)]
pub enum Form {
    /// As a frame of one segment (encoding specification, "Serialization Over a Stream").
    Framed,
    /// As raw words, without a frame.
    Flat,
}

/// A command on a message.
#[derive(Clone, Copy, Debug, PartialEq, Eq)]
pub enum Command {
    /// Write the message's canonical words (encoding specification, "Canonicalization").
    Canon(Form),
    /// Test whether the message is canonical as a whole.
    Check,
    /// Count the message's words and capabilities, without landing pads.
    Size,
    /// Write the SHA-256 of the message's canonical words.
    Digest,
    /// Find out whether the message is sound: whether its whole value can be read.
    Validate,
}
