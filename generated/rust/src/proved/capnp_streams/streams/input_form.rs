//! How a task reads its input.

/// How a task reads its input.
#[derive(Clone, Copy, Debug, PartialEq, Eq)]
pub enum InputForm {
    /// As a stream of frames.
    Frames,
    /// As a packed stream of frames (encoding specification, "Packing").
    PackedFrames,
    /// As the raw words of one message.
    RawWords,
}
