//! The places in packed bytes, and what each byte unpacks to there (encoding specification,
//! "Packing").

/// A place in packed bytes.
#[derive(Clone, Copy, Debug, PartialEq, Eq)]
pub enum Place {
    /// Before a tag.
    Tag,
    /// Before a byte of a packed word. `left` bytes of the word come after it; `bits` says which of
    /// them are packed, the lowest bit for the first. The others are zero.
    Kept { bits: u8, left: u8 },
    /// Before the count of further zero words.
    Zeros,
    /// Before a byte of a word that isn't packed; this many bytes of the word come after it.
    Whole(u8),
    /// Before the count of further words that aren't packed.
    Count,
    /// Before a byte of further words that aren't packed; this many bytes of them come after it.
    Raw(u16),
}

/// What a packed byte unpacks to: itself or nothing, then `zeros` zero bytes; and the next place.
#[derive(Clone, Copy, Debug, PartialEq, Eq)]
pub struct Taken {
    pub byte: Option<u8>,
    pub zeros: u16,
    pub next: Place,
}

/// For a packed word with `left` bytes to go: the number of zero bytes before the next packed byte
/// or the word's end, and the place after these zero bytes.
fn within_word(bits: u8, left: u8) -> (u8, Place) {
    if left == 0 {
        return (0, Place::Tag);
    }
    let (bits, left, is_packed) = (bits / 2, left - 1, bits % 2 == 1);
    if is_packed {
        return (0, Place::Kept { bits, left });
    }
    let (zeros, next) = within_word(bits, left);
    (zeros + 1, next)
}

/// What `step` returns at `Place::Tag`, for the byte `tag`.
fn step_tag(tag: u8) -> Taken {
    if tag == 0 {
        return Taken {
            byte: None,
            zeros: 8,
            next: Place::Zeros,
        };
    }
    if tag == 255 {
        return Taken {
            byte: None,
            zeros: 0,
            next: Place::Whole(7),
        };
    }
    let (zeros, next) = within_word(tag, 8);
    Taken {
        byte: None,
        zeros: u16::from(zeros),
        next,
    }
}

/// What `step` returns at `Place::Kept { bits, left }`, for `byte`.
fn step_kept(bits: u8, left: u8, byte: u8) -> Taken {
    let (zeros, next) = within_word(bits, left);
    Taken {
        byte: Some(byte),
        zeros: u16::from(zeros),
        next,
    }
}

/// What `step` returns at `Place::Zeros`, for the byte `count`.
fn step_zeros(count: u8) -> Taken {
    Taken {
        byte: None,
        zeros: 8 * u16::from(count),
        next: Place::Tag,
    }
}

/// What `step` returns at `Place::Whole(left)`, for `byte`.
fn step_whole(left: u8, byte: u8) -> Taken {
    let next = if left == 0 {
        Place::Count
    } else {
        Place::Whole(left - 1)
    };
    Taken {
        byte: Some(byte),
        zeros: 0,
        next,
    }
}

/// What `step` returns at `Place::Count`, for the byte `count`.
fn step_count(count: u8) -> Taken {
    let next = if count == 0 {
        Place::Tag
    } else {
        Place::Raw(8 * u16::from(count) - 1)
    };
    Taken {
        byte: None,
        zeros: 0,
        next,
    }
}

/// What `step` returns at `Place::Raw(left)`, for `byte`.
fn step_raw(left: u16, byte: u8) -> Taken {
    let next = if left == 0 {
        Place::Tag
    } else {
        Place::Raw(left - 1)
    };
    Taken {
        byte: Some(byte),
        zeros: 0,
        next,
    }
}

/// What `byte` unpacks to at `place`, and the next place.
pub fn step(place: Place, byte: u8) -> Taken {
    match place {
        Place::Tag => step_tag(byte),
        Place::Kept { bits, left } => step_kept(bits, left, byte),
        Place::Zeros => step_zeros(byte),
        Place::Whole(left) => step_whole(left, byte),
        Place::Count => step_count(byte),
        Place::Raw(left) => step_raw(left, byte),
    }
}
