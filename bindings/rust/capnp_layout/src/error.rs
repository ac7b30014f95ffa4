//! Why a call is refused.

use crate::proved::capnp_canonical::capnp_canonical_name;
use crate::proved::capnp_framing::framing::FrameError;
use crate::proved::capnp_words::error::ErrorKind;
use core::fmt;
use core::ops::Range;
use rust_alloc::boxed::Box;
use rust_alloc::string::String;

/// What is wrong, without where.
#[derive(Clone, Copy, Debug, PartialEq, Eq)]
#[non_exhaustive]
pub enum Reason {
    /// The frame is cut short, or states too many segments or words; or it couldn't be read or
    /// written.
    Frame(FrameError),
    /// The words aren't what the encoding specification says or what the call expects, or a limit
    /// was reached.
    Layout(ErrorKind),
    /// The size of a segment isn't a multiple of 8 bytes.
    SegmentIsNotWholeWords,
    /// A text isn't UTF-8.
    TextIsNotUtf8,
    /// Bytes follow the message: this number, or more.
    TrailingBytes(usize),
    /// More bytes or elements than a list can have, or more words than its structs can have:
    /// 536,870,911.
    TooManyElements(usize),
}

impl Reason {
    /// The name, without the number that the reason carries.
    pub fn name(&self) -> &'static str {
        match self {
            Reason::Frame(error) => error.name(),
            Reason::Layout(kind) => kind.name(),
            Reason::SegmentIsNotWholeWords => "SegmentIsNotWholeWords",
            Reason::TextIsNotUtf8 => "TextIsNotUtf8",
            Reason::TrailingBytes(_) => "TrailingBytes",
            Reason::TooManyElements(_) => "TooManyElements",
        }
    }

    /// The number: below 128 that of the C library's refusal with this name, from 128 on those that
    /// only this crate has.
    pub fn number(&self) -> u32 {
        match self {
            Reason::SegmentIsNotWholeWords => number_of(self.name(), 1..16),
            Reason::Frame(error) => number_of(error.name(), 16..32),
            Reason::Layout(kind) => number_of(kind.name(), 32..128),
            Reason::TextIsNotUtf8 => 128,
            Reason::TrailingBytes(_) => 129,
            Reason::TooManyElements(_) => 130,
        }
    }
}

/// The number that the core has for a name. Frames and layout have numbers of their own for
/// `AllocationFailed`.
fn number_of(name: &str, mut numbers: Range<u32>) -> u32 {
    let is_named = |number: &u32| {
        let mut text = [0; 128];
        let length = capnp_canonical_name(*number, &mut text);
        text.get(..length) == Some(name.as_bytes())
    };
    numbers.find(is_named).unwrap_or(0)
}

impl fmt::Display for Reason {
    fn fmt(&self, f: &mut fmt::Formatter<'_>) -> fmt::Result {
        match self {
            Reason::Frame(error) => error.fmt(f),
            Reason::Layout(kind) => kind.fmt(f),
            Reason::TrailingBytes(n) | Reason::TooManyElements(n) => {
                write!(f, "{}({n})", self.name())
            }
            Reason::SegmentIsNotWholeWords | Reason::TextIsNotUtf8 => f.write_str(self.name()),
        }
    }
}

/// What only few refusals have.
#[derive(Clone, Debug, Default)]
struct Details {
    /// The path to the refused pointer.
    path: Option<String>,
    /// Its segment, and its position there in words.
    place: Option<(u64, u32)>,
    /// The name of its field.
    field: Option<String>,
    #[cfg(feature = "std")]
    source: Option<rust_alloc::sync::Arc<std::io::Error>>,
}

/// A refusal: what is wrong, and, if that is known, the pointer that is wrong.
///
/// Two errors are equal if reason, path, place and field are.
#[derive(Clone, Debug)]
pub struct Error {
    reason: Reason,
    details: Option<Box<Details>>,
}

impl Error {
    /// What is wrong.
    pub fn reason(&self) -> Reason {
        self.reason
    }

    /// The name of the reason, which is also that of the C library.
    pub fn name(&self) -> &'static str {
        self.reason.name()
    }

    /// The number of the reason; see [`Reason::number`].
    pub fn number(&self) -> u32 {
        self.reason.number()
    }

    fn pointer(&self) -> (Option<&str>, Option<(u64, u32)>, Option<&str>) {
        (self.path(), self.place(), self.field())
    }

    /// The path to the refused pointer, in the form of `capnp_canon --at`: `0.2.[7].1` is pointer 1
    /// of element 7 of the list that pointer 2 of the root's pointer 0 leads to; `root` is the
    /// root pointer. `None` if the refusal isn't that of a check of a whole message, such as
    /// [`Message::root`](crate::Message::root) or [`Message::sound`](crate::Message::sound).
    pub fn path(&self) -> Option<&str> {
        self.details.as_ref()?.path.as_deref()
    }

    /// The place of the refused pointer, if that is known: its segment, and its position there in
    /// words.
    pub fn place(&self) -> Option<(u64, u32)> {
        self.details.as_ref()?.place
    }

    /// The field of the schema that the refused pointer is, such as `Person.phones`; for an element
    /// of a list of texts, data or lists, the field that the list is. If several members of unions
    /// share the pointer, all of them are named: `Person.employment.employer or
    /// employment.school`. Only the struct, `Person`, if the schema doesn't know the pointer. `None`
    /// if the refusal isn't that of a check against a schema, or is about what a pointer of any kind
    /// leads to.
    pub fn field(&self) -> Option<&str> {
        self.details.as_ref()?.field.as_deref()
    }

    /// Whether a limit was reached. With other [`Limits`](crate::Limits) the message may be
    /// accepted.
    pub fn is_limit(&self) -> bool {
        matches!(
            self.reason,
            Reason::Layout(
                ErrorKind::ReadLimitExceeded
                    | ErrorKind::NestingLimitExceeded
                    | ErrorKind::MessageIsTooDeeplyNested
                    | ErrorKind::MessageIsTooDeeplyNestedOrContainsCycles
            ) | Reason::Frame(FrameError::MessageTooLong(_))
        )
    }

    #[cold]
    pub(crate) fn at(
        reason: Reason,
        path: Option<String>,
        place: (u64, u32),
        field: Option<String>,
    ) -> Self {
        // without std there is no other field
        #[allow(clippy::needless_update)]
        let details = Details {
            path,
            place: Some(place),
            field,
            ..Details::default()
        };
        Error {
            reason,
            details: Some(Box::new(details)),
        }
    }

    /// The same refusal, with the error of a reader that caused it.
    #[cfg(feature = "std")]
    #[cold]
    pub(crate) fn caused_by(self, error: std::io::Error) -> Self {
        let source = Some(rust_alloc::sync::Arc::new(error));
        Error {
            details: Some(Box::new(Details {
                source,
                ..Details::default()
            })),
            ..self
        }
    }
}

impl PartialEq for Error {
    fn eq(&self, other: &Error) -> bool {
        self.reason == other.reason && self.pointer() == other.pointer()
    }
}

impl Eq for Error {}

impl From<Reason> for Error {
    #[cold]
    fn from(reason: Reason) -> Self {
        Error {
            reason,
            details: None,
        }
    }
}

impl From<ErrorKind> for Error {
    #[cold]
    fn from(kind: ErrorKind) -> Self {
        Reason::Layout(kind).into()
    }
}

impl From<FrameError> for Error {
    fn from(error: FrameError) -> Self {
        Reason::Frame(error).into()
    }
}

/// `InvalidSegmentId(7)`; with a path `pointer 0.2.[7].1: InvalidSegmentId(7)`; after a check against a
/// schema `Person.phones (pointer 0.2.[7].1 at segment 0, word 5): InvalidSegmentId(7)`.
impl fmt::Display for Error {
    fn fmt(&self, f: &mut fmt::Formatter<'_>) -> fmt::Result {
        match self.pointer() {
            (path, Some((segment, word)), Some(field)) => {
                write!(f, "{field} (pointer ")?;
                if let Some(path) = path {
                    write!(f, "{path} ")?;
                }
                write!(f, "at segment {segment}, word {word}): ")?;
            }
            (Some(path), ..) => write!(f, "pointer {path}: ")?,
            _ => {}
        }
        self.reason.fmt(f)
    }
}

impl core::error::Error for Error {
    fn source(&self) -> Option<&(dyn core::error::Error + 'static)> {
        #[cfg(feature = "std")]
        if let Some(error) = self.details.as_ref().and_then(|it| it.source.as_deref()) {
            return Some(error);
        }
        None
    }
}

#[cfg(feature = "std")]
impl From<Error> for std::io::Error {
    fn from(error: Error) -> Self {
        std::io::Error::new(std::io::ErrorKind::InvalidData, error)
    }
}
