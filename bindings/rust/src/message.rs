//! What the calls do with a message, in each form. Each reads it by the proved functions of `capnp_messages`,
//! which the library for C calls too.
use crate::error::{Broken, Error, Pointer};
use crate::stack::with_room;
use crate::walk::{Object, Walk, NO_OBJECT};
use crate::{Extent, Fault, Limits, Reading, Size};
use alloc::vec::Vec;
use capnp_layout::proved::capnp_arena::arena::{
    BuilderArenaImpl, ReaderArena, ReaderArenaImpl, ReaderOptions, ReaderSegments, SegmentArray,
};
use capnp_layout::proved::capnp_framing::framing::{read_from_flat_slice, FrameSegments};
use capnp_layout::proved::capnp_messages::messages::{
    self, canonical_bytes, canonical_segment, canonicalize, canonicalize_into, canonicalize_part,
    canonicalize_part_into, digest_of_part, size_of_part, Command, CopyMemory, Form, LentMemory,
};
use capnp_layout::proved::capnp_refusals::refusals::{pointer_of_refusal, refused_pointer};
use capnp_layout::proved::capnp_walks::walks::walk_message;
use capnp_layout::proved::capnp_words::error::ErrorKind;
use capnp_layout::proved::support::alloc::Global;
use capnp_layout::proved::support::sha2::{Digest, Sha256};

/// The words of the stack memory in which the copy of a small message is made, and the words that a message has that isn't
/// small: testing whether it is canonical already costs less than a copy.
const SMALL: usize = 64;
/// The objects for which a walk first makes room.
const FEW: usize = 64;

/// A message that is read within limits. Its segments are whole words, fewer than 2^32 each, and fewer than 2^32
/// themselves: what the proved functions require.
#[derive(Clone, Copy)]
pub(crate) struct Message<S> {
    segments: S,
    limits: Limits,
}

/// The message of the frame at the front of a stream.
pub(crate) fn framed(stream: &[u8], limits: Limits) -> Result<Message<FrameSegments<'_>>, Error> {
    let segments = first_frame(stream, limits.words)?;
    Ok(Message { segments, limits })
}

/// The frame at the front of a stream, which may have at most `words` words.
pub(crate) fn first_frame(stream: &[u8], words: u64) -> Result<FrameSegments<'_>, Error> {
    read_from_flat_slice(stream, words)
        .map_err(Error::of_frame)?
        .ok_or(Error::NO_MESSAGE)
}

/// The message of these segments.
pub(crate) fn segmented<'a>(
    segments: &'a [&'a [u8]],
    limits: Limits,
) -> Result<Message<SegmentArray<'a>>, Error> {
    if segments.iter().any(|it| !it.len().is_multiple_of(8)) {
        return Err(Error::SEGMENT_IS_NOT_WHOLE_WORDS);
    }
    let segments = SegmentArray::new(segments).ok_or(Error::MESSAGE_TOO_LARGE)?;
    Ok(Message { segments, limits })
}

impl<S: ReaderSegments + Copy + Send + Sync> Message<S> {
    fn options(self) -> ReaderOptions {
        ReaderOptions {
            traversal_limit_in_words: self.words(),
            nesting_limit: self.limits.levels(),
        }
    }

    /// The traversal limit.
    fn words(self) -> Option<usize> {
        Some(self.limits.words as usize)
    }

    fn source(self) -> ReaderArenaImpl<S> {
        ReaderArenaImpl::new(self.segments, self.options())
    }

    /// Reads the message in this way.
    fn read<T: Send>(self, way: impl FnOnce(&ReaderArenaImpl<S>, Option<usize>) -> T + Send) -> T {
        with_room(self.limits.levels(), || way(&self.source(), self.words()))
    }

    /// The error of a command that was refused, with the pointer at which it was. Reads the message once more.
    #[cold]
    fn refused(self, kind: ErrorKind, command: Command) -> Error {
        let pointer = pointer_of_refusal(kind, command, self.segments, self.options());
        Error::of_layout(kind).with_pointer(pointer.map(|it| Pointer {
            segment: it.segment,
            word: it.word,
        }))
    }

    /// Uses the canonical words: those of the message itself if it is canonical already, or of a copy. The error of a refusal
    /// is that of this command.
    fn with_words<T: Send>(
        self,
        command: Command,
        way: impl FnOnce(&[u8]) -> Result<T, Error> + Send,
    ) -> Result<T, Error> {
        self.read(|source, limit| {
            let refused = |kind| self.refused(kind, command);
            if source.size_in_words() >= SMALL {
                if let Some(words) = canonical_segment(source, limit) {
                    return way(words);
                }
            } else {
                let mut memory = [0; 8 * SMALL];
                let mut made = BuilderArenaImpl::new(Global, LentMemory::new(&mut memory));
                if canonicalize_into(&mut made, SMALL as u32, source, limit).map_err(refused)? {
                    return way(canonical_bytes(&made));
                }
            }
            match canonicalize(Global, CopyMemory::new(Global), source, limit) {
                Ok(made) => way(canonical_bytes(&made)),
                Err((kind, _)) => Err(refused(kind)),
            }
        })
    }

    /// Uses the canonical words of the part to which a path leads.
    fn with_part<T: Send>(
        self,
        path: &[u32],
        way: impl FnOnce(&[u8]) -> Result<T, Error> + Send,
    ) -> Result<T, Error> {
        self.read(|source, limit| {
            let mut memory = [0; 8 * SMALL];
            let mut made = BuilderArenaImpl::new(Global, LentMemory::new(&mut memory));
            let fits = canonicalize_part_into(&mut made, SMALL as u32, source, path, limit);
            if fits.map_err(Error::of_layout)? {
                return way(canonical_bytes(&made));
            }
            match canonicalize_part(Global, CopyMemory::new(Global), source, path, limit) {
                Ok(made) => way(canonical_bytes(&made)),
                Err((kind, _)) => Err(Error::of_layout(kind)),
            }
        })
    }

    /// Appends the canonical copy in this form. Returns the number of bytes appended. A refusal leaves the vector as it was.
    pub(crate) fn copy_into(self, form: Form, to: &mut Vec<u8>) -> Result<usize, Error> {
        self.with_words(Command::Canon(form), |words| append(form, words, to))
    }

    /// Appends the canonical words of the part to which a path leads.
    pub(crate) fn part_into(self, path: &[u32], to: &mut Vec<u8>) -> Result<usize, Error> {
        self.with_part(path, |words| append(Form::Flat, words, to))
    }

    /// The SHA-256 of a prefix and then the canonical words.
    pub(crate) fn digest_after(self, prefix: &[u8]) -> Result<[u8; 32], Error> {
        self.with_words(Command::Digest, |words| Ok(hash(prefix, words)))
    }

    pub(crate) fn digest_part_after(self, prefix: &[u8], path: &[u32]) -> Result<[u8; 32], Error> {
        self.with_part(path, |words| Ok(hash(prefix, words)))
    }

    /// Whether the canonical words are those of another message.
    pub(crate) fn equals(self, other: Self) -> Result<bool, Error> {
        let command = Command::Canon(Form::Flat);
        self.with_words(command, |words| {
            other.with_words(command, |others| Ok(words == others))
        })
    }

    pub(crate) fn digest(self) -> Result<[u8; 32], Error> {
        self.read(|source, limit| {
            let (digest, _) = messages::digest(Global, CopyMemory::new(Global), source, limit);
            digest.map_err(|kind| self.refused(kind, Command::Digest))
        })
    }

    pub(crate) fn digest_part(self, path: &[u32]) -> Result<[u8; 32], Error> {
        self.read(|source, limit| {
            let (digest, _) = digest_of_part(Global, CopyMemory::new(Global), source, path, limit);
            digest.map_err(Error::of_layout)
        })
    }

    pub(crate) fn check(self) -> Result<Option<Fault>, Error> {
        self.read(|source, limit| match messages::check(source, limit) {
            Ok(fault) => Ok(fault.map(Fault::of)),
            Err(kind) => Err(self.refused(kind, Command::Check)),
        })
    }

    pub(crate) fn is_canonical(self) -> bool {
        self.read(|source, limit| messages::check(source, limit) == Ok(None))
    }

    pub(crate) fn size(self) -> Result<Size, Error> {
        self.read(|source, limit| match messages::size(source, limit) {
            Ok(size) => Ok(Size::of(size)),
            Err(kind) => Err(self.refused(kind, Command::Size)),
        })
    }

    pub(crate) fn size_part(self, path: &[u32]) -> Result<Size, Error> {
        self.read(|source, limit| match size_of_part(source, path, limit) {
            Ok(size) => Ok(Size::of(size)),
            Err(kind) => Err(Error::of_layout(kind)),
        })
    }

    pub(crate) fn validate(self) -> Result<Extent, Error> {
        self.read(|source, limit| match messages::validate(source, limit) {
            Ok(extent) => Ok(Extent::of(extent)),
            Err(kind) => Err(self.refused(kind, Command::Validate)),
        })
    }

    pub(crate) fn locate(self, reading: Reading) -> Option<Broken> {
        let found = with_room(self.limits.levels(), || {
            refused_pointer(reading.command(), self.segments, self.options())
        });
        found.map(Broken::of)
    }

    /// The objects, at most `most` of them. Takes memory for those that there are.
    pub(crate) fn walk(self, most: usize) -> Result<Walk, Error> {
        let mut objects = Vec::new();
        let mut room = most.min(FEW);
        let found = loop {
            reserve(&mut objects, room)?;
            objects.resize(room, NO_OBJECT);
            let found = with_room(self.limits.levels(), || {
                walk_message(self.segments, self.options(), &mut objects)
            });
            let wanted = most.min(found.count as usize);
            if wanted <= room {
                objects.truncate(wanted);
                break found;
            }
            // once more, with room for all
            objects.clear();
            room = wanted;
        };
        let mut listed = Vec::new();
        reserve(&mut listed, objects.len())?;
        listed.extend(objects.iter().map(Object::of));
        Ok(Walk {
            objects: listed,
            count: found.count as usize,
            broken: found.refused.map(Broken::of),
        })
    }
}

/// Appends words in this form. Returns the number of bytes appended.
fn append(form: Form, words: &[u8], to: &mut Vec<u8>) -> Result<usize, Error> {
    // a frame of one segment: 0, and the number of its words, which is below 2^29
    let table = (words.len() as u64 / 8) << 32;
    let table = table.to_le_bytes();
    let table: &[u8] = if form == Form::Framed { &table } else { &[] };
    let size = table.len() + words.len();
    reserve(to, size)?;
    to.extend_from_slice(table);
    to.extend_from_slice(words);
    Ok(size)
}

/// Makes room for so many more items, or says that there is no memory for them.
pub(crate) fn reserve<T>(to: &mut Vec<T>, more: usize) -> Result<(), Error> {
    to.try_reserve(more).map_err(|_| Error::ALLOCATION_FAILED)
}

/// The SHA-256 of a prefix and then these words.
fn hash(prefix: &[u8], words: &[u8]) -> [u8; 32] {
    let mut hasher = Sha256::new();
    hasher.update(prefix);
    hasher.update(words);
    hasher.finalize()
}
