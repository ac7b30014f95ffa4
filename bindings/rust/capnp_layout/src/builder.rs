//! Messages that are being built.

use crate::building::StructBuilder;
use crate::error::{Error, Reason};
use crate::growing::Growing;
use crate::message::{Limits, Message};
use crate::meter::Meter;
use crate::proved::capnp_arena::arena::{BuilderArena, BuilderArenaImpl, ReaderArena};
use crate::proved::capnp_builders::builders::PointerBuilder;
use crate::proved::capnp_framing::devices::{DeviceFault, Output};
use crate::proved::capnp_framing::framing::{write, FrameError};
use crate::proved::capnp_packing::packing::PackingOutput;
use crate::proved::capnp_words::error::ErrorKind;
use crate::proved::capnp_words::read_limiter::ReadLimiter;
use crate::proved::capnp_words::wire_pointer::StructSize;
use crate::proved::support::alloc::Global;
use crate::proved::typed_building::value;
use crate::reading::{Pointer, Struct};
use crate::segments::Held;
use core::fmt;
use rust_alloc::vec::Vec;

/// A list has fewer elements than this, and its structs have fewer words.
const MOST: usize = 1 << 29;

/// The arena of a builder.
pub(crate) type BuiltArena = BuilderArenaImpl<Growing>;

type BuiltPointer<'b> = PointerBuilder<'b, BuiltArena>;

/// A message that is being built, in one segment that grows. If there is no memory for it, the
/// process aborts, like a `Vec` that grows.
///
/// Setters return no `Result`: the first refusal, such as a text of 2^29 bytes, a source that can't
/// be read, or more than 2^29 - 1 words in all (`AllocationFailed`), is kept, later calls change
/// nothing, and each call that hands out the message returns the refusal. After a refusal indexes
/// and offsets aren't tested.
///
/// ```
/// use capnp_layout::{Builder, StructSize};
///
/// let mut message = Builder::new();
/// let mut person = message.init_root(StructSize { data_words: 1, pointers: 2 });
/// person.set_u32(0, 123).set_text(0, "Alice");
/// let mut phones = person.init_structs(1, 2, StructSize { data_words: 1, pointers: 1 });
/// phones.at(0).set_text(0, "555-1212").set_u16(0, 1);
/// phones.at(1).set_text(0, "555-3434");
/// let frame: Vec<u8> = message.to_frame()?;
/// let digest: [u8; 32] = message.digest()?;
/// # assert_eq!(frame.len(), 8 + 8 * 14);
/// # assert_eq!(digest, message.as_message()?.sound()?.digest()?);
/// # Ok::<(), capnp_layout::Error>(())
/// ```
pub struct Builder {
    arena: BuiltArena,
    refused: Option<Error>,
}

impl Default for Builder {
    fn default() -> Self {
        Builder::new()
    }
}

impl Builder {
    /// An empty message: its root is null.
    pub fn new() -> Self {
        Builder::with_capacity(4096)
    }

    /// An empty message, with memory for this number of bytes.
    pub fn with_capacity(bytes: usize) -> Self {
        let mut arena = BuilderArenaImpl::new(Global, Growing::new(bytes));
        // the root pointer, word 0 of segment 0
        let made = arena.allocate_segment(1);
        let refused = made.err().map(Error::from);
        if refused.is_none() {
            arena.allocate(0, 1);
        }
        Builder { arena, refused }
    }

    /// The first refusal, if there was one.
    #[inline]
    pub fn refused(&self) -> Option<&Error> {
        self.refused.as_ref()
    }

    /// Keeps a refusal, unless there is one.
    #[cold]
    #[inline(never)]
    fn refuse(&mut self, error: Error) {
        self.refused.get_or_insert(error);
    }

    /// The arena, to be read, unless something was refused. A refusal leaves the arena as a
    /// message, so what is read to no effect may be read from it.
    fn built(&self) -> Result<&BuiltArena, Error> {
        match &self.refused {
            None => Ok(&self.arena),
            Some(error) => Err(error.clone()),
        }
    }

    /// The arena, to be read by a builder; `None` after a refusal.
    #[inline(always)]
    pub(crate) fn unless_refused(&self) -> Option<&BuiltArena> {
        match &self.refused {
            None => Some(&self.arena),
            Some(_) => None,
        }
    }

    /// The arena, also after a refusal, to write a number of a struct or a list that is there. That
    /// takes no memory, and after a refusal nobody sees it, so it isn't worth a test.
    #[inline(always)]
    pub(crate) fn arena(&mut self) -> &mut BuiltArena {
        &mut self.arena
    }

    /// The arena, to be changed; `None` after a refusal. What the change returns goes to
    /// [`keep`](Builder::keep).
    // Not a call with a closure: rustc passes what a closure needs through memory.
    #[inline(always)]
    pub(crate) fn changeable(&mut self) -> Option<&mut BuiltArena> {
        match &self.refused {
            None => Some(&mut self.arena),
            Some(_) => None,
        }
    }

    /// What a change has made; keeps its refusal.
    #[inline(always)]
    pub(crate) fn keep<T>(&mut self, made: Result<T, ErrorKind>) -> Option<T> {
        match made {
            Ok(made) => Some(made),
            Err(kind) => {
                self.refuse(kind.into());
                None
            }
        }
    }

    /// How many elements, each of `words` words, a list is to have. Refuses more than a list can
    /// have.
    #[inline(always)]
    pub(crate) fn count_of(&mut self, elements: usize, words: usize) -> Option<u32> {
        if elements < MOST && elements.saturating_mul(words) < MOST {
            Some(elements as u32)
        } else {
            self.refuse(Reason::TooManyElements(elements).into());
            None
        }
    }

    /// Makes the root a new struct, all zero and null.
    #[inline]
    pub fn init_root(&mut self, size: StructSize) -> StructBuilder<'_> {
        let place = match self.changeable() {
            Some(arena) => {
                let made = value::init_root(arena, size);
                self.keep(made)
            }
            None => None,
        };
        StructBuilder::of(self, place)
    }

    /// The root, to be changed: with sections at least as large as `size`, and a new struct if the
    /// root is null. If the root isn't a struct, that is refused.
    pub fn edit_root(&mut self, size: StructSize) -> StructBuilder<'_> {
        let place = match self.changeable() {
            Some(arena) => {
                let found = PointerBuilder::get_root(arena).get_struct_place(size, None);
                self.keep(found)
            }
            None => None,
        };
        StructBuilder::of(self, place)
    }

    /// Makes the root a copy of a struct of a message that is read, as a plain copy.
    pub fn set_root<M: Meter>(&mut self, from: Struct<'_, M>) {
        self.copy_to_root(from.meter, |to, lim| to.set_struct(&from.raw, lim, false));
    }

    /// Makes the root a copy of what a pointer of a message that is read leads to, as a plain copy.
    pub fn set_root_pointer<M: Meter>(&mut self, from: Pointer<'_, M>) {
        self.copy_to_root(from.meter, |to, lim| to.copy_from(from.raw, lim, false));
    }

    fn copy_to_root<M: Meter>(
        &mut self,
        meter: M,
        copy: impl FnOnce(&mut BuiltPointer<'_>, &mut ReadLimiter) -> Result<(), ErrorKind>,
    ) {
        if let Some(arena) = self.changeable() {
            let made = meter.charge(|lim| copy(&mut PointerBuilder::get_root(arena), lim));
            self.keep(made);
        }
    }

    /// The message, to be read: with no limit for words, and 64 levels.
    pub fn as_message(&self) -> Result<Message<'_>, Error> {
        self.as_message_within(Limits::UNMETERED)
    }

    /// The message, to be read within limits.
    pub fn as_message_within(&self, limits: Limits) -> Result<Message<'_>, Error> {
        Ok(Message::new(
            Held::Built(self.built()?.get_segments_for_output()?),
            limits,
        ))
    }

    /// The canonical words. Like [`Message::canonical`] of [`as_message`](Builder::as_message),
    /// which has all other calls for a whole message as well.
    pub fn canonical(&self) -> Result<Vec<u8>, Error> {
        self.as_message()?.canonical()
    }

    /// The SHA-256 of the canonical words.
    pub fn digest(&self) -> Result<[u8; 32], Error> {
        self.as_message()?.digest()
    }

    /// The SHA-256 of `prefix` and then the canonical words. See [`Message::digest_with`].
    pub fn digest_with(&self, prefix: &[u8]) -> Result<[u8; 32], Error> {
        self.as_message()?.digest_with(prefix)
    }

    /// The words of the message's only segment, without a copy.
    pub fn words(&self) -> Result<&[u8], Error> {
        Ok(self.built()?.get_segment(0)?)
    }

    /// The words of the message's only segment, in the memory in which they were built.
    pub fn into_words(self) -> Result<Vec<u8>, Error> {
        self.built()?;
        Ok(self.arena.into_allocator().into_words())
    }

    fn write_frame<W: Output>(&self, output: &mut W) -> Result<(), Error> {
        Ok(write(output, &self.built()?.get_segments_for_output()?)?)
    }

    /// The frame, for `capnp decode` and other readers.
    pub fn to_frame(&self) -> Result<Vec<u8>, Error> {
        let mut bytes = Bytes(Vec::with_capacity(8 + 8 * self.arena.size_in_words()));
        self.write_frame(&mut bytes)?;
        Ok(bytes.0)
    }

    /// The packed frame, for `capnp decode --packed` and other readers.
    pub fn to_packed(&self) -> Result<Vec<u8>, Error> {
        let mut packing = PackingOutput::new(Bytes(Vec::new()));
        self.write_frame(&mut packing)?;
        match packing.write_pending() {
            Ok(()) => Ok(packing.into_packed().0),
            Err(DeviceFault) => Err(FrameError::WriteFailed.into()),
        }
    }

    /// Writes the frame to a writer, without a copy. A refusal of the message has the kind
    /// `InvalidData`, and writes nothing.
    #[cfg(feature = "std")]
    pub fn write(&self, mut writer: impl std::io::Write) -> std::io::Result<()> {
        let words = self.words()?;
        let mut table = [0; 8];
        table[4..].copy_from_slice(&((words.len() / 8) as u32).to_le_bytes());
        writer.write_all(&table)?;
        writer.write_all(words)
    }
}

/// The root that a reader shows, or the refusal.
impl fmt::Debug for Builder {
    fn fmt(&self, f: &mut fmt::Formatter<'_>) -> fmt::Result {
        match self.as_message().and_then(|it| {
            it.sound_pointer()
                .map(|root| write!(f, "Builder({root:?})"))
        }) {
            Ok(written) => written,
            Err(error) => write!(f, "Builder({error})"),
        }
    }
}

/// Canonical words that `copy` makes at the root of an empty message.
pub(crate) fn canonical_words<M: Meter>(
    meter: M,
    copy: impl FnOnce(&mut BuiltPointer<'_>, &mut ReadLimiter) -> Result<(), ErrorKind>,
) -> Result<Vec<u8>, Error> {
    let mut made = Builder::with_capacity(1024);
    made.copy_to_root(meter, copy);
    made.into_words()
}

/// Bytes in memory.
struct Bytes(Vec<u8>);

impl Output for Bytes {
    fn write(&mut self, from: &[u8]) -> Result<usize, DeviceFault> {
        self.0.extend_from_slice(from);
        Ok(from.len())
    }

    fn failed(&self) -> bool {
        false
    }
}
