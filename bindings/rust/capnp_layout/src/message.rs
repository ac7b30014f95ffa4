//! Messages that were received.

use crate::element::Structs;
use crate::error::Error;
use crate::growing::Growing;
use crate::meter::{Lazy, Sound};
use crate::proved::capnp_arena::arena::{
    ReaderArena, ReaderArenaImpl, ReaderOptions, ReaderSegments,
};
use crate::proved::capnp_messages::messages::{self, MessageExtent};
use crate::proved::capnp_pointers::pointers::{CanonicalFault, MessageSize};
use crate::proved::capnp_readers::readers::PointerReader;
use crate::proved::capnp_walks::walks::{walk_message, WalkedObject, NO_PARENT};
use crate::proved::capnp_words::error::ErrorKind;
use crate::proved::capnp_words::read_limiter::ReadLimiter;
use crate::proved::support::alloc::Global;
use crate::reading::{digest_after, Pointer, Struct};
use crate::searching;
use crate::segments::{Arena, Held, Segments};
use core::cell::Cell;
use core::fmt;
use core::marker::PhantomData;
use rust_alloc::vec;
use rust_alloc::vec::Vec;

/// What reading a message may cost.
#[derive(Clone, Copy, Debug, PartialEq, Eq)]
pub struct Limits {
    /// How many words may be read: the traversal limit. Words that several pointers lead to count
    /// for each of them. A frame with more words isn't opened.
    pub words: usize,
    /// How many structs and lists may be inside one another: the nesting limit. A number above
    /// [`MAX_DEPTH`](Limits::MAX_DEPTH) counts as that one. A level takes up to 0.5 KB of stack,
    /// or 0.9 KB if it is shown by `Debug`, and 5.5 KB without optimization: then more than 300
    /// levels need a thread with more than the usual 2 MiB.
    pub depth: u16,
}

impl Limits {
    /// The largest nesting limit that counts, so that no message ends the process: 1,024 levels
    /// fit in the stack of a thread.
    pub const MAX_DEPTH: u16 = 1024;

    /// Any number of words, and 64 levels: for messages that the program itself has made.
    pub const UNMETERED: Limits = Limits {
        words: usize::MAX,
        depth: 64,
    };

    pub(crate) fn options(self) -> ReaderOptions {
        ReaderOptions {
            traversal_limit_in_words: Some(self.words),
            nesting_limit: i32::from(self.depth.min(Self::MAX_DEPTH)),
        }
    }
}

impl Default for Limits {
    /// 8,388,608 words (64 MiB), and 64 levels: the defaults of other implementations.
    fn default() -> Self {
        Limits {
            words: 8 * 1024 * 1024,
            depth: 64,
        }
    }
}

/// A message that was received, in the memory of the program or in its own.
///
/// [`root`](Message::root) checks all of it against a schema, and then no getter is refused;
/// [`sound`](Message::sound) checks all of it without a schema, and then reads at no further cost;
/// [`lazy`](Message::lazy) checks each object when it is read. Opening reads only the frame, so a
/// message that was opened may be broken.
///
/// Two messages are equal if their canonical words are, within the limits of each; a message that
/// has none, because it is refused or has a capability, equals nothing.
pub struct Message<'a> {
    pub(crate) arena: Arena<'a>,
    limits: Limits,
    left: Cell<usize>,
}

impl<'a> Message<'a> {
    pub(crate) fn new(segments: Held<'a>, limits: Limits) -> Self {
        let arena = ReaderArenaImpl::new(segments, limits.options());
        Message {
            arena,
            limits,
            left: Cell::new(limits.words),
        }
    }

    /// The limits that it was opened with.
    pub fn limits(&self) -> Limits {
        self.limits
    }

    /// The segments, each as its bytes.
    pub fn segments(&self) -> Segments<'_> {
        Segments::of(&self.arena)
    }

    /// The number of words in all segments.
    pub fn size_in_words(&self) -> usize {
        self.arena.size_in_words()
    }

    pub(crate) fn limiter(&self) -> ReadLimiter {
        ReadLimiter::new(Some(self.limits.words))
    }

    /// What the whole message was refused with, and where.
    #[cold]
    fn error_of(&self, kind: ErrorKind) -> Error {
        let mut lim = self.limiter();
        match PointerReader::get_root_from_arena(&self.arena, &mut lim) {
            Ok(root) => searching::error_of(kind, root, &mut lim),
            Err(kind) => kind.into(),
        }
    }

    /// The root pointer, after a check of the whole message within its limits, also if it was read
    /// before. See [`sound`](Message::sound).
    pub fn sound_pointer(&self) -> Result<Pointer<'_>, Error> {
        let mut lim = self.limiter();
        let root = PointerReader::get_root_from_arena(&self.arena, &mut lim)?;
        match root.pointer().validate(&mut lim) {
            Ok(_) => Ok(Pointer {
                raw: root,
                meter: Sound::NEW,
            }),
            Err(kind) => Err(self.error_of(kind)),
        }
    }

    /// The root struct, after a check of the whole message within its limits. From then on no limit
    /// and no broken pointer refuses a getter: only what isn't of the type that the program
    /// wants is refused. The check takes about half of the time of reading, and each call makes
    /// it again: pass the struct on, or keep a [`Checked`].
    ///
    /// The error has the path of the pointer that was refused.
    pub fn sound(&self) -> Result<Struct<'_>, Error> {
        self.sound_pointer()?.as_struct()
    }

    /// The root pointer, unchecked. See [`lazy`](Message::lazy).
    pub fn lazy_pointer(&self) -> Result<Pointer<'_, Lazy<'_>>, Error> {
        let meter = Lazy(&self.left);
        let raw = crate::meter::Meter::charge(meter, |lim| {
            PointerReader::get_root_from_arena(&self.arena, lim)
        })?;
        Ok(Pointer { raw, meter })
    }

    /// The root struct, unchecked: each getter that follows a pointer checks what it leads to, and
    /// charges the message, from the first such call on. What was charged is never given back,
    /// so two readings cost twice as much as one.
    pub fn lazy(&self) -> Result<Struct<'_, Lazy<'_>>, Error> {
        self.lazy_pointer()?.as_struct()
    }

    /// Checks the message as [`sound`](Message::sound) does, and keeps it.
    pub fn into_checked(self) -> Result<Checked<'a>, Error> {
        self.sound()?;
        Ok(Checked::of(self.arena))
    }

    /// The canonical words, one segment: equal values have equal words (encoding specification,
    /// "Canonicalization"). Reads within the limits.
    pub fn canonical(&self) -> Result<Vec<u8>, Error> {
        match messages::canonicalize(
            Global,
            Growing::new(8 * (self.size_in_words() + 1)),
            &self.arena,
            Some(self.limits.words),
        ) {
            Ok(made) => Ok(made.into_allocator().into_words()),
            Err((kind, _)) => Err(self.error_of(kind)),
        }
    }

    /// The SHA-256 of the canonical words. A message of fewer than 64 words, or one that is
    /// canonical, takes no memory.
    pub fn digest(&self) -> Result<[u8; 32], Error> {
        let (digest, _) = messages::digest(
            Global,
            Growing::new(0),
            &self.arena,
            Some(self.limits.words),
        );
        digest.map_err(|kind| self.error_of(kind))
    }

    /// The SHA-256 of `prefix` and then the canonical words. Canonical words don't tell their type:
    /// with the id of the type as the prefix, the digest and a signature of it cover the type. The
    /// prefixes of all digests that are compared should have one size, or none should begin with
    /// another. A message that is canonical takes no memory.
    ///
    /// ```
    /// # use capnp_layout::{Builder, Error, Limits, Message, StructSize};
    /// # let mut built = Builder::new();
    /// # built.init_root(StructSize { data_words: 1, pointers: 0 }).set_u32(0, 5);
    /// # let frame = built.to_frame()?;
    /// const PERSON: u64 = 0x98808e9832e8bc18; // `Person::TYPE_ID` of generated code
    ///
    /// let message = Message::open(&frame, Limits::default())?;
    /// let digest: [u8; 32] = message.digest_with(&PERSON.to_le_bytes())?;
    /// # assert_ne!(digest, message.digest()?);
    /// # Ok::<(), Error>(())
    /// ```
    pub fn digest_with(&self, prefix: &[u8]) -> Result<[u8; 32], Error> {
        Ok(
            match messages::canonical_segment(&self.arena, Some(self.limits.words)) {
                Some(words) => digest_after(prefix, words),
                None => digest_after(prefix, &self.canonical()?),
            },
        )
    }

    /// Where and why the message isn't canonical; `None` if it is.
    pub fn check(&self) -> Result<Option<CanonicalFault>, Error> {
        messages::check(&self.arena, Some(self.limits.words)).map_err(|kind| self.error_of(kind))
    }

    /// Whether the message is canonical.
    pub fn is_canonical(&self) -> Result<bool, Error> {
        Ok(self.check()?.is_none())
    }

    /// Checks the whole message, and returns how deep it is, how much it holds, and what reading it
    /// costs.
    pub fn validate(&self) -> Result<MessageExtent, Error> {
        messages::validate(&self.arena, Some(self.limits.words)).map_err(|kind| self.error_of(kind))
    }

    /// The words and capabilities of the value, without the root pointer and landing pads.
    pub fn size(&self) -> Result<MessageSize, Error> {
        messages::size(&self.arena, Some(self.limits.words)).map_err(|kind| self.error_of(kind))
    }

    /// All objects of the message, each with its place and the pointer that leads to it, before
    /// those that its own pointers lead to. Takes memory for the objects. There are at most as
    /// many objects as words may be read.
    pub fn walk(&self) -> Result<Vec<WalkedObject>, Error> {
        // The first walk counts.
        let count = self.walk_into(&mut [])?;
        let mut objects = vec![NO_OBJECT; count];
        self.walk_into(&mut objects)?;
        Ok(objects)
    }

    /// Writes the objects of the message to `objects` until it is full, and returns the number of
    /// all. Takes no memory.
    pub fn walk_into(&self, objects: &mut [WalkedObject]) -> Result<usize, Error> {
        let walked = walk_message(Lent(&self.arena), self.limits.options(), objects);
        match walked.refused {
            Some(refused) => Err(self.error_of(refused.refusal)),
            None => Ok(walked.count as usize),
        }
    }
}

const NO_OBJECT: WalkedObject = WalkedObject {
    parent: NO_PARENT,
    pointer_segment: 0,
    segment: 0,
    pointer_word: 0,
    word: 0,
    kind: 0,
    count: 0,
    capability: 0,
    data_words: 0,
    pointers: 0,
};

/// The segments of an arena.
struct Lent<'m>(&'m Arena<'m>);

impl ReaderSegments for Lent<'_> {
    fn get_segment(&self, id: u32) -> Option<&[u8]> {
        self.0.get_segment(id).ok()
    }

    fn len(&self) -> usize {
        Segments::of(self.0).count()
    }
}

impl<'b> PartialEq<Message<'b>> for Message<'_> {
    fn eq(&self, other: &Message<'b>) -> bool {
        matches!((self.canonical(), other.canonical()), (Ok(a), Ok(b)) if a == b)
    }
}

/// The root that a checked reader shows, or why there is none.
impl fmt::Debug for Message<'_> {
    fn fmt(&self, f: &mut fmt::Formatter<'_>) -> fmt::Result {
        match self.sound_pointer() {
            Ok(root) => f.debug_tuple("Message").field(&root).finish(),
            Err(error) => write!(f, "Message({error})"),
        }
    }
}

/// A message that was checked as a whole. If it owns its words, for example after
/// [`Message::read`], it is `Checked<'static>`: a field of a struct, or shared by threads.
///
/// ```
/// # use capnp_layout::{Builder, Checked, Limits, Message, StructSize};
/// # let mut built = Builder::new();
/// # built.init_root(StructSize { data_words: 1, pointers: 0 }).set_u64(0, 5);
/// # let bytes = built.to_frame()?;
/// struct Job {
///     request: Checked<'static>,
/// }
/// let job = Job { request: Message::copy(&bytes, Limits::default())?.into_checked()? };
/// let worker = std::thread::spawn(move || job.request.root().get_u64(0));
/// assert_eq!(worker.join().unwrap(), 5);
/// # Ok::<(), capnp_layout::Error>(())
/// ```
///
/// `T` is the type of the root if the message was checked against its schema, by
/// [`Message::into_root`].
pub struct Checked<'a, T: ?Sized = Structs> {
    message: Arena<'a>,
    of: PhantomData<fn() -> *const T>,
}

impl<'a, T: ?Sized> Checked<'a, T> {
    pub(crate) fn of(message: Arena<'a>) -> Self {
        Checked {
            message,
            of: PhantomData,
        }
    }

    fn sound_pointer(&self) -> Pointer<'_> {
        Pointer {
            raw: self.root_pointer(),
            meter: Sound::NEW,
        }
    }

    /// The root pointer of a message that has one.
    pub(crate) fn root_pointer(&self) -> PointerReader<'_, Arena<'_>> {
        match PointerReader::get_root_from_arena(&self.message, &mut ReadLimiter::new(None)) {
            Ok(root) => root,
            Err(_) => unreachable!("a checked message was refused"),
        }
    }

    /// The segments, each as its bytes.
    pub fn segments(&self) -> Segments<'_> {
        Segments::of(&self.message)
    }
}

impl Checked<'_> {
    /// The root. Costs no check.
    pub fn root(&self) -> Struct<'_> {
        match self.sound_pointer().as_struct() {
            Ok(root) => root,
            Err(_) => unreachable!("a checked message was refused"),
        }
    }
}

impl<'b, T: ?Sized, U: ?Sized> PartialEq<Checked<'b, U>> for Checked<'_, T> {
    fn eq(&self, other: &Checked<'b, U>) -> bool {
        self.sound_pointer() == other.sound_pointer()
    }
}

impl<T: ?Sized> fmt::Debug for Checked<'_, T> {
    fn fmt(&self, f: &mut fmt::Formatter<'_>) -> fmt::Result {
        f.debug_tuple("Checked")
            .field(&self.sound_pointer())
            .finish()
    }
}
