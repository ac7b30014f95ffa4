//! Readers of pointers and structs.

use crate::builder::canonical_words;
use crate::element::{Element, Number, Structs};
use crate::error::{Error, Reason};
use crate::list::List;
use crate::meter::{Meter, Sound};
use crate::proved::capnp_pointers::pointers::{Extent, MessageSize};
use crate::proved::capnp_readers::readers::{PointerReader, StructReader, Target as RawTarget};
use crate::proved::capnp_words::wire_pointer::ElementSize;
use crate::proved::support::sha2::{Digest, Sha256};
use crate::segments::Arena;
use core::str;
use rust_alloc::vec::Vec;

/// A pointer of a message that is read.
///
/// Two pointers are equal if the canonical words of their values are; a value that has none, such
/// as one with a capability, equals nothing.
#[derive(Clone, Copy)]
pub struct Pointer<'a, M = Sound> {
    pub(crate) raw: PointerReader<'a, Arena<'a>>,
    pub(crate) meter: M,
}

/// What a pointer leads to.
#[derive(Clone, Copy)]
pub enum Target<'a, M = Sound> {
    /// Nothing: the pointer is null.
    Null,
    /// A struct.
    Struct(Struct<'a, M>),
    /// A list, to be read by [`Pointer::as_list`].
    List {
        /// The size of its elements.
        size: ElementSize,
        /// Their number.
        len: usize,
    },
    /// A capability, by its index in the message's capability table.
    Capability(u32),
}

/// The SHA-256 of `prefix` and then `words`.
pub(crate) fn digest_after(prefix: &[u8], words: &[u8]) -> [u8; 32] {
    let mut hash = Sha256::new();
    hash.update(prefix);
    hash.update(words);
    hash.finalize()
}

fn text_of(bytes: &[u8]) -> Result<&str, Error> {
    str::from_utf8(bytes).map_err(|_| Reason::TextIsNotUtf8.into())
}

impl<'a, M: Meter> Pointer<'a, M> {
    /// The same without the schema that the message was checked against.
    #[inline(always)]
    pub(crate) fn plain(self) -> Pointer<'a, M::Plain> {
        Pointer {
            raw: self.raw,
            meter: self.meter.plain(),
        }
    }

    /// Whether the pointer is null.
    #[inline(always)]
    pub fn is_null(&self) -> bool {
        self.raw.is_null()
    }

    /// The text; `""` if the pointer is null.
    #[inline(always)]
    pub fn as_text(&self) -> Result<&'a str, Error> {
        text_of(self.as_text_bytes()?)
    }

    /// The bytes of the text, which needn't be UTF-8, without the zero byte at its end; none if the
    /// pointer is null.
    #[inline(always)]
    pub fn as_text_bytes(&self) -> Result<&'a [u8], Error> {
        let mut lim = self.meter.limiter();
        let read = self.raw.get_text(&mut lim, None);
        self.meter.settle(&lim);
        Ok(read?)
    }

    /// The data; no bytes if the pointer is null.
    #[inline(always)]
    pub fn as_data(&self) -> Result<&'a [u8], Error> {
        let mut lim = self.meter.limiter();
        let read = self.raw.get_data(&mut lim, None);
        self.meter.settle(&lim);
        Ok(read?)
    }

    /// The struct; one without fields if the pointer is null.
    #[inline(always)]
    pub fn as_struct(&self) -> Result<Struct<'a, M>, Error> {
        let mut lim = self.meter.limiter();
        let read = self.raw.get_struct(&mut lim, None);
        self.meter.settle(&lim);
        Ok(Struct {
            raw: read?,
            meter: self.meter,
        })
    }

    /// The list; one without elements if the pointer is null. Its elements may be wider than `T`,
    /// or structs that begin with a `T` in a newer schema (encoding specification, "Lists").
    #[inline(always)]
    pub fn as_list<T: Element + ?Sized>(&self) -> Result<List<'a, T, M>, Error> {
        let mut lim = self.meter.limiter();
        let read = self.raw.get_list(&mut lim, T::SIZE, None);
        self.meter.settle(&lim);
        Ok(List::of(read?, self.meter))
    }

    /// The index of the capability; refused if the pointer is null.
    pub fn as_capability(&self) -> Result<u32, Error> {
        Ok(self.raw.get_capability()?)
    }

    /// What the pointer leads to, of any kind. Checks and charges the object's words like the other
    /// calls.
    pub fn target(&self) -> Result<Target<'a, M>, Error> {
        let meter = self.meter;
        Ok(match meter.charge(|lim| self.raw.next(lim))? {
            RawTarget::Null => Target::Null,
            RawTarget::Struct(raw) => Target::Struct(Struct { raw, meter }),
            RawTarget::List(raw) => Target::List {
                size: raw.get_element_size(),
                len: raw.len() as usize,
            },
            RawTarget::Cap(index) => Target::Capability(index),
        })
    }

    /// The canonical words of the value, with a root pointer to it.
    pub fn canonical(&self) -> Result<Vec<u8>, Error> {
        canonical_words(self.meter, |to, lim| to.copy_from(self.raw, lim, true))
    }

    /// The SHA-256 of the canonical words.
    pub fn digest(&self) -> Result<[u8; 32], Error> {
        self.digest_with(&[])
    }

    /// The SHA-256 of `prefix` and then the canonical words. See
    /// [`Message::digest_with`](crate::Message::digest_with).
    pub fn digest_with(&self, prefix: &[u8]) -> Result<[u8; 32], Error> {
        Ok(digest_after(prefix, &self.canonical()?))
    }

    /// The words and capabilities of the value. Each capability takes a level here, but not in a
    /// check of the whole message. So even after that this is refused if a capability is too deep.
    pub fn size(&self) -> Result<MessageSize, Error> {
        Ok(self
            .meter
            .charge(|lim| self.raw.pointer().total_size(lim))?)
    }

    /// Checks the whole value, and returns how deep it is and how much it holds.
    pub fn validate(&self) -> Result<Extent, Error> {
        Ok(self.meter.charge(|lim| self.raw.pointer().validate(lim))?)
    }
}

/// A struct of a message that is read. Fields are named as the encoding specification does: numbers
/// by their offset, counted in numbers of their size, bits by that of the bit, and pointers by
/// their index. A field that the struct doesn't have, because an older schema wrote it, is zero or
/// null.
///
/// Two structs are equal if their canonical words are; a struct that has none, such as one with a
/// capability, equals nothing.
///
/// ```
/// # use capnp_layout::{Builder, Lists, Pointers, Structs, StructSize};
/// # let mut built = Builder::new();
/// # let size = StructSize { data_words: 1, pointers: 3 };
/// # let mut root = built.init_root(size);
/// # root.set_bool(33, true).set_u16(1, 7).set_text(0, "Alice");
/// # let mut list = root.init_list::<u8>(1, 2);
/// # list.set(0, 1);
/// # root.init_structs(2, 1, size).at(0).set_text(0, "Bob");
/// # let message = built.as_message()?;
/// let person = message.sound()?;
/// let (flag, age) = (person.get_bool(33), person.get_u16(1)); // bit 33, and the second u16
/// let name: &str = person.get_text(0)?;
/// let bytes: Vec<u8> = person.get_list::<u8>(1)?.iter().collect();
/// for friend in person.get_structs(2)? {
///     println!("{}", friend.get_text(0)?);
/// }
/// # assert_eq!((flag, age, name, &bytes[..]), (true, 7, "Alice", &[1, 0][..]));
/// # Ok::<(), capnp_layout::Error>(())
/// ```
#[derive(Clone, Copy)]
pub struct Struct<'a, M = Sound> {
    pub(crate) raw: StructReader<'a, Arena<'a>>,
    pub(crate) meter: M,
}

macro_rules! get_numbers {
    ($($name:ident: $t:ty),*) => {
        $(
            #[doc = concat!("The `", stringify!($t), "` at `offset`, counted in numbers of this")]
            /// size; 0 if the struct ends before it.
            #[inline(always)]
            pub fn $name(&self, offset: usize) -> $t {
                self.get(offset)
            }
        )*
    };
}

impl<'a, M: Meter> Struct<'a, M> {
    /// The bytes of the data section.
    pub fn data_section(&self) -> &'a [u8] {
        self.raw.data_bytes()
    }

    /// The number of pointers.
    pub fn pointer_count(&self) -> u16 {
        self.raw.pointer_count()
    }

    /// The number at `offset`, counted in numbers of this size; 0 if the struct ends before it.
    #[inline(always)]
    pub fn get<T: Number>(&self, offset: usize) -> T {
        T::from_bits(self.raw.get_data_field(offset))
    }

    /// The number at `offset` of a field whose default value is `default`: the exclusive or of
    /// both.
    #[inline(always)]
    pub fn get_or<T: Number>(&self, offset: usize, default: T) -> T {
        T::masked(self.get(offset), default)
    }

    get_numbers!(get_u8: u8, get_u16: u16, get_u32: u32, get_u64: u64);
    get_numbers!(get_i8: i8, get_i16: i16, get_i32: i32, get_i64: i64);
    get_numbers!(get_f32: f32, get_f64: f64);

    /// The bit at `offset`; `false` if the struct ends before it.
    #[inline(always)]
    pub fn get_bool(&self, offset: usize) -> bool {
        self.raw.get_bool_field(offset)
    }

    /// Pointer `index`; a null pointer if the struct has fewer.
    #[inline(always)]
    pub fn get_pointer(&self, index: usize) -> Pointer<'a, M> {
        Pointer {
            raw: self.raw.get_pointer_field(index),
            meter: self.meter,
        }
    }

    /// Whether pointer `index` isn't null.
    #[inline(always)]
    pub fn has(&self, index: usize) -> bool {
        !self.raw.is_pointer_field_null(index)
    }

    /// The text of pointer `index`; `""` if it is null.
    #[inline(always)]
    pub fn get_text(&self, index: usize) -> Result<&'a str, Error> {
        self.get_pointer(index).as_text()
    }

    /// The bytes of the text of pointer `index`, which needn't be UTF-8; none if it is null.
    #[inline(always)]
    pub fn get_text_bytes(&self, index: usize) -> Result<&'a [u8], Error> {
        self.get_pointer(index).as_text_bytes()
    }

    /// The data of pointer `index`; no bytes if it is null.
    #[inline(always)]
    pub fn get_data(&self, index: usize) -> Result<&'a [u8], Error> {
        self.get_pointer(index).as_data()
    }

    /// The struct of pointer `index`; one without fields if it is null.
    #[inline(always)]
    pub fn get_struct(&self, index: usize) -> Result<Struct<'a, M>, Error> {
        self.get_pointer(index).as_struct()
    }

    /// The list of pointer `index`; one without elements if it is null. See [`Pointer::as_list`].
    #[inline(always)]
    pub fn get_list<T: Element + ?Sized>(&self, index: usize) -> Result<List<'a, T, M>, Error> {
        self.get_pointer(index).as_list()
    }

    /// The list of structs of pointer `index`; one without elements if it is null.
    #[inline(always)]
    pub fn get_structs(&self, index: usize) -> Result<List<'a, Structs, M>, Error> {
        self.get_list(index)
    }

    /// The index of the capability of pointer `index`; refused if it is null.
    pub fn get_capability(&self, index: usize) -> Result<u32, Error> {
        self.get_pointer(index).as_capability()
    }

    /// The canonical words of the struct, with a root pointer to it.
    pub fn canonical(&self) -> Result<Vec<u8>, Error> {
        canonical_words(self.meter, |to, lim| to.set_struct(&self.raw, lim, true))
    }

    /// The SHA-256 of the canonical words.
    pub fn digest(&self) -> Result<[u8; 32], Error> {
        self.digest_with(&[])
    }

    /// The SHA-256 of `prefix` and then the canonical words. See
    /// [`Message::digest_with`](crate::Message::digest_with).
    pub fn digest_with(&self, prefix: &[u8]) -> Result<[u8; 32], Error> {
        Ok(digest_after(prefix, &self.canonical()?))
    }

    /// The words and capabilities of the struct and all below it. Each capability takes a level
    /// here, but not in a check of the whole message. So even after that this is refused if a
    /// capability is too deep.
    pub fn size(&self) -> Result<MessageSize, Error> {
        Ok(self.meter.charge(|lim| self.raw.total_size(lim))?)
    }
}

impl<'b, M: Meter, N: Meter> PartialEq<Struct<'b, N>> for Struct<'_, M> {
    fn eq(&self, other: &Struct<'b, N>) -> bool {
        matches!((self.canonical(), other.canonical()), (Ok(a), Ok(b)) if a == b)
    }
}

impl<'b, M: Meter, N: Meter> PartialEq<Pointer<'b, N>> for Pointer<'_, M> {
    fn eq(&self, other: &Pointer<'b, N>) -> bool {
        matches!((self.canonical(), other.canonical()), (Ok(a), Ok(b)) if a == b)
    }
}
