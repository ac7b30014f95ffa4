//! A stand-in for the crate `capnp` in version 0.27.3: the public items that `capnp_canonical_capnp` uses, with the
//! signatures of that version, and what a test of them needs. A value is all segments of a message, and its copy has the
//! same ones. A message whose traversal limit is 0 can't be copied.
#![no_std]

#[cfg(feature = "alloc")]
extern crate alloc;

use core::fmt;

pub type Result<T> = core::result::Result<T, Error>;

#[derive(Clone, Copy, Debug, PartialEq, Eq)]
#[non_exhaustive]
pub enum ErrorKind {
    Failed,
    ReadLimitExceeded,
}

#[derive(Clone, Debug, PartialEq, Eq)]
pub struct Error {
    pub kind: ErrorKind,
    #[cfg(feature = "alloc")]
    pub extra: alloc::string::String,
}

impl Error {
    #[cfg(feature = "alloc")]
    pub fn failed(message: alloc::string::String) -> Self {
        Error {
            kind: ErrorKind::Failed,
            extra: message,
        }
    }

    pub fn from_kind(kind: ErrorKind) -> Self {
        Error {
            kind,
            #[cfg(feature = "alloc")]
            extra: alloc::string::String::new(),
        }
    }
}

impl fmt::Display for Error {
    fn fmt(&self, f: &mut fmt::Formatter<'_>) -> fmt::Result {
        #[cfg(feature = "alloc")]
        write!(f, "{:?}: {}", self.kind, self.extra)?;
        #[cfg(not(feature = "alloc"))]
        write!(f, "{:?}", self.kind)?;
        Ok(())
    }
}

impl core::error::Error for Error {}

pub mod private {
    pub mod layout {
        use crate::message::ReaderSegments;

        pub struct PointerReader<'a> {
            pub segments: &'a dyn ReaderSegments,
            pub can_be_read: bool,
        }

        #[cfg(feature = "alloc")]
        pub struct PointerBuilder<'a>(pub &'a mut alloc::vec::Vec<alloc::vec::Vec<u8>>);
    }
}

pub mod traits {
    use crate::private::layout;
    use crate::{Result, Word};

    pub trait FromPointerReader<'a>: Sized {
        fn get_from_pointer(
            reader: &layout::PointerReader<'a>,
            default: Option<&'a [Word]>,
        ) -> Result<Self>;
    }

    pub trait Owned {
        type Reader<'a>: FromPointerReader<'a>;
    }

    #[cfg(feature = "alloc")]
    pub trait SetterInput<Receiver: Owned> {
        fn set_pointer_builder(
            builder: layout::PointerBuilder<'_>,
            input: Self,
            canonicalize: bool,
        ) -> Result<()>;
    }
}

#[derive(Clone, Copy, Debug)]
#[repr(transparent)]
pub struct Word(pub u64);

pub mod any_pointer {
    use crate::message::ReaderSegments;
    use crate::private::layout::PointerReader;
    use crate::traits::FromPointerReader;
    use crate::{Result, Word};

    pub struct Owned(());

    impl crate::traits::Owned for Owned {
        type Reader<'a> = Reader<'a>;
    }

    #[derive(Clone, Copy)]
    pub struct Reader<'a> {
        pub segments: &'a dyn ReaderSegments,
        pub can_be_read: bool,
    }

    impl<'a> FromPointerReader<'a> for Reader<'a> {
        fn get_from_pointer(reader: &PointerReader<'a>, _: Option<&'a [Word]>) -> Result<Self> {
            Ok(Reader {
                segments: reader.segments,
                can_be_read: reader.can_be_read,
            })
        }
    }

    #[cfg(feature = "alloc")]
    impl<'a> crate::traits::SetterInput<Owned> for Reader<'a> {
        fn set_pointer_builder(
            builder: crate::private::layout::PointerBuilder<'_>,
            value: Reader<'a>,
            _: bool,
        ) -> Result<()> {
            if !value.can_be_read {
                return Err(crate::Error::from_kind(crate::ErrorKind::ReadLimitExceeded));
            }
            *builder.0 = (0..)
                .map_while(|id| value.segments.get_segment(id).map(<[u8]>::to_vec))
                .collect();
            Ok(())
        }
    }
}

pub mod message {
    use crate::any_pointer;
    use crate::private::layout::PointerReader;
    use crate::traits::FromPointerReader;
    use crate::Result;

    #[derive(Clone, Copy, Debug)]
    pub struct ReaderOptions {
        pub traversal_limit_in_words: Option<usize>,
        pub nesting_limit: i32,
    }

    impl ReaderOptions {
        pub fn new() -> Self {
            ReaderOptions {
                traversal_limit_in_words: Some(8 * 1024 * 1024),
                nesting_limit: 64,
            }
        }
    }

    pub trait ReaderSegments {
        fn get_segment(&self, id: u32) -> Option<&[u8]>;

        fn len(&self) -> usize {
            (0..)
                .take_while(|id| self.get_segment(*id).is_some())
                .count()
        }

        fn is_empty(&self) -> bool {
            self.len() == 0
        }
    }

    impl<S: ReaderSegments> ReaderSegments for &S {
        fn get_segment(&self, id: u32) -> Option<&[u8]> {
            (**self).get_segment(id)
        }
    }

    impl ReaderSegments for [&[u8]] {
        fn get_segment(&self, id: u32) -> Option<&[u8]> {
            self.get(id as usize).copied()
        }
    }

    pub struct SegmentArray<'a> {
        segments: &'a [&'a [u8]],
    }

    impl<'a> SegmentArray<'a> {
        pub fn new(segments: &'a [&'a [u8]]) -> SegmentArray<'a> {
            SegmentArray { segments }
        }
    }

    impl ReaderSegments for SegmentArray<'_> {
        fn get_segment(&self, id: u32) -> Option<&[u8]> {
            self.segments.get(id as usize).copied()
        }
    }

    pub struct Reader<S: ReaderSegments> {
        segments: S,
        options: ReaderOptions,
    }

    impl<S: ReaderSegments> Reader<S> {
        pub fn new(segments: S, options: ReaderOptions) -> Self {
            Reader { segments, options }
        }

        pub fn get_root<'a, T: FromPointerReader<'a>>(&'a self) -> Result<T> {
            let pointer = PointerReader {
                segments: &self.segments,
                can_be_read: self.options.traversal_limit_in_words != Some(0),
            };
            let root = <any_pointer::Reader as FromPointerReader>::get_from_pointer(&pointer, None);
            root.and_then(|_| T::get_from_pointer(&pointer, None))
        }

        pub fn into_segments(self) -> S {
            self.segments
        }
    }

    #[cfg(feature = "alloc")]
    pub use built::*;

    #[cfg(feature = "alloc")]
    mod built {
        use super::ReaderSegments;
        use crate::private::layout::PointerBuilder;
        use crate::traits::{Owned, SetterInput};
        use crate::Result;
        use alloc::vec::Vec;

        // an unsafe trait in capnp; nothing here relies on that
        pub trait Allocator {}

        pub struct HeapAllocator(());

        impl Allocator for HeapAllocator {}

        pub struct Builder<A: Allocator> {
            segments: Vec<Vec<u8>>,
            _allocator: A,
        }

        impl Builder<HeapAllocator> {
            pub fn new_default() -> Self {
                Builder {
                    segments: Vec::new(),
                    _allocator: HeapAllocator(()),
                }
            }
        }

        impl<A: Allocator> Builder<A> {
            pub fn set_root<T: Owned>(&mut self, value: impl SetterInput<T>) -> Result<()> {
                SetterInput::set_pointer_builder(PointerBuilder(&mut self.segments), value, false)
            }
        }

        impl<A: Allocator> ReaderSegments for Builder<A> {
            fn get_segment(&self, id: u32) -> Option<&[u8]> {
                self.segments.get(id as usize).map(Vec::as_slice)
            }
        }
    }
}
