//! Debug output of readers: all of the value, by kind and size, since the names are in a schema.

use crate::element::{Element, Pointers, Structs};
use crate::error::Error;
use crate::meter::Meter;
use crate::proved::capnp_words::wire_pointer::ElementSize;
use crate::reading::{Pointer, Struct, Target};
use core::fmt;

/// Bytes in hexadecimal, in their order.
struct Hex<'a>(&'a [u8]);

impl fmt::Debug for Hex<'_> {
    fn fmt(&self, f: &mut fmt::Formatter<'_>) -> fmt::Result {
        f.write_str("0x")?;
        self.0.iter().try_for_each(|byte| write!(f, "{byte:02x}"))
    }
}

/// The pointers of a struct.
struct PointersOf<'a, M>(Struct<'a, M>);

impl<M: Meter> fmt::Debug for PointersOf<'_, M> {
    fn fmt(&self, f: &mut fmt::Formatter<'_>) -> fmt::Result {
        f.debug_list()
            .entries((0..self.0.pointer_count()).map(|index| self.0.get_pointer(index.into())))
            .finish()
    }
}

/// `Struct { data: 0x7b00000000000000, pointers: [b"Alice\0", null] }`. What can't be read is shown
/// as its error. A lazy reader charges its message.
impl<M: Meter> fmt::Debug for Struct<'_, M> {
    fn fmt(&self, f: &mut fmt::Formatter<'_>) -> fmt::Result {
        f.debug_struct("Struct")
            .field("data", &Hex(self.data_section()))
            .field("pointers", &PointersOf(*self))
            .finish()
    }
}

impl<M: Meter> Pointer<'_, M> {
    fn show_list<T: Element + ?Sized>(&self, f: &mut fmt::Formatter<'_>) -> fmt::Result {
        match self.as_list::<T>() {
            Ok(list) => fmt::Debug::fmt(&list, f),
            Err(error) => error.fmt_refusal(f),
        }
    }

    fn show_list_of(&self, size: ElementSize, f: &mut fmt::Formatter<'_>) -> fmt::Result {
        match size {
            ElementSize::Void => self.show_list::<()>(f),
            ElementSize::Bit => self.show_list::<bool>(f),
            ElementSize::Byte => match self.as_data() {
                Ok(bytes) => write!(f, "b\"{}\"", bytes.escape_ascii()),
                Err(error) => error.fmt_refusal(f),
            },
            ElementSize::TwoBytes => self.show_list::<u16>(f),
            ElementSize::FourBytes => self.show_list::<u32>(f),
            ElementSize::EightBytes => self.show_list::<u64>(f),
            ElementSize::Pointer => self.show_list::<Pointers>(f),
            ElementSize::InlineComposite => self.show_list::<Structs>(f),
        }
    }
}

impl<M: Meter> fmt::Debug for Pointer<'_, M> {
    fn fmt(&self, f: &mut fmt::Formatter<'_>) -> fmt::Result {
        match self.target() {
            Ok(Target::Null) => f.write_str("null"),
            Ok(Target::Struct(found)) => found.fmt(f),
            Ok(Target::List { size, .. }) => self.show_list_of(size, f),
            Ok(Target::Capability(index)) => write!(f, "capability {index}"),
            Err(error) => error.fmt_refusal(f),
        }
    }
}

impl Error {
    /// In place of what can't be read.
    fn fmt_refusal(&self, f: &mut fmt::Formatter<'_>) -> fmt::Result {
        write!(f, "<{}>", self.reason())
    }
}
