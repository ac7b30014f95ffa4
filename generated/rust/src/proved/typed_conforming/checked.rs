//! The structs of a message that was tested against its schema. Their getters can't be refused, and
//! charge nothing.

use crate::proved::capnp_arena_traits::arena::ReaderArena;
use crate::proved::capnp_pointers::pointers::Pointer;
use crate::proved::capnp_readers::readers::{ListReader, PrimitiveElement, StructReader};
use crate::proved::capnp_words::error::ErrorKind;
use crate::proved::capnp_words::read_limiter::ReadLimiter;
use crate::proved::capnp_words::wire_pointer::ElementSize;
use crate::proved::typed_conforming::conforms::conforms;
use crate::proved::typed_conforming::schema::{Kind, Misfit};
use crate::proved::typed_reading::list::{self, NumbersReader, StructsReader};
use crate::proved::typed_reading::value;

/// A struct that conforms to a row of a schema, with all that it leads to; or a number of a list,
/// read as a struct without pointers.
///
/// Required of the fields: as `CheckedStruct::root` and the getters return them.
pub struct CheckedStruct<'a, 's, A: ReaderArena> {
    /// The struct. Its numbers are read by `typed_reading::value`, which refuses nothing.
    pub reader: StructReader<'a, A>,
    /// The schema's table.
    pub table: &'s [u32],
    /// The position of the struct's row.
    pub row: u32,
}

impl<'a, 's, A: ReaderArena> Clone for CheckedStruct<'a, 's, A> {
    #[inline]
    fn clone(&self) -> Self {
        *self
    }
}

impl<'a, 's, A: ReaderArena> Copy for CheckedStruct<'a, 's, A> {}

impl<'a, 's, A: ReaderArena> CheckedStruct<'a, 's, A> {
    /// Tests a message, and returns its root. The whole message has to be readable within both
    /// limits, and its root has to be a struct that conforms to the row at `row` of `table`, or null,
    /// which reads as a struct without sections.
    ///
    /// Charges one word for the root pointer, and what reading the whole message once costs. After
    /// that, nothing that the root leads to is charged.
    ///
    /// Refuses like `Pointer::get_root_from_arena`, then at word 0 of segment 0, and like `conforms`.
    /// What was charged before stays charged.
    #[inline]
    pub fn root(
        arena: &'a A,
        table: &'s [u32],
        row: u32,
        lim: &mut ReadLimiter,
    ) -> Result<Self, Misfit> {
        let pointer = match Pointer::get_root_from_arena(arena, lim) {
            Ok(pointer) => pointer,
            Err(error) => {
                return Err(Misfit {
                    error,
                    segment: 0,
                    word: 0,
                    row: 0,
                    index: 0,
                });
            }
        };
        match conforms(table, Kind::Struct(row), &pointer, lim) {
            Ok(()) => {}
            Err(misfit) => return Err(misfit),
        }
        let mut unlimited = ReadLimiter::new(None);
        let reader = value::root(arena, &mut unlimited).unwrap();
        Ok(CheckedStruct { reader, table, row })
    }

    /// Returns the bytes of the text that pointer `index` leads to, without the zero byte at its
    /// end; no bytes if the pointer is null. Precondition: the schema says that pointer `index` is
    /// a text, of kind `Text` or `Utf8`, for the members of unions that are set.
    ///
    /// # Preconditions
    ///
    /// ```text
    /// requires { (t : Tree) → ShowsStructOf A.ReaderArena self.now.reader t
    ///     → is_text_kind (wanted self.now.table.now self.now.row (struct_data t) index)
    ///     ≡ true }
    /// ```
    #[inline]
    pub fn get_text(&self, index: u16) -> &'a [u8] {
        if index >= self.reader.pointer_count {
            return &[];
        }
        let mut unlimited = ReadLimiter::new(None);
        value::get_text(&self.reader, index as usize, &mut unlimited).unwrap()
    }

    /// Returns the text that pointer `index` leads to, without the zero byte at its end; an empty
    /// text if the pointer is null. Reads each byte once more. Precondition: the schema says that
    /// pointer `index` is a text in UTF-8, for the members of unions that are set.
    ///
    /// # Preconditions
    ///
    /// ```text
    /// requires { (t : Tree) → ShowsStructOf A.ReaderArena self.now.reader t
    ///     → wanted self.now.table.now self.now.row (struct_data t) index ≡ Kind.Utf8 }
    /// ```
    #[inline]
    pub fn get_str(&self, index: u16) -> &'a str {
        if index >= self.reader.pointer_count {
            return "";
        }
        let mut unlimited = ReadLimiter::new(None);
        let bytes = value::get_text(&self.reader, index as usize, &mut unlimited).unwrap();
        str::from_utf8(bytes).unwrap()
    }

    /// Returns the bytes of the data that pointer `index` leads to; no bytes if the pointer is
    /// null. Precondition: the schema says that pointer `index` is data, for the members of unions
    /// that are set.
    ///
    /// # Preconditions
    ///
    /// ```text
    /// requires { (t : Tree) → ShowsStructOf A.ReaderArena self.now.reader t
    ///     → wanted self.now.table.now self.now.row (struct_data t) index ≡ Kind.Data }
    /// ```
    #[inline]
    pub fn get_data(&self, index: u16) -> &'a [u8] {
        if index >= self.reader.pointer_count {
            return &[];
        }
        let mut unlimited = ReadLimiter::new(None);
        value::get_data(&self.reader, index as usize, &mut unlimited).unwrap()
    }

    /// Returns the struct that pointer `index` leads to; a struct without sections if the pointer
    /// is null. Precondition: the schema says that pointer `index` leads to a struct of row `row`,
    /// for the members of unions that are set.
    ///
    /// # Preconditions
    ///
    /// ```text
    /// requires { (t : Tree) → ShowsStructOf A.ReaderArena self.now.reader t
    ///     → wanted self.now.table.now self.now.row (struct_data t) index ≡ Kind.Struct row }
    /// ```
    #[inline]
    pub fn get_struct(&self, index: u16, row: u32) -> CheckedStruct<'a, 's, A> {
        if index >= self.reader.pointer_count {
            return CheckedStruct {
                reader: StructReader::new_default(),
                table: self.table,
                row,
            };
        }
        let mut unlimited = ReadLimiter::new(None);
        let reader = value::get_struct(&self.reader, index as usize, &mut unlimited).unwrap();
        CheckedStruct {
            reader,
            table: self.table,
            row,
        }
    }

    /// Returns the list of structs that pointer `index` leads to; a list without elements if the
    /// pointer is null. Precondition: the schema says that pointer `index` leads to a list of
    /// structs of row `row`, for the members of unions that are set.
    ///
    /// # Preconditions
    ///
    /// ```text
    /// requires { (t : Tree) → ShowsStructOf A.ReaderArena self.now.reader t
    ///     → wanted self.now.table.now self.now.row (struct_data t) index
    ///     ≡ Kind.List ElementSize.InlineComposite row }
    /// ```
    #[inline]
    pub fn get_structs(&self, index: u16, row: u32) -> CheckedStructs<'a, 's, A> {
        if index >= self.reader.pointer_count {
            return CheckedStructs {
                reader: StructsReader {
                    reader: ListReader::new_default(),
                },
                table: self.table,
                row,
            };
        }
        let mut unlimited = ReadLimiter::new(None);
        let reader = list::get_structs(&self.reader, index as usize, &mut unlimited).unwrap();
        CheckedStructs {
            reader,
            table: self.table,
            row,
        }
    }

    /// Returns the list of pointers that pointer `index` leads to; a list without elements if the
    /// pointer is null. Each element is read as a struct whose pointer 0 is the element: a text of
    /// a list of texts is `get_pointers(index, row).get(i).get_text(0)`. Precondition: the schema
    /// says that pointer `index` leads to a list of pointers of row `row`, for the members of
    /// unions that are set.
    ///
    /// # Preconditions
    ///
    /// ```text
    /// requires { (t : Tree) → ShowsStructOf A.ReaderArena self.now.reader t
    ///     → wanted self.now.table.now self.now.row (struct_data t) index
    ///     ≡ Kind.List ElementSize.Pointer row }
    /// ```
    #[inline]
    pub fn get_pointers(&self, index: u16, row: u32) -> CheckedStructs<'a, 's, A> {
        if index >= self.reader.pointer_count {
            return CheckedStructs {
                reader: StructsReader {
                    reader: ListReader::new_default(),
                },
                table: self.table,
                row,
            };
        }
        let mut unlimited = ReadLimiter::new(None);
        let list = list::get_pointers(&self.reader, index as usize, &mut unlimited).unwrap();
        CheckedStructs {
            reader: StructsReader {
                reader: list.reader,
            },
            table: self.table,
            row,
        }
    }

    /// Returns the list of numbers that pointer `index` leads to; a list without elements if the
    /// pointer is null. Precondition: the schema says that pointer `index` leads to a list whose
    /// elements have the size of `T`, for the members of unions that are set.
    ///
    /// # Preconditions
    ///
    /// ```text
    /// requires { (t : Tree) → ShowsStructOf A.ReaderArena self.now.reader t
    ///     → elements_wanted (wanted self.now.table.now self.now.row (struct_data t) index)
    ///     ≡ Some T.size }
    /// ```
    #[inline]
    pub fn get_numbers<T: PrimitiveElement>(&self, index: u16) -> NumbersReader<'a, A, T> {
        let mut unlimited = ReadLimiter::new(None);
        list::get_numbers(&self.reader, index as usize, &mut unlimited).unwrap()
    }
}

/// A list whose elements conform to a row of a schema, with all that they lead to.
///
/// Required of the fields: as the getters of `CheckedStruct` return them.
pub struct CheckedStructs<'a, 's, A: ReaderArena> {
    /// The list.
    pub reader: StructsReader<'a, A>,
    /// The schema's table.
    pub table: &'s [u32],
    /// The position of the elements' row.
    pub row: u32,
}

impl<'a, 's, A: ReaderArena> Clone for CheckedStructs<'a, 's, A> {
    #[inline]
    fn clone(&self) -> Self {
        *self
    }
}

impl<'a, 's, A: ReaderArena> Copy for CheckedStructs<'a, 's, A> {}

impl<'a, 's, A: ReaderArena> CheckedStructs<'a, 's, A> {
    /// The number of elements.
    #[inline]
    pub fn len(&self) -> u32 {
        self.reader.len()
    }

    /// Returns element `index`. Precondition: `index` is below the number of elements.
    ///
    /// # Preconditions
    ///
    /// ```text
    /// requires { index < self.now.reader.reader.count }
    /// ```
    #[inline]
    pub fn get(&self, index: u32) -> CheckedStruct<'a, 's, A> {
        CheckedStruct {
            reader: self.reader.get(index),
            table: self.table,
            row: self.row,
        }
    }
}
