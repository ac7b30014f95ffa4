//! Finds what a pointer leads to, for writing: first replaces a null pointer by a default value,
//! and widens a struct or a list of structs that is too small (encoding specification, "Structs",
//! "Lists" and "Default Values").

use super::defaults::{put_blob_default, put_default};
use super::found::{find_list, found_bytes, found_list};
use super::list_builder::ListBuilder;
use super::places::struct_place;
use super::struct_builder::StructBuilder;
use super::PointerBuilder;
use crate::proved::capnp_arena_traits::arena::BuilderArena;
use crate::proved::capnp_in_place::existing::{self, ExistingBytes};
use crate::proved::capnp_in_place::lent;
use crate::proved::capnp_in_place::opening::{open_struct, open_struct_list};
use crate::proved::capnp_readers::readers::{ListPlace, StructPlace};
use crate::proved::capnp_words::error::ErrorKind;
use crate::proved::capnp_words::wire_pointer::{ElementSize, StructSize};

impl<'a, A: BuilderArena> PointerBuilder<'a, A> {
    /// If the pointer is null, makes it lead to a plain copy of the value of `default` ("Default
    /// Values"). `default` is one segment, and its first word is the pointer to the value. A
    /// pointer that isn't null stays as it is. A null pointer stays null if `default` is `None` or
    /// starts with a null word.
    ///
    /// Preconditions: the pointer's word is allocated; `default` has fewer than 2^32 words.
    ///
    /// Reading `default` charges nothing, and may enter `i32::MAX` levels of structs and lists.
    /// Refuses only if the pointer is null. Refusals: `MessageContainsOutOfBoundsPointer` if
    /// `default` has fewer than 8 bytes, or one of its pointers leads out of it;
    /// `UnknownPointerType` for a capability in `default`; `TriedToReadFromNullArena` for a far
    /// pointer in `default`; for any other fault of `default`, the refusal of reading it. If no
    /// segment has room for an object of the copy: `AllocationFailed` if memory runs out;
    /// `MessageTooLarge(n)` if n is above 536,870,911, where n is the number of that object's
    /// words, plus one for a landing pad; `MessageTooLarge(usize::MAX)` if the message already has
    /// 4,294,967,295 segments. After a refusal the pointer is null, and the words that were
    /// allocated are zero.
    ///
    /// # Preconditions
    ///
    /// ```text
    /// requires { TakesDefault (built A.view self.old) default }
    /// ```
    #[inline]
    pub fn put_default(&mut self, default: Option<&[u8]>) -> Result<(), ErrorKind> {
        put_default(&mut *self.arena, self.segment, self.at, default)
    }

    /// Does what `get_struct` does, but returns the struct's place. `into_struct` makes the builder
    /// from the place. The contract also states what the message is after a refusal. Preconditions:
    /// the pointer's word is allocated; `default` has fewer than 2^32 words.
    ///
    /// # Preconditions
    ///
    /// ```text
    /// requires { TakesDefault (built A.view self.old) default }
    /// ```
    #[inline(always)]
    pub fn get_struct_place(
        &mut self,
        size: StructSize,
        default: Option<&[u8]>,
    ) -> Result<StructPlace, ErrorKind> {
        put_default(&mut *self.arena, self.segment, self.at, default)?;
        let opened = open_struct(&mut *self.arena, self.segment, self.at, size)?;
        Ok(struct_place(opened))
    }

    /// Returns the struct that the pointer leads to, for writing, with sections at least as large
    /// as in `size` ("Structs"). A struct that is large enough is unchanged. If a section is too
    /// small, moves the struct to new words, in which each section has the larger of its old size
    /// and its size in `size`. The new struct has the old data, followed by zeros, and the old
    /// children, followed by null pointers. If the pointer is null, first copies the value of
    /// `default` to it, like `PointerBuilder::put_default`; if the pointer is still null then,
    /// makes a struct of exactly `size`, all zero.
    ///
    /// Preconditions: the pointer's word is allocated; `default` has fewer than 2^32 words.
    ///
    /// Refusals: `MessageContainsNonStructPointerWhereStructPointerWasExpected` if the pointer
    /// leads to something other than a struct; those of `put_default`. If no segment has room for
    /// the new struct, or for a landing pad: `AllocationFailed` if memory runs out;
    /// `MessageTooLarge(usize::MAX)` if the message already has 4,294,967,295 segments; the old
    /// struct, or null, then stays. A default value that replaced null stays even if the call is
    /// refused afterwards.
    ///
    /// # Preconditions
    ///
    /// ```text
    /// requires { TakesDefault (built A.view self) default }
    /// ```
    #[inline(always)]
    pub fn get_struct(
        mut self,
        size: StructSize,
        default: Option<&[u8]>,
    ) -> Result<StructBuilder<'a, A>, ErrorKind> {
        let place = self.get_struct_place(size, default)?;
        Ok(self.into_struct(place))
    }

    /// Does what `get_struct_list` does, but returns the list's place. `into_list` makes the
    /// builder from the place. The contract also states what the message is after a refusal.
    /// Preconditions: the pointer's word is allocated; `default` has fewer than 2^32 words.
    ///
    /// # Preconditions
    ///
    /// ```text
    /// requires { TakesDefault (built A.view self.old) default }
    /// ```
    #[inline]
    pub fn get_struct_list_place(
        &mut self,
        size: StructSize,
        default: Option<&[u8]>,
    ) -> Result<ListPlace, ErrorKind> {
        put_default(&mut *self.arena, self.segment, self.at, default)?;
        let opened = open_struct_list(&mut *self.arena, self.segment, self.at, size)?;
        Ok(found_list(self.segment, opened))
    }

    /// Returns the list that the pointer leads to, for writing, as a list of structs with sections
    /// at least as large as in `size` ("Lists"). Preconditions: the pointer's word is allocated;
    /// `default` has fewer than 2^32 words.
    ///
    /// If the elements are structs that are large enough, the list is unchanged. Any other list,
    /// except a list of bits, is moved to new words as a list of structs. Each section has the
    /// larger of its old size and its size in `size`; a number becomes the lowest bits of a
    /// struct's first data word, and a pointer becomes a struct's first pointer. If the pointer is
    /// null, first copies the value of `default` to it, like `PointerBuilder::put_default`; if the
    /// pointer is still null then, returns a list of void without elements, and changes nothing.
    ///
    /// Refusals: `ExistingPointerIsNotAList` if the pointer leads to something other than a list;
    /// `FoundBitListWhereStructListWasExpected` for a list of bits; `MessageTooLarge(n)` if the new
    /// elements would have n words, and n is 2^29 or more; those of `put_default`. If no segment
    /// has room for the new list, or for a landing pad: `AllocationFailed` if memory runs out;
    /// `MessageTooLarge(n)` if n is above 536,870,911, where n is the number of the new elements'
    /// words, plus two for the tag and a landing pad; `MessageTooLarge(usize::MAX)` if the message
    /// already has 4,294,967,295 segments; the old list then stays. A default value that replaced
    /// null stays even if the call is refused afterwards.
    ///
    /// # Preconditions
    ///
    /// ```text
    /// requires { TakesDefault (built A.view self) default }
    /// ```
    #[inline]
    pub fn get_struct_list(
        mut self,
        size: StructSize,
        default: Option<&[u8]>,
    ) -> Result<ListBuilder<'a, A>, ErrorKind> {
        let place = self.get_struct_list_place(size, default)?;
        Ok(self.into_list(place))
    }

    /// Does what `get_list` does, but returns the list's place. `into_list` makes the builder from
    /// the place. The contract also states what the message is after a refusal. Preconditions: the
    /// pointer's word is allocated; `default` has fewer than 2^32 words; `size` isn't
    /// `InlineComposite`.
    ///
    /// # Preconditions
    ///
    /// ```text
    /// requires takes { TakesDefault (built A.view self.old) default }
    /// requires plain { size_number size ≤ 6 }
    /// ```
    #[inline]
    pub fn get_list_place(
        &mut self,
        size: ElementSize,
        default: Option<&[u8]>,
    ) -> Result<ListPlace, ErrorKind> {
        put_default(&mut *self.arena, self.segment, self.at, default)?;
        find_list(&*self.arena, self.segment, self.at, size)
    }

    /// Returns the list that the pointer leads to, for writing. Never changes the list, and refuses
    /// one whose elements are narrower than `size`. If the pointer is null, first copies the value
    /// of `default` to it, like `PointerBuilder::put_default`; if the pointer is still null then,
    /// returns a list of void without elements. Preconditions: the pointer's word is allocated;
    /// `default` has fewer than 2^32 words; `size` isn't `InlineComposite`.
    ///
    /// Refusals: `ExistingPointerIsNotAList` if the pointer leads to something other than a list;
    /// `FoundStructListWhereBitListWasExpected` for a list of structs if `size` is `Bit`; those of
    /// `put_default`; otherwise `ExistingListValueIsIncompatibleWithExpectedType` if the elements
    /// have fewer bits of data or fewer pointers than `size`. This includes structs without data
    /// words if `size` is that of numbers, and structs without pointers if `size` is `Pointer`. A
    /// default value that replaced null stays even if the call is refused afterwards.
    ///
    /// # Preconditions
    ///
    /// ```text
    /// requires takes { TakesDefault (built A.view self) default }
    /// requires plain { size_number size ≤ 6 }
    /// ```
    #[inline]
    pub fn get_list(
        mut self,
        size: ElementSize,
        default: Option<&[u8]>,
    ) -> Result<ListBuilder<'a, A>, ErrorKind> {
        let place = self.get_list_place(size, default)?;
        Ok(self.into_list(place))
    }

    /// Does what `get_data` does, but returns where the data is instead of lending its bytes.
    /// `bytes_mut` then lends them. The contract also states what the message is after a refusal.
    /// Preconditions: the pointer's word is allocated; `default` has fewer than 2^32 words.
    ///
    /// # Preconditions
    ///
    /// ```text
    /// requires { TakesDefault (built A.view self.old) default }
    /// ```
    #[inline]
    pub fn get_data_place(&mut self, default: Option<&[u8]>) -> Result<ExistingBytes, ErrorKind> {
        put_blob_default(&mut *self.arena, self.segment, self.at, default)?;
        let found = existing::get_data(&*self.arena, self.segment, self.at);
        found_bytes(&*self.arena, self.segment, found)
    }

    /// Lends the data that the pointer leads to, for writing in place ("Lists"). If the pointer is
    /// null, first copies the value of `default` to it, like `PointerBuilder::put_default`, or
    /// lends no bytes if there is no default. Preconditions: the pointer's word is allocated;
    /// `default` has fewer than 2^32 words.
    ///
    /// Refusals: `ExistingPointerIsNotAList` if the pointer leads to something other than a list,
    /// or if both the pointer and the first word of `default` are null;
    /// `ExistingListPointerIsNotByteSized` if the elements aren't bytes; those of `put_default`. A
    /// default value that replaced null stays even if the call is refused afterwards.
    /// `get_data_place` followed by `bytes_mut` does the same. The contracts of these two calls
    /// also state what the message is once the bytes are written.
    ///
    /// # Preconditions
    ///
    /// ```text
    /// requires { TakesDefault (built A.view self) default }
    /// ```
    #[inline]
    pub fn get_data(mut self, default: Option<&[u8]>) -> Result<&'a mut [u8], ErrorKind> {
        let bytes = self.get_data_place(default)?;
        Ok(self.into_bytes(bytes))
    }

    /// Does what `get_text` does, but returns where the text is instead of lending its bytes.
    /// `bytes_mut` then lends them. The contract also states what the message is after a refusal.
    /// Preconditions: the pointer's word is allocated; `default` has fewer than 2^32 words.
    ///
    /// # Preconditions
    ///
    /// ```text
    /// requires { TakesDefault (built A.view self.old) default }
    /// ```
    #[inline]
    pub fn get_text_place(&mut self, default: Option<&[u8]>) -> Result<ExistingBytes, ErrorKind> {
        put_blob_default(&mut *self.arena, self.segment, self.at, default)?;
        let found = existing::get_text(&*self.arena, self.segment, self.at);
        found_bytes(&*self.arena, self.segment, found)
    }

    /// Lends the text that the pointer leads to, without the zero byte after it, for writing in
    /// place ("Lists"). If the pointer is null, first copies the value of `default` to it, like
    /// `PointerBuilder::put_default`, or lends no bytes if there is no default. Preconditions: the
    /// pointer's word is allocated; `default` has fewer than 2^32 words.
    ///
    /// Refusals: those of `get_data`; `TextBlobMissingNULTerminator` if the bytes don't end in a
    /// zero byte. `get_text_place` followed by `bytes_mut` does the same. The contracts of these
    /// two calls also state what the message is once the bytes are written.
    ///
    /// # Preconditions
    ///
    /// ```text
    /// requires { TakesDefault (built A.view self) default }
    /// ```
    #[inline]
    pub fn get_text(mut self, default: Option<&[u8]>) -> Result<&'a mut [u8], ErrorKind> {
        let bytes = self.get_text_place(default)?;
        Ok(self.into_bytes(bytes))
    }

    /// Lends the bytes of the message that `bytes` names, for writing in place, for as long as the
    /// arena is borrowed.
    ///
    /// # Preconditions
    ///
    /// ```text
    /// requires { AreBytesInside (A.view self.arena.now).words bytes }
    /// ```
    #[inline(always)]
    fn into_bytes(self, bytes: ExistingBytes) -> &'a mut [u8] {
        let PointerBuilder {
            arena,
            segment: _,
            at: _,
        } = self;
        lent::bytes_mut(arena, bytes)
    }
}
