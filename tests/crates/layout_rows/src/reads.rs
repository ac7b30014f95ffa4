//! Calls that read a message, each made on a reader that an earlier call has returned.

mod calls;

use self::calls::{parse_calls, Call, Op};
use crate::calls::Values;
use crate::elements::{
    low_data_at, number_at, pointer_at, struct_at, struct_at_with_list_limit, Reader,
};
use crate::output::Output;
use crate::parse::{self, Fault};
use crate::types::{ElementType, NumberType};
use capnp_proved::capnp_arena::arena::ReaderArena;
use capnp_proved::capnp_readers::readers::{
    ListReader, MessageSize, PointerPlace, PointerReader, PrimitiveElement, StructReader, Target,
};
use capnp_proved::capnp_readers::source::Source;
use capnp_proved::capnp_words::error::ErrorKind;
use capnp_proved::capnp_words::mask::Mask;
use capnp_proved::capnp_words::primitive::Primitive;
use capnp_proved::capnp_words::read_limiter::ReadLimiter;
use capnp_proved::capnp_words::zero::Zero;
use std::fmt::Display;
use std::str::FromStr;

/// Answers calls that read the message in `arena`; each of `words` is a call.
pub fn answer<A: ReaderArena>(
    arena: &A,
    limiter: ReadLimiter,
    words: &[&str],
) -> Result<String, Fault> {
    let calls = parse_calls(words)?;
    let reading = Reading {
        limiter,
        out: Output::new(),
    };
    reading.answer(arena, &calls)
}

/// The limiter of all calls, and their answers.
struct Reading {
    limiter: ReadLimiter,
    out: Output,
}

impl Reading {
    /// Makes `calls` in order, and returns their answers.
    fn answer<A: ReaderArena>(mut self, arena: &A, calls: &[Call]) -> Result<String, Fault> {
        let mut kept: Vec<Reader<'_, A>> = Vec::new();
        for call in calls {
            let of = match call.of {
                Some(number) => kept.get(number),
                None => kept.last(),
            };
            let made = self.make_call(arena, of.copied(), call);
            if let Some(reader) = self.push_answer(made)? {
                kept.push(reader);
            }
        }
        Ok(self.out.into_text())
    }

    /// Adds the answer of a call, and what the limiter then has. Returns the reader that the call
    /// returned, if it did.
    fn push_answer<'a, A: ReaderArena>(
        &mut self,
        made: Result<Option<Reader<'a, A>>, Fault>,
    ) -> Result<Option<Reader<'a, A>>, Fault> {
        let reader = match made {
            Ok(reader) => reader,
            Err(fault) => {
                self.push_fault(fault)?;
                None
            }
        };
        if let Some(reader) = reader {
            self.push_reader(reader);
        }
        self.push_limiter_state();
        Ok(reader)
    }

    /// Adds why a call has no result. Fails if the line has no answer for that reason.
    fn push_fault(&mut self, fault: Fault) -> Result<(), Fault> {
        match fault {
            Fault::Unfit => self.out.push_text("none"),
            Fault::Refused(kind) => self.out.push(kind),
            fault => return Err(fault),
        }
        Ok(())
    }

    /// Adds the number of words that the limiter has left, and the number of pointers that were
    /// followed.
    fn push_limiter_state(&mut self) {
        self.out.push_text(" ");
        self.out.push_words_left(self.limiter.left());
        self.out.push_text(" ");
        self.out.push(self.limiter.followed());
        self.out.push_text(";");
    }

    /// Makes a call, on the reader `of` if there is one. If the call returns a reader, returns it,
    /// and adds nothing for it yet.
    fn make_call<'a, A: ReaderArena>(
        &mut self,
        arena: &'a A,
        of: Option<Reader<'a, A>>,
        call: &'a Call,
    ) -> Result<Option<Reader<'a, A>>, Fault> {
        if call.values.is_unfit {
            return Err(Fault::Unfit);
        }
        let reader = match call.op {
            Op::Root => {
                let root = PointerReader::get_root_from_arena(arena, &mut self.limiter)?;
                Reader::Pointer(root)
            }
            Op::At => Reader::Pointer(reader_at(arena, &call.values)?),
            Op::FromDefault => Reader::Pointer(reader_of_default(call)?),
            Op::NewPointer => Reader::Pointer(PointerReader::new_default()),
            Op::NewStruct => Reader::Struct(StructReader::new_default()),
            Op::NewList => Reader::List(ListReader::new_default()),
            _ => return self.call_on_reader(of, call),
        };
        Ok(Some(reader))
    }

    /// Makes a call on the reader `of`; `Unfit` if there is none.
    fn call_on_reader<'a, A: ReaderArena>(
        &mut self,
        of: Option<Reader<'a, A>>,
        call: &'a Call,
    ) -> Result<Option<Reader<'a, A>>, Fault> {
        match of {
            Some(Reader::Pointer(from)) => self.call_on_pointer(from, call),
            Some(Reader::Struct(from)) => self.call_on_struct(from, call),
            Some(Reader::List(from)) => self.call_on_list(from, call),
            None => Err(Fault::Unfit),
        }
    }

    fn call_on_pointer<'a, A: ReaderArena>(
        &mut self,
        from: PointerReader<'a, A>,
        call: &'a Call,
    ) -> Result<Option<Reader<'a, A>>, Fault> {
        let default = default_bytes(call)?;
        match call.op {
            Op::Struct => {
                let found = from.get_struct(&mut self.limiter, default)?;
                Ok(Some(Reader::Struct(found)))
            }
            Op::List => {
                let found = from.get_list(&mut self.limiter, call.values.size, default)?;
                Ok(Some(Reader::List(found)))
            }
            Op::Next => {
                let target = from.next(&mut self.limiter)?;
                Ok(self.push_target(target))
            }
            Op::Text | Op::Data => {
                self.push_bytes(from, call.op, default)?;
                Ok(None)
            }
            op => {
                self.query_pointer(from, op, call.values.count)?;
                Ok(None)
            }
        }
    }

    /// Adds the bytes of a text if `op` is `Text`, otherwise those of data.
    fn push_bytes<'a, A: ReaderArena>(
        &mut self,
        from: PointerReader<'a, A>,
        op: Op,
        default: Option<&'a [u8]>,
    ) -> Result<(), Fault> {
        let bytes = match op {
            Op::Text => from.get_text(&mut self.limiter, default)?,
            _ => from.get_data(&mut self.limiter, default)?,
        };
        self.out.push_hex_or_dash(bytes);
        Ok(())
    }

    /// Adds the kind of object that a pointer leads to. Returns a reader of the object if it is a
    /// struct or a list.
    fn push_target<'a, A: ReaderArena>(&mut self, target: Target<'a, A>) -> Option<Reader<'a, A>> {
        match target {
            Target::Struct(found) => {
                self.out.push_text("struct:");
                return Some(Reader::Struct(found));
            }
            Target::List(found) => {
                self.out.push_text("list:");
                return Some(Reader::List(found));
            }
            Target::Null => self.out.push_text("null"),
            Target::Cap(index) => {
                self.out.push_text("capability:");
                self.out.push(index);
            }
        }
        None
    }

    /// Makes a call that returns neither a reader nor bytes, on a pointer.
    fn query_pointer<A: ReaderArena>(
        &mut self,
        from: PointerReader<'_, A>,
        op: Op,
        head: u32,
    ) -> Result<(), Fault> {
        match op {
            Op::IsNull => self.out.push_flag(from.is_null()),
            Op::Type => return self.push_pointer_type(from),
            Op::Capability => self.out.push(from.get_capability()?),
            Op::Size => {
                let size = from.total_size(&mut self.limiter);
                return self.push_size(size);
            }
            Op::Canonical => self.push_is_canonical(from, head),
            _ => return Err(Fault::Unfit),
        }
        Ok(())
    }

    fn push_pointer_type<A: ReaderArena>(
        &mut self,
        from: PointerReader<'_, A>,
    ) -> Result<(), Fault> {
        let found = from.get_pointer_type(&mut self.limiter)?;
        self.out.push_pointer_type(found);
        Ok(())
    }

    fn call_on_struct<'a, A: ReaderArena>(
        &mut self,
        from: StructReader<'a, A>,
        call: &Call,
    ) -> Result<Option<Reader<'a, A>>, Fault> {
        match call.op {
            Op::Pointer => {
                let pointer = from.get_pointer_field(call.values.index);
                Ok(Some(Reader::Pointer(pointer)))
            }
            Op::Section => Ok(Some(Reader::List(from.get_pointer_section_as_list()))),
            op => {
                self.query_struct(from, op, &call.values)?;
                Ok(None)
            }
        }
    }

    /// Makes a call that returns no reader, on a struct.
    fn query_struct<A: ReaderArena>(
        &mut self,
        from: StructReader<'_, A>,
        op: Op,
        values: &Values<'_>,
    ) -> Result<(), Fault> {
        match op {
            Op::IsPointerNull => self.out.push_flag(from.is_pointer_field_null(values.index)),
            Op::Bool => return self.push_bool_field(from, values),
            Op::Number(of) => return self.push_number(of, Reader::Struct(from), values),
            Op::Bytes => self.out.push_hex_or_dash(from.data_bytes()),
            Op::Size => {
                let size = from.total_size(&mut self.limiter);
                return self.push_size(size);
            }
            Op::CanonicalStruct => self.push_struct_is_canonical(from, values),
            Op::CanonicalShared => self.push_is_canonical_shared(from, values),
            _ => return Err(Fault::Unfit),
        }
        Ok(())
    }

    fn push_bool_field<A: ReaderArena>(
        &mut self,
        from: StructReader<'_, A>,
        values: &Values<'_>,
    ) -> Result<(), Fault> {
        let value = match parse::bool_mask(values.mask)? {
            Some(mask) => from.get_bool_field_mask(values.index, mask),
            None => from.get_bool_field(values.index),
        };
        self.out.push_flag(value);
        Ok(())
    }

    fn push_is_canonical<A: ReaderArena>(&mut self, from: PointerReader<'_, A>, mut head: u32) {
        let tested = from.is_canonical(&mut self.limiter, &mut head);
        self.push_test_answer(tested, head);
    }

    fn push_struct_is_canonical<A: ReaderArena>(
        &mut self,
        from: StructReader<'_, A>,
        values: &Values<'_>,
    ) {
        let (mut read, mut behind) = (values.count, values.word);
        let (mut data, mut pointers) = (values.flag, values.flag);
        let tested = from.is_canonical(
            &mut self.limiter,
            &mut read,
            &mut behind,
            &mut data,
            &mut pointers,
        );
        self.push_test_answer(tested, read);
        self.out.push_slashed(behind);
        self.push_last_words_used(data, pointers);
    }

    fn push_is_canonical_shared<A: ReaderArena>(
        &mut self,
        from: StructReader<'_, A>,
        values: &Values<'_>,
    ) {
        let mut head = values.count;
        let (mut data, mut pointers) = (values.flag, values.flag);
        let tested =
            from.is_canonical_shared(&mut self.limiter, &mut head, &mut data, &mut pointers);
        self.push_test_answer(tested, head);
        self.push_last_words_used(data, pointers);
    }

    /// Adds the answer of a test for canonical form, and the head after the test, a position in
    /// words.
    fn push_test_answer(&mut self, tested: Result<bool, ErrorKind>, head: u32) {
        match tested {
            Ok(yes) => self.out.push_flag(yes),
            Err(kind) => self.out.push(kind),
        }
        self.out.push_slashed(head);
    }

    /// Adds, for each of the two sections of a struct, whether its last word is used.
    fn push_last_words_used(&mut self, data: bool, pointers: bool) {
        self.out.push_text("/");
        self.out.push_flag(data);
        self.out.push_text("/");
        self.out.push_flag(pointers);
    }

    fn call_on_list<'a, A: ReaderArena>(
        &mut self,
        from: ListReader<'a, A>,
        call: &Call,
    ) -> Result<Option<Reader<'a, A>>, Fault> {
        let index = call.values.count;
        match call.op {
            Op::Element => Ok(Some(Reader::Struct(struct_at(&from, index)?))),
            Op::OwnElement => Ok(Some(Reader::Struct(struct_at_with_list_limit(
                &from, index,
            )?))),
            Op::PointerElement => Ok(Some(Reader::Pointer(pointer_at(&from, index)?))),
            op => {
                self.query_list(from, op, &call.values)?;
                Ok(None)
            }
        }
    }

    /// Makes a call that returns no reader, on a list.
    fn query_list<A: ReaderArena>(
        &mut self,
        from: ListReader<'_, A>,
        op: Op,
        values: &Values<'_>,
    ) -> Result<(), Fault> {
        match op {
            Op::Get => return self.push_element(from, values),
            Op::Bytes => self.out.push_hex_or_dash(from.data_bytes()),
            Op::Bits => self.out.push(from.element_data_bits()),
            Op::Low => self.out.push(low_data_at(&from, values.count)?),
            _ => return Err(Fault::Unfit),
        }
        Ok(())
    }

    /// Adds an element of a list: a number, a bit or nothing.
    fn push_element<A: ReaderArena>(
        &mut self,
        from: ListReader<'_, A>,
        values: &Values<'_>,
    ) -> Result<(), Fault> {
        match values.element {
            ElementType::Void => {
                <() as PrimitiveElement>::get(&from, values.count);
                self.out.push_text("-");
            }
            ElementType::Bool => {
                let bit = number_at::<bool, A>(&from, values.count)?;
                self.out.push_flag(bit);
            }
            ElementType::Number(of) => return self.push_number(of, Reader::List(from), values),
        }
        Ok(())
    }

    /// Adds a number in a struct or a list. `of` is the number's type.
    fn push_number<A: ReaderArena>(
        &mut self,
        of: NumberType,
        from: Reader<'_, A>,
        values: &Values<'_>,
    ) -> Result<(), Fault> {
        match of {
            NumberType::U8 => self.push_number_as::<u8, A>(from, values),
            NumberType::U16 => self.push_number_as::<u16, A>(from, values),
            NumberType::U32 => self.push_number_as::<u32, A>(from, values),
            NumberType::U64 => self.push_number_as::<u64, A>(from, values),
            NumberType::I8 => self.push_number_as::<i8, A>(from, values),
            NumberType::I16 => self.push_number_as::<i16, A>(from, values),
            NumberType::I32 => self.push_number_as::<i32, A>(from, values),
            NumberType::I64 => self.push_number_as::<i64, A>(from, values),
        }
    }

    /// Adds a number of type `T`: a field of a struct, with a mask if the call has one, or an
    /// element of a list.
    fn push_number_as<
        T: Primitive + Zero + Mask<T = T> + PrimitiveElement + FromStr + Display,
        A: ReaderArena,
    >(
        &mut self,
        from: Reader<'_, A>,
        values: &Values<'_>,
    ) -> Result<(), Fault> {
        let number: T = match from {
            Reader::Pointer(_) => return Err(Fault::Unfit),
            Reader::Struct(from) => get_number_field::<T, A>(from, values)?,
            Reader::List(from) => number_at::<T, A>(&from, values.count)?,
        };
        self.out.push(number);
        Ok(())
    }

    /// Adds what a reader reads from, its content and its nesting limit.
    fn push_reader<A: ReaderArena>(&mut self, reader: Reader<'_, A>) {
        match reader {
            Reader::Pointer(pointer) => {
                self.push_source(pointer.source);
                self.out.push_slashed(pointer.nesting_limit);
            }
            Reader::Struct(found) => self.push_struct(found),
            Reader::List(list) => self.push_list(&list),
        }
    }

    fn push_struct<A: ReaderArena>(&mut self, found: StructReader<'_, A>) {
        self.push_source(found.source);
        self.out.push_text("/");
        self.out.push_hex_or_dash(found.data_bytes());
        self.out.push_slashed(found.pointer_count());
        self.out.push_slashed(found.nesting_limit);
    }

    fn push_list<A: ReaderArena>(&mut self, list: &ListReader<'_, A>) {
        self.push_source(list.source);
        self.out.push_slashed(list.len());
        self.out
            .push_list_sizes(list.get_element_size(), list.struct_size());
        self.out.push_slashed(list.nesting_limit);
    }

    fn push_source<A>(&mut self, source: Source<'_, A>) {
        self.out.push_text(match source {
            Source::Arena(_) => "message",
            Source::Default(_) => "default",
            Source::Nothing => "nothing",
        });
    }

    fn push_size(&mut self, size: Result<MessageSize, ErrorKind>) -> Result<(), Fault> {
        let size = size?;
        self.out.push(size.word_count);
        self.out.push_slashed(size.cap_count);
        Ok(())
    }
}

/// Returns a number of a struct, with a mask if the call has one.
fn get_number_field<T: Primitive + Zero + Mask<T = T> + FromStr, A: ReaderArena>(
    from: StructReader<'_, A>,
    values: &Values<'_>,
) -> Result<T, Fault> {
    Ok(match parse::number_mask::<T>(values.mask)? {
        Some(mask) => from.get_data_field_mask::<T>(values.index, mask),
        None => from.get_data_field::<T>(values.index),
    })
}

/// Returns a reader of the pointer at the place that `values` names; `Unfit` if there is no such
/// word.
fn reader_at<'a, A: ReaderArena>(
    arena: &'a A,
    values: &Values<'_>,
) -> Result<PointerReader<'a, A>, Fault> {
    let place = PointerPlace {
        segment: values.count,
        word: values.word,
    };
    match arena.get_segment(place.segment) {
        Ok(bytes) if (place.word as usize) < bytes.len() / 8 => {
            let nesting_limit = values.source.options.nesting_limit;
            Ok(PointerReader::at(arena, place, nesting_limit))
        }
        _ => Err(Fault::Unfit),
    }
}

/// Returns a reader of the root pointer of a call's default; `Unfit` if the call has none.
fn reader_of_default<'a, A: ReaderArena>(call: &'a Call) -> Result<PointerReader<'a, A>, Fault> {
    match default_bytes(call)? {
        Some(bytes) => Ok(PointerReader::from_default(bytes)?),
        None => Err(Fault::Unfit),
    }
}

/// Returns the bytes of a call's default, if it has one; `Unfit` if the default has too many words.
fn default_bytes<'a>(call: &'a Call) -> Result<Option<&'a [u8]>, Fault> {
    match call.default.as_deref() {
        Some(bytes) if bytes.len() / 8 > u32::MAX as usize => Err(Fault::Unfit),
        default => Ok(default),
    }
}
