//! Tests of the public names of `capnp_layout` that no other test of this crate uses: devices over
//! readers and writers, and the modules of lower crates that `capnp_layout` re-exports.

use capnp_proved::capnp_layout::devices::{
    write_all, DeviceFault, Input, MemoryInput, MemoryOutput, Output, ReaderInput, WriterOutput,
};
use capnp_proved::capnp_layout::{
    self, arena, builders, error, mask, object, primitive, read_limiter, readers, source, units,
    wire_pointer, words, zero,
};
use capnp_proved::support::alloc::Global;

#[test]
fn inputs_read_bytes() {
    let bytes = [1, 2, 3];
    let mut to = [0; 2];
    let mut memory = MemoryInput::new(&bytes);
    assert_eq!(memory.read(&mut to), Ok(2));
    assert_eq!(to, [1, 2]);
    assert!(!memory.failed());

    let mut to = [0; 2];
    let mut reader = ReaderInput::new(bytes.as_slice());
    assert_eq!(reader.read(&mut to), Ok(2));
    assert_eq!(to, [1, 2]);
    assert!(!reader.failed());
}

#[test]
fn outputs_take_bytes() {
    let mut memory = MemoryOutput::new(Global);
    assert_eq!(memory.write(b"ab"), Ok(2));
    assert_eq!(write_all(&mut memory, b"c"), Ok(()));
    assert_eq!(memory.bytes(), b"abc");
    assert!(!memory.failed());

    let mut bytes = Vec::new();
    let mut writer = WriterOutput::new(&mut bytes);
    assert_eq!(write_all(&mut writer, b"ab"), Ok(()));
    let flushed: Result<(), DeviceFault> = writer.flush();
    assert_eq!(flushed, Ok(()));
    assert!(!writer.failed());
    assert_eq!(bytes, b"ab");
}

#[test]
fn builder_modules_are_reexported() {
    let allocator = arena::HeapAllocator::new(Global, 1);
    let mut built = arena::BuilderArenaImpl::new(Global, allocator);
    let root = builders::PointerBuilder {
        arena: &mut built,
        segment: 0,
        at: 0,
    };
    assert!(root.arena.is_empty());
}

#[test]
fn reader_modules_are_reexported() {
    let nothing = readers::PointerReader::<arena::NullArena>::new_default();
    assert!(matches!(nothing.source, source::Source::Nothing));
    let null = object::Object::Null;
    assert!(matches!(null, object::Object::Null));
    let mut limiter = read_limiter::ReadLimiter::new(Some(units::BYTES_PER_WORD));
    assert_eq!(limiter.left(), Some(8));
    let refused: capnp_layout::Result<()> = limiter.can_read(9);
    assert_eq!(refused, Err(error::ErrorKind::ReadLimitExceeded));
}

#[test]
fn word_modules_are_reexported() {
    assert_eq!(words::count(&[0; 16]), 2);
    assert!(wire_pointer::WirePointer::null().is_null());
    assert_eq!(error::ErrorKind::NoSuchPlace.name(), "NoSuchPlace");
    assert_eq!(<u16 as primitive::Primitive>::BYTES, 2);
    assert_eq!(<u16 as mask::Mask>::mask(7, 5), 2);
    assert_eq!(<u16 as zero::Zero>::zero(), 0);
}
