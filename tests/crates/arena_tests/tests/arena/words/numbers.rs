//! Tests numbers that are stored in bytes, also with masks.

use capnp_proved::capnp_words::mask::Mask;
use capnp_proved::capnp_words::primitive::Primitive;
use capnp_proved::capnp_words::zero::Zero;
use std::fmt::Debug;

/// Stores a number, masked, in an array, and reads it back with the same mask.
fn set_and_get<T>(raw: &mut T::Raw, value: T, mask: T) -> T
where
    T: Primitive + Mask<T = T> + Copy,
{
    T::set(raw, T::mask(value, mask));
    T::mask(T::get(raw), mask)
}

fn store_and_load<T: Primitive>(bytes: &mut [u8], value: T) -> T {
    value.store(bytes);
    T::load(bytes)
}

fn load_and_store<T: Primitive>(bytes: &mut [u8]) {
    T::load(bytes).store(bytes);
}

#[test]
fn numbers_are_stored_in_bytes() {
    let mut two = [0; 2];
    assert_eq!(set_and_get::<i16>(&mut two, -300, 77), -300);
    assert_eq!(two, [0x99, 0xfe]);
    let mut bytes = [0; 4];
    assert_eq!(store_and_load::<i32>(&mut bytes, -2), -2);
    assert_eq!(bytes, [0xfe, 0xff, 0xff, 0xff]);
    load_and_store::<u32>(&mut bytes);
    assert_eq!(bytes, [0xfe, 0xff, 0xff, 0xff]);
    assert_eq!(u64::load(&[0, 1, 2, 3, 4, 5, 6, 7]), 0x0706_0504_0302_0100);
    assert_eq!(u8::zero(), 0);
    assert_eq!(i64::zero(), 0);
}

/// Checks that each number that is stored is read back, with each of the numbers as a mask, and
/// that bytes which are read as a number and stored again are unchanged.
fn check_round_trips<T>(mut raw: T::Raw, numbers: impl Iterator<Item = T> + Clone)
where
    T: Primitive + Mask<T = T> + Zero + Copy + PartialEq + Debug,
{
    let mut bytes = vec![0xa5; T::BYTES];
    for value in numbers.clone() {
        for mask in numbers.clone() {
            assert_eq!(set_and_get(&mut raw, value, mask), value, "mask {mask:?}");
        }
        assert_eq!(T::mask(value, value), T::zero());
        assert_eq!(store_and_load(&mut bytes, value), value);
        let stored = bytes.clone();
        load_and_store::<T>(&mut bytes);
        assert_eq!(bytes, stored);
    }
}

/// All numbers of eight bits, and for the wider ones those with one bit set, with one bit not set,
/// 0 and -1.
#[test]
fn stored_numbers_are_read_back() {
    check_round_trips([0; 1], u8::MIN..=u8::MAX);
    check_round_trips([0; 1], i8::MIN..=i8::MAX);
    let words = (0..64).flat_map(|bit| [0, 1 << bit, !(1u64 << bit), u64::MAX]);
    check_round_trips([0; 2], words.clone().map(|word| word as u16));
    check_round_trips([0; 2], words.clone().map(|word| word as i16));
    check_round_trips([0; 4], words.clone().map(|word| word as u32));
    check_round_trips([0; 4], words.clone().map(|word| word as i32));
    check_round_trips([0; 8], words.clone());
    check_round_trips([0; 8], words.map(|word| word as i64));
}
