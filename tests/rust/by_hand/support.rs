//! Tests of tools/rust/support.

use capnp_proved::support::alloc::{AllocError, AllocFailed, Global};
use capnp_proved::support::hex::{self, FromHexError};
use capnp_proved::support::io::{BufReader, BufWriter, Error, ErrorKind, Read, Write};
use capnp_proved::support::sha2::{Digest, Sha256};
use capnp_proved::support::simd::prelude::*;
use capnp_proved::support::string::String as Text;
use capnp_proved::support::vec::Vec as List;

#[test]
fn lists() {
    let mut list = List::new(Global);
    assert_eq!((list.len(), list.capacity(), list.pop()), (0, 0, None));
    for i in 0..100u32 {
        list.push(i).unwrap();
    }
    assert_eq!((list.len(), list[7], list.pop(), list.pop()), (100, 7, Some(99), Some(98)));
    list.truncate(3);
    list.resize(5, 9).unwrap();
    assert_eq!(list.as_slice(), [0, 1, 2, 9, 9]);
    list.resize(2, 9).unwrap();
    list.extend_from_slice(&[4, 5]).unwrap();
    list.as_mut_slice()[0] = 8;
    list[1] += 6;
    assert_eq!(&list[..], [8, 7, 4, 5]);
    assert_eq!((&list).into_iter().sum::<u32>(), 24);
    assert_eq!(list, List::from(vec![8, 7, 4, 5]));
    list.reserve(100).unwrap();
    assert!(list.capacity() >= 104);
    let mut sum = 0;
    for it in list {
        sum += it;
    }
    assert_eq!(sum, 24);
    assert_eq!(List::from_elem(Global, 3u8, 4).unwrap().into_vec(), [3, 3, 3, 3]);
    let mut list = List::new(Global);
    list.resize(1000, 5u8).unwrap();
    assert_eq!(list.into_vec(), [5; 1000]);
    let mut list = List::with_capacity(Global, 9).unwrap();
    let room = list.capacity();
    assert!(room >= 9 && list.is_empty());
    list.push(1u8).unwrap();
    list.clear();
    assert_eq!((list.len(), list.capacity()), (0, room));
    list.destroy_empty();
}

#[test]
fn lists_without_memory() {
    const TOO_MANY: usize = usize::MAX / 2;
    assert_eq!(List::<u64>::with_capacity(Global, TOO_MANY), Err(AllocError));
    assert_eq!(List::from_elem(Global, 1u64, TOO_MANY), Err(AllocError));
    let mut list = List::from_elem(Global, 1u64, 3).unwrap();
    assert_eq!(list.reserve(TOO_MANY), Err(AllocError));
    assert_eq!(list.resize(TOO_MANY, 2), Err(AllocError));
    assert_eq!(list.as_slice(), [1, 1, 1]);
    assert_eq!(AllocError::from(AllocFailed { value: 3 }), AllocError);
    assert_eq!(Error::from(AllocError).kind(), ErrorKind::OutOfMemory);
    assert_eq!(Error::from(AllocFailed { value: 3 }).kind(), ErrorKind::OutOfMemory);
}

#[test]
fn texts() {
    let mut text = Text::from_str(Global, "a").unwrap();
    text.push('é').unwrap();
    text.push_str("bc").unwrap();
    text.write_fmt(format_args!("{}-{}", 1, 2)).unwrap();
    assert_eq!((text.as_str(), text.len(), text.to_string()), ("aébc1-2", 8, "aébc1-2".to_string()));
    assert_eq!(text.pop(), Some('2'));
    let copy = text.clone().unwrap();
    text.truncate(3);
    assert_eq!((text.as_str(), copy.as_str()), ("aé", "aébc1-"));
    assert_eq!(Text::from("x".to_string()), Text::from_str(Global, "x").unwrap());
}

#[test]
fn lanes() {
    let bytes: [u8; 65] = std::array::from_fn(|i| i as u8);
    let mut to = [255; 65];
    u8x64::from_slice(&bytes[1..]).copy_to_slice(&mut to);
    assert_eq!((&to[..64], to[64]), (&bytes[1..], 255));
    u8x16::splat(7).copy_to_slice(&mut to[1..]);
    assert_eq!((to[0], &to[1..17], to[17]), (1, &[7; 16][..], 18));
    u64x1::splat(0x0807060504030201).to_le_bytes().copy_to_slice(&mut to);
    assert_eq!(to[..8], [1, 2, 3, 4, 5, 6, 7, 8]);
    assert_eq!(u8x32::splat(0).reduce_or(), 0);
    let bits = u8x8::from_slice(&[1, 0, 4, 0, 16, 0, 0, 0]);
    assert_eq!(bits.reduce_or(), 21);
    assert_eq!(bits.simd_ne(u8x8::splat(0)).to_bitmask(), 0b10101);
    assert_eq!(u8x8::splat(0).simd_ne(u8x8::from_slice(&[0, 0, 0, 0, 0, 0, 0, 128])).to_bitmask(), 128);
}

#[test]
#[should_panic]
fn no_lane_is_read_after_the_end() {
    u8x16::from_slice(&[0; 15]);
}

#[test]
#[should_panic]
fn no_lane_is_written_after_the_end() {
    u8x16::splat(0).copy_to_slice(&mut [0; 15]);
}

/// Each line has a length, and the SHA-256 that Python's hashlib computes for the bytes `7 * i` up to
/// this length.
#[test]
fn digests() {
    let mut lines = 0;
    for line in include_str!("sha256.txt").lines() {
        let (length, digest) = line.split_once(' ').unwrap();
        let bytes: Vec<u8> = (0..length.parse().unwrap()).map(|i: usize| (7 * i) as u8).collect();
        assert_eq!(hex::encode(Global, Sha256::digest(&bytes)).unwrap().as_str(), digest, "{length}");
        lines += 1;
    }
    assert!(lines > 200);
}

#[test]
fn digits() {
    assert_eq!(hex::encode(Global, [0, 0x1f, 0xa0]).unwrap().as_str(), "001fa0");
    assert_eq!(hex::decode(Global, "001FA0").unwrap().as_slice(), [0, 0x1f, 0xa0]);
    let mut to = [b'x'; 4];
    assert_eq!(hex::encode_to_slice([0x9a], &mut to), Err(FromHexError::InvalidStringLength));
    assert_eq!(hex::encode_to_slice([0x9a, 0xbc], &mut to), Ok(()));
    assert_eq!(&to, b"9abc");
    assert_eq!(hex::decode(Global, "123"), Err(FromHexError::OddLength));
    assert_eq!(hex::decode_to_slice("1234", &mut to), Err(FromHexError::InvalidStringLength));
    let wrong = FromHexError::InvalidHexCharacter { c: 'g', index: 3 };
    assert_eq!(hex::decode(Global, "123g"), Err(wrong));
}

#[test]
fn buffers() {
    let mut reader = BufReader::with_capacity(Global, 4, &b"abcdefg"[..]).unwrap();
    let mut to = [0; 3];
    assert_eq!((reader.read(&mut to).unwrap(), &to), (3, b"abc"));
    assert_eq!(reader.buffer(), b"d");
    let mut bytes = std::vec::Vec::new();
    let mut writer = BufWriter::with_capacity(Global, 4, &mut bytes).unwrap();
    assert_eq!(writer.write(b"ab").unwrap(), 2);
    writer.flush().unwrap();
    drop(writer);
    assert_eq!(bytes, b"ab");
    assert!(BufReader::new(Global, &b""[..]).unwrap().buffer().is_empty());
    assert!(BufWriter::new(Global, std::vec::Vec::new()).is_ok());
}
