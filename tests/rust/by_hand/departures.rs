//! Tests of the texts of tools/rust/departures, and of reading a word, where Rust tests the bound that Rattle proves.

use capnp_proved::capnp_arena::arena::{
    push_or_count_refusal, Allocator, BuilderArena, BuilderArenaImpl, ReaderArena, Segment,
};
use capnp_proved::capnp_streams::device_log::{DeviceLog, Logged};
use capnp_proved::capnp_words::error::ErrorKind;
use capnp_proved::capnp_words::words::word_at;
use capnp_proved::support::alloc::Global;
use capnp_proved::support::vec::Vec;
use std::cell::RefCell;
use std::io::{Error, ErrorKind as Kind, Read, Write};
use std::rc::Rc;

#[test]
fn each_word_is_read_lowest_byte_first() {
    let bytes: [u8; 31] = std::array::from_fn(|i| i as u8 + 1);
    assert_eq!(word_at(&bytes, 0), 0x0807060504030201);
    assert_eq!(word_at(&bytes, 1), 0x100f0e0d0c0b0a09);
    assert_eq!(word_at(&bytes, 2), 0x1817161514131211);
}

#[test]
#[should_panic]
fn no_word_is_read_from_seven_bytes() {
    word_at(&[0; 15], 1);
}

#[test]
#[should_panic]
fn no_word_is_read_after_the_end() {
    word_at(&[0; 16], 3);
}

/// What has happened to the segments: `+N` if segment N was granted, `-N:USED` if it was returned,
/// `xN` if it was dropped.
type Log = Rc<RefCell<std::vec::Vec<String>>>;

struct Noted {
    bytes: std::vec::Vec<u8>,
    number: usize,
    log: Option<Log>,
}

impl Segment for Noted {
    fn empty(_: Global) -> Self {
        Noted { bytes: vec![], number: 0, log: None }
    }

    fn len(&self) -> usize {
        self.bytes.len()
    }

    fn bytes(&self) -> &[u8] {
        &self.bytes
    }

    fn bytes_mut(&mut self) -> &mut [u8] {
        &mut self.bytes
    }

    fn make_ready(&mut self, _: usize) {}
}

impl Drop for Noted {
    fn drop(&mut self) {
        if let Some(log) = &self.log {
            log.borrow_mut().push(format!("x{}", self.number));
        }
    }
}

/// Grants segments of two words or more. `FIRST` says whether the arena has the first row in itself.
struct Noting<const FIRST: bool> {
    log: Log,
    granted: usize,
    refused: u64,
    keeps: usize,
}

impl<const FIRST: bool> Allocator for Noting<FIRST> {
    type Segment = Noted;

    fn keeps_first_in_arena() -> bool {
        FIRST
    }

    fn allocate_segment(&mut self, min_words: u32) -> Result<Noted, ErrorKind> {
        self.log.borrow_mut().push(format!("+{}", self.granted));
        let number = self.granted;
        self.granted += 1;
        let bytes = vec![0; 8 * min_words.max(2) as usize];
        Ok(Noted { bytes, number, log: Some(self.log.clone()) })
    }

    fn deallocate_segment(&mut self, mut segment: Noted, used_words: u32) {
        segment.log = None;
        self.log.borrow_mut().push(format!("-{}:{used_words}", segment.number));
    }

    fn keep<T>(&mut self, list: &mut Vec<T>, row: T) -> Option<T> {
        if self.keeps == 0 {
            self.refused += 1;
            return Some(row);
        }
        self.keeps -= 1;
        push_or_count_refusal(list, row, &mut self.refused)
    }

    fn refused(&self) -> u64 {
        self.refused
    }
}

fn noting<const FIRST: bool>(log: &Log, keeps: usize) -> Noting<FIRST> {
    Noting { log: log.clone(), granted: 0, refused: 0, keeps }
}

/// An arena with three segments, of 2, 1 and 5 allocated words.
fn of_three<const FIRST: bool>(log: &Log) -> BuilderArenaImpl<Noting<FIRST>> {
    let mut arena = BuilderArenaImpl::new(Global, noting(log, 9));
    assert!(arena.is_empty());
    assert_eq!(arena.allocate_anywhere(2).unwrap().0, 0);
    assert_eq!(arena.allocate_anywhere(1).unwrap().0, 1);
    assert_eq!(arena.allocate_anywhere(5).unwrap().0, 2);
    assert_eq!(arena.len(), 3);
    arena
}

fn said(log: &Log) -> String {
    log.borrow().join(" ")
}

fn dropped<const FIRST: bool>() {
    let log = Log::default();
    drop(of_three::<FIRST>(&log));
    assert_eq!(said(&log), "+0 +1 +2 -0:2 -1:1 -2:5");
    let log = Log::default();
    drop(BuilderArenaImpl::new(Global, noting::<FIRST>(&log, 9)));
    assert_eq!(said(&log), "");
}

#[test]
fn a_dropped_arena_returns_each_segment_once_in_order() {
    dropped::<false>();
    dropped::<true>();
}

fn apart<const FIRST: bool>() {
    let log = Log::default();
    let allocator = of_three::<FIRST>(&log).into_allocator();
    assert_eq!(said(&log), "+0 +1 +2 -0:2 -1:1 -2:5");
    assert_eq!(allocator.granted, 3);
    drop(allocator);
    assert_eq!(said(&log), "+0 +1 +2 -0:2 -1:1 -2:5");
}

#[test]
fn an_arena_returns_its_segments_before_its_allocator() {
    apart::<false>();
    apart::<true>();
}

fn separated<const FIRST: bool>() {
    let log = Log::default();
    let (mut arena, allocator) = of_three::<FIRST>(&log).without_allocator();
    assert_eq!(said(&log), "+0 +1 +2");
    assert_eq!(arena.len(), 3);
    assert_eq!(arena.refused(), 0);
    assert_eq!(arena.allocate_anywhere(2), Err(ErrorKind::AllocationFailed));
    assert_eq!(arena.refused(), 1);
    assert_eq!(arena.allocate_anywhere(1).unwrap(), (1, 1));
    let mut arena = arena.with_allocator(allocator);
    assert_eq!(arena.refused(), 0);
    assert_eq!(arena.get_segment(1).unwrap().len(), 16);
    assert_eq!(arena.allocate_anywhere(2).unwrap().0, 3);
    drop(arena);
    assert_eq!(said(&log), "+0 +1 +2 +3 -0:2 -1:2 -2:5 -3:2");
    let log = Log::default();
    let (arena, _) = of_three::<FIRST>(&log).without_allocator();
    drop(arena);
    assert_eq!(said(&log), "+0 +1 +2 x0 x1 x2");
}

#[test]
fn an_arena_without_its_allocator_keeps_its_segments() {
    separated::<false>();
    separated::<true>();
}

fn without_rows<const FIRST: bool>(rows: usize, log_then: &str) {
    let log = Log::default();
    let mut arena = BuilderArenaImpl::new(Global, noting::<FIRST>(&log, rows));
    for id in 0..rows + usize::from(FIRST) {
        assert_eq!(arena.allocate_anywhere(2).unwrap().0, id as u32);
    }
    assert_eq!(arena.allocate_anywhere(2), Err(ErrorKind::AllocationFailed));
    assert_eq!((arena.len(), arena.refused()), (rows + usize::from(FIRST), 1));
    drop(arena);
    assert_eq!(said(&log), log_then);
}

#[test]
fn a_segment_without_memory_for_its_row_is_returned() {
    without_rows::<false>(0, "+0 -0:0");
    without_rows::<false>(1, "+0 +1 -1:0 -0:2");
    without_rows::<true>(0, "+0 +1 -1:0 -0:2");
}

/// A device that fails.
struct Failing(Option<i32>);

impl Failing {
    fn error(&self) -> Error {
        self.0.map_or(Error::from(Kind::InvalidData), Error::from_raw_os_error)
    }
}

impl Read for Failing {
    fn read(&mut self, _: &mut [u8]) -> std::io::Result<usize> {
        Err(self.error())
    }
}

impl Write for Failing {
    fn write(&mut self, _: &[u8]) -> std::io::Result<usize> {
        Err(self.error())
    }

    fn flush(&mut self) -> std::io::Result<()> {
        Err(self.error())
    }
}

fn fails(log: &DeviceLog, code: Option<i32>, kind: Kind) {
    // Asking again has the same answer.
    for _ in 0..2 {
        let fault = log.fault().unwrap();
        assert_eq!((fault.raw_os_error(), fault.kind()), (code, kind));
    }
}

#[test]
fn the_error_of_a_device_is_noted() {
    let quiet = DeviceLog::new();
    assert!(quiet.fault().is_none() && quiet.fault().is_none());
    for (code, kind) in [(Some(13), Kind::PermissionDenied), (None, Kind::InvalidData)] {
        let log = DeviceLog::new();
        let error = Logged::new(Failing(code), &log).read(&mut [0]).unwrap_err();
        assert_eq!(error.kind(), kind);
        fails(&log, code, kind);
        let log = DeviceLog::new();
        assert_eq!(Logged::new(Failing(code), &log).write(&[0]).unwrap_err().kind(), kind);
        fails(&log, code, kind);
        let log = DeviceLog::new();
        assert_eq!(Logged::new(Failing(code), &log).flush().unwrap_err().kind(), kind);
        fails(&log, code, kind);
    }
}
