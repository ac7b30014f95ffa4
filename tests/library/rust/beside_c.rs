//! Compares the crate `capnp_canonical` with the library in C, in one process: the bytes, numbers, names and places of
//! each call. Reads the lines of tests/release/lines.py from standard input:
//!
//!     beside_c N    compares what both answer to each message, and to N altered ones of each
//!
//! The last line is `N passed, M failed`; each message counts.
use capnp_canonical::{self as rust, segments, words, Error, Limits, Reading};
use std::io::BufRead;
use std::ptr;

#[repr(C)]
struct Segment {
    bytes: *const u8,
    size: usize,
}

#[repr(C)]
#[derive(Default)]
struct Fault {
    reason: u32,
    word: u32,
    segment: u64,
}

#[repr(C)]
#[derive(Default)]
struct Extent {
    words: u64,
    capabilities: u64,
    cost: u64,
    depth: u32,
}

#[repr(C)]
#[derive(Clone, Copy, Default)]
struct Object {
    parent: u64,
    pointer_segment: u64,
    segment: u64,
    pointer_word: u32,
    word: u32,
    kind: u32,
    count: u32,
    capability: u32,
    data_words: u16,
    pointers: u16,
}

type Copy =
    unsafe extern "C" fn(*const Segment, usize, i32, u64, *mut u8, usize, *mut usize) -> u32;

#[rustfmt::skip]
#[link(name = "capnp_canonical", kind = "static")]
extern "C" {
    fn capnp_canonical_copy(frame: *const u8, size: usize, nesting: i32, words: u64, to: *mut u8, room: usize, written: *mut usize) -> u32;
    fn capnp_canonical_check(frame: *const u8, size: usize, nesting: i32, words: u64, is: *mut bool, fault: *mut Fault) -> u32;
    fn capnp_canonical_locate(frame: *const u8, size: usize, nesting: i32, words: u64, reading: u32, pointer: *mut Fault) -> u32;
    fn capnp_canonical_frame_size(frame: *const u8, size: usize, words: u64, bytes: *mut usize) -> u32;
    fn capnp_canonical_frame_size_from_prefix(prefix: *const u8, size: usize, words: u64, bytes: *mut usize) -> u32;
    fn capnp_canonical_segments_copy(segments: *const Segment, count: usize, nesting: i32, words: u64, to: *mut u8, room: usize, written: *mut usize) -> u32;
    fn capnp_canonical_segments_copy_flat(segments: *const Segment, count: usize, nesting: i32, words: u64, to: *mut u8, room: usize, written: *mut usize) -> u32;
    fn capnp_canonical_segments_copy_flat_at(segments: *const Segment, count: usize, path: *const u32, steps: usize, nesting: i32, words: u64, to: *mut u8, room: usize, written: *mut usize) -> u32;
    fn capnp_canonical_segments_digest(segments: *const Segment, count: usize, nesting: i32, words: u64, digest: *mut u8) -> u32;
    fn capnp_canonical_segments_digest_at(segments: *const Segment, count: usize, path: *const u32, steps: usize, nesting: i32, words: u64, digest: *mut u8) -> u32;
    fn capnp_canonical_segments_check(segments: *const Segment, count: usize, nesting: i32, words: u64, is: *mut bool, fault: *mut Fault) -> u32;
    fn capnp_canonical_segments_size(segments: *const Segment, count: usize, nesting: i32, words: u64, word_count: *mut u64, caps: *mut u32) -> u32;
    fn capnp_canonical_segments_size_at(segments: *const Segment, count: usize, path: *const u32, steps: usize, nesting: i32, words: u64, word_count: *mut u64, caps: *mut u32) -> u32;
    fn capnp_canonical_segments_validate(segments: *const Segment, count: usize, nesting: i32, words: u64, extent: *mut Extent) -> u32;
    fn capnp_canonical_segments_locate(segments: *const Segment, count: usize, nesting: i32, words: u64, reading: u32, pointer: *mut Fault) -> u32;
    fn capnp_canonical_segments_walk(segments: *const Segment, count: usize, nesting: i32, words: u64, objects: *mut Object, room: usize, found: *mut usize) -> u32;
    fn capnp_canonical_words_check(bytes: *const u8, size: usize, nesting: i32, words: u64, is: *mut bool, fault: *mut Fault) -> u32;
    fn capnp_canonical_words_digest(bytes: *const u8, size: usize, nesting: i32, words: u64, digest: *mut u8) -> u32;
    fn capnp_canonical_unpack(packed: *const u8, size: usize, to: *mut u8, room: usize, written: *mut usize) -> u32;
    fn capnp_canonical_name(answer: u32, to: *mut u8, room: usize) -> usize;
}

/// A message: its segments, and the same bytes taken as a frame and as packed bytes. What both answer is written as text.
struct Message {
    parts: Vec<Vec<u8>>,
    limits: Limits,
    path: Vec<u32>,
}

/// What C answers: the value, or the number and the name of the refusal, and its place if `locate` finds one.
fn of_c<T: std::fmt::Debug>(
    answer: u32,
    value: T,
    locate: impl FnOnce(&mut Fault) -> u32,
) -> String {
    if answer == 0 {
        return format!("{value:?}");
    }
    let mut name = [0; 128];
    let length = unsafe { capnp_canonical_name(answer, name.as_mut_ptr(), name.len()) };
    let name = String::from_utf8_lossy(&name[..length]).into_owned();
    let mut pointer = Fault::default();
    let has_pointer =
        answer != 32 && answer != 59 && locate(&mut pointer) == 0 && pointer.reason != 0;
    let place = has_pointer.then_some((pointer.segment, pointer.word));
    format!("{answer} {name} {place:?}")
}

/// What the crate answers, in the same form.
fn of_rust<T: std::fmt::Debug>(answer: Result<T, Error>) -> String {
    match answer {
        Ok(value) => format!("{value:?}"),
        Err(error) => {
            let place = error.pointer().map(|it| (it.segment, it.word));
            format!("{} {} {place:?}", error.number(), error.name())
        }
    }
}

/// The number of these bytes, and a sum that tells other bytes from them (FNV-1a).
fn sum(bytes: Vec<u8>) -> (usize, u64) {
    let add = |sum: u64, byte: &u8| (sum ^ u64::from(*byte)).wrapping_mul(0x0100_0000_01b3);
    (bytes.len(), bytes.iter().fold(0xcbf2_9ce4_8422_2325, add))
}

/// The bytes that a call of C writes, with as much room as it asks for.
fn written(call: impl Fn(*mut u8, usize, &mut usize) -> u32) -> (u32, (usize, u64)) {
    let (mut to, mut size) = (Vec::new(), 0);
    let mut answer = call(ptr::null_mut(), 0, &mut size);
    if answer == 1 {
        to.resize(size, 0);
        answer = call(to.as_mut_ptr(), to.len(), &mut size);
    }
    to.truncate(if answer == 0 { size } else { 0 });
    (answer, sum(to))
}

const NOWHERE: fn(&mut Fault) -> u32 = |_| 1;

impl Message {
    fn slices(&self) -> Vec<&[u8]> {
        self.parts.iter().map(Vec::as_slice).collect()
    }

    /// The names and answers of the calls for segments.
    fn compare_segments(&self, said: &mut Vec<(&'static str, String, String)>) {
        let slices = self.slices();
        let raw: Vec<_> = slices
            .iter()
            .map(|it| Segment {
                bytes: it.as_ptr(),
                size: it.len(),
            })
            .collect();
        let (at, count) = (raw.as_ptr(), raw.len());
        let (nesting, most) = (
            self.limits.nesting.min(Limits::MAX_NESTING),
            self.limits.words,
        );
        let (path, steps) = (self.path.as_ptr(), self.path.len());
        let locate = |reading: u32| {
            move |to: &mut Fault| unsafe {
                capnp_canonical_segments_locate(at, count, nesting, most, reading, to)
            }
        };
        let copies: [(_, Copy, fn(&Vec<&[u8]>, Limits) -> Result<Vec<u8>, Error>); 2] = [
            ("copy", capnp_canonical_segments_copy, |it, limits| {
                segments::canonical_copy(it, limits)
            }),
            (
                "copy_flat",
                capnp_canonical_segments_copy_flat,
                |it, limits| segments::canonical_words(it, limits),
            ),
        ];
        for (name, call, ours) in copies {
            let (answer, bytes) =
                written(|to, room, size| unsafe { call(at, count, nesting, most, to, room, size) });
            said.push((
                name,
                of_c(answer, bytes, locate(1)),
                of_rust(ours(&slices, self.limits).map(sum)),
            ));
        }
        let (answer, bytes) = written(|to, room, size| unsafe {
            capnp_canonical_segments_copy_flat_at(
                at, count, path, steps, nesting, most, to, room, size,
            )
        });
        said.push((
            "copy_flat_at",
            of_c(answer, bytes, NOWHERE),
            of_rust(segments::canonical_words_at(&slices, &self.path, self.limits).map(sum)),
        ));
        let mut digest = [0; 32];
        let answer = unsafe {
            capnp_canonical_segments_digest(at, count, nesting, most, digest.as_mut_ptr())
        };
        said.push((
            "digest",
            of_c(answer, digest, locate(1)),
            of_rust(segments::digest(&slices, self.limits)),
        ));
        let answer = unsafe {
            capnp_canonical_segments_digest_at(
                at,
                count,
                path,
                steps,
                nesting,
                most,
                digest.as_mut_ptr(),
            )
        };
        said.push((
            "digest_at",
            of_c(answer, digest, NOWHERE),
            of_rust(segments::digest_at(&slices, &self.path, self.limits)),
        ));
        let (mut is, mut fault) = (false, Fault::default());
        let answer = unsafe {
            capnp_canonical_segments_check(at, count, nesting, most, &mut is, &mut fault)
        };
        let found = (!is).then_some((fault.reason, fault.segment, fault.word));
        let ours = segments::check(&slices, self.limits)
            .map(|it| it.map(|it| (it.reason.number(), it.segment, it.word)));
        said.push(("check", of_c(answer, found, locate(0)), of_rust(ours)));
        said.push((
            "is_canonical",
            format!("{}", answer == 0 && is),
            format!("{}", segments::is_canonical(&slices, self.limits)),
        ));
        let (mut size, mut caps) = (0, 0);
        let answer = unsafe {
            capnp_canonical_segments_size(at, count, nesting, most, &mut size, &mut caps)
        };
        said.push((
            "size",
            of_c(answer, (size, caps), locate(2)),
            of_rust(segments::size(&slices, self.limits).map(|it| (it.words, it.capabilities))),
        ));
        let answer = unsafe {
            capnp_canonical_segments_size_at(
                at, count, path, steps, nesting, most, &mut size, &mut caps,
            )
        };
        let ours = segments::size_at(&slices, &self.path, self.limits)
            .map(|it| (it.words, it.capabilities));
        said.push((
            "size_at",
            of_c(answer, (size, caps), NOWHERE),
            of_rust(ours),
        ));
        let mut extent = Extent::default();
        let answer =
            unsafe { capnp_canonical_segments_validate(at, count, nesting, most, &mut extent) };
        let found = (extent.depth, extent.words, extent.capabilities, extent.cost);
        let ours = segments::validate(&slices, self.limits)
            .map(|it| (it.depth, it.words, it.capabilities, it.cost));
        said.push(("validate", of_c(answer, found, locate(0)), of_rust(ours)));
        for (number, reading) in [Reading::Value, Reading::Canonical, Reading::Size]
            .into_iter()
            .enumerate()
        {
            let mut pointer = Fault::default();
            let answer = locate(number as u32)(&mut pointer);
            let found =
                (pointer.reason != 0).then_some((pointer.reason, pointer.segment, pointer.word));
            let ours = segments::locate(&slices, reading, self.limits)
                .map(|it| it.map(|it| (it.error.number(), it.segment, it.word)));
            said.push(("locate", of_c(answer, found, NOWHERE), of_rust(ours)));
        }
        let (mut objects, mut found) = ([Object::default(); 100], 0);
        let answer = unsafe {
            capnp_canonical_segments_walk(
                at,
                count,
                nesting,
                most,
                objects.as_mut_ptr(),
                objects.len(),
                &mut found,
            )
        };
        let is_message = locate(0)(&mut Fault::default()) == 0;
        let listed: Vec<_> = objects[..found.min(100)]
            .iter()
            .map(|it| {
                (
                    it.parent,
                    it.pointer_segment,
                    it.segment,
                    it.pointer_word,
                    it.word,
                    it.kind,
                    it.count,
                    it.capability,
                    it.data_words,
                    it.pointers,
                )
            })
            .collect();
        let ours = segments::walk(&slices, 100, self.limits).map(|it| {
            let listed: Vec<_> = it
                .objects
                .iter()
                .map(|it| {
                    (
                        it.parent.map_or(u64::MAX, |it| it as u64),
                        it.pointer_segment,
                        it.segment,
                        it.pointer_word,
                        it.word,
                        it.kind as u32,
                        it.count,
                        it.capability,
                        it.data_words,
                        it.pointers,
                    )
                })
                .collect();
            (it.count, listed)
        });
        said.push((
            "walk",
            of_c(
                if is_message { 0 } else { answer },
                (found, listed),
                NOWHERE,
            ),
            of_rust(ours),
        ));
    }

    /// The same for calls that take bytes: a frame, words, packed bytes.
    fn compare_bytes(&self, bytes: &[u8], said: &mut Vec<(&'static str, String, String)>) {
        let (at, length) = (bytes.as_ptr(), bytes.len());
        let (nesting, most) = (
            self.limits.nesting.min(Limits::MAX_NESTING),
            self.limits.words,
        );
        let locate = |reading: u32| {
            move |to: &mut Fault| unsafe {
                capnp_canonical_locate(at, length, nesting, most, reading, to)
            }
        };
        let (answer, copy) = written(|to, room, size| unsafe {
            capnp_canonical_copy(at, length, nesting, most, to, room, size)
        });
        said.push((
            "frame, copy",
            of_c(answer, copy, locate(1)),
            of_rust(rust::canonical_copy(bytes, self.limits).map(sum)),
        ));
        let (mut is, mut fault) = (false, Fault::default());
        let answer =
            unsafe { capnp_canonical_check(at, length, nesting, most, &mut is, &mut fault) };
        let found = (!is).then_some((fault.reason, fault.segment, fault.word));
        let ours = rust::check(bytes, self.limits)
            .map(|it| it.map(|it| (it.reason.number(), it.segment, it.word)));
        said.push((
            "frame, check",
            of_c(answer, found, locate(0)),
            of_rust(ours),
        ));
        let answer =
            unsafe { capnp_canonical_words_check(at, length, nesting, most, &mut is, &mut fault) };
        let found = (!is).then_some((fault.reason, fault.segment, fault.word));
        let ours = words::check(bytes, self.limits)
            .map(|it| it.map(|it| (it.reason.number(), it.segment, it.word)));
        let raw = [Segment {
            bytes: at,
            size: length,
        }];
        let of_words = |reading: u32| {
            let raw = &raw;
            move |to: &mut Fault| unsafe {
                capnp_canonical_segments_locate(raw.as_ptr(), 1, nesting, most, reading, to)
            }
        };
        said.push((
            "words, check",
            of_c(answer, found, of_words(0)),
            of_rust(ours),
        ));
        let mut digest = [0; 32];
        let answer =
            unsafe { capnp_canonical_words_digest(at, length, nesting, most, digest.as_mut_ptr()) };
        said.push((
            "words, digest",
            of_c(answer, digest, of_words(1)),
            of_rust(words::digest(bytes, self.limits)),
        ));
        let mut size = 0;
        let answer = unsafe { capnp_canonical_frame_size(at, length, most, &mut size) };
        said.push((
            "frame_size",
            of_c(answer, size, NOWHERE),
            of_rust(rust::frame_size(bytes, most)),
        ));
        let answer = unsafe { capnp_canonical_frame_size_from_prefix(at, length, most, &mut size) };
        said.push((
            "frame_size_from_prefix",
            of_c(answer, size, NOWHERE),
            of_rust(rust::frame_size_from_prefix(bytes, most)),
        ));
        // C has no limit here, and the lines are short
        let (answer, unpacked) =
            written(|to, room, size| unsafe { capnp_canonical_unpack(at, length, to, room, size) });
        said.push((
            "unpack",
            of_c(answer, unpacked, NOWHERE),
            of_rust(rust::unpack(bytes, u64::MAX).map(sum)),
        ));
    }

    /// Whether both answer the same. Says what differs.
    fn is_same(&self) -> bool {
        let mut said = Vec::new();
        self.compare_segments(&mut said);
        let joined = self.parts.concat();
        self.compare_bytes(&joined, &mut said);
        let framed = framed(&self.slices());
        self.compare_bytes(&framed, &mut said);
        for (call, c, rust) in &said {
            if c != rust {
                println!(
                    "{call}, {:?}, path {:?}: {:02x?}\n  C    {c}\n  Rust {rust}",
                    self.limits, self.path, self.parts
                );
                return false;
            }
        }
        true
    }
}

/// The frame of these segments.
fn framed(segments: &[&[u8]]) -> Vec<u8> {
    let sizes = segments.iter().map(|it| (it.len() / 8) as u32);
    let count = (segments.len() as u32).wrapping_sub(1);
    let mut frame: Vec<u8> = [count]
        .into_iter()
        .chain(sizes)
        .flat_map(u32::to_le_bytes)
        .collect();
    frame.resize(frame.len().next_multiple_of(8), 0);
    frame.extend(segments.concat());
    frame
}

/// Numbers that are the same in each run (xorshift).
struct Numbers(u64);

impl Numbers {
    fn below(&mut self, end: usize) -> usize {
        self.0 ^= self.0 << 13;
        self.0 ^= self.0 >> 7;
        self.0 ^= self.0 << 17;
        (self.0 >> 16) as usize % end.max(1)
    }
}

/// Alters a message: flips bits of pointers, cuts it, or sets other limits.
fn altered(of: &Message, numbers: &mut Numbers) -> Message {
    let mut parts = of.parts.clone();
    for _ in 0..1 + numbers.below(3) {
        let which = numbers.below(parts.len());
        let Some(part) = parts.get_mut(which).filter(|it| !it.is_empty()) else {
            continue;
        };
        match numbers.below(8) {
            0 => part.truncate(8 * numbers.below(part.len() / 8 + 1)),
            1 => part.truncate(numbers.below(part.len())),
            _ => {
                let at = numbers.below(part.len().min(256));
                part[at] ^= 1 << numbers.below(8);
            }
        }
    }
    let mut limits = of.limits;
    match numbers.below(4) {
        0 => limits.nesting = numbers.below(8) as i32 - 1,
        1 => limits.words = numbers.below(64) as u64,
        _ => {}
    }
    let path = (0..numbers.below(4))
        .map(|_| numbers.below(4) as u32)
        .collect();
    Message {
        parts,
        limits,
        path,
    }
}

fn message_of(line: &str) -> Message {
    let words: Vec<_> = line.split(' ').collect();
    let bytes_of = |digits: &str| {
        let digits = digits.trim_matches('.');
        let bytes = (0..digits.len())
            .step_by(2)
            .map(|at| u8::from_str_radix(&digits[at..at + 2], 16).unwrap());
        bytes.collect()
    };
    let parts = match words[3] {
        "-" => Vec::new(),
        parts => parts.split(',').map(bytes_of).collect(),
    };
    let limits = Limits::default()
        .with_nesting(words[1].parse().unwrap())
        .with_words(words[2].parse().unwrap());
    Message {
        parts,
        limits,
        path: vec![0],
    }
}

fn main() {
    let count = std::env::args()
        .nth(1)
        .map_or(0, |it| it.parse().expect("a number"));
    let (mut passed, mut failed, mut numbers) = (0, 0, Numbers(0x9e37_79b9_7f4a_7c15));
    for line in std::io::stdin().lock().lines() {
        let message = message_of(&line.expect("a line"));
        for at in 0..=count {
            let is_same = if at == 0 {
                message.is_same()
            } else {
                altered(&message, &mut numbers).is_same()
            };
            if is_same {
                passed += 1
            } else {
                failed += 1
            }
        }
    }
    println!("{passed} passed, {failed} failed");
    std::process::exit(i32::from(failed > 0));
}
