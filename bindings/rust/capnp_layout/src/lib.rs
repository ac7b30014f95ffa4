//! Cap'n Proto messages from anyone: checked once, and then read in place.
//!
//! [`Message`] is a message that was received, [`Builder`] one that is being made. Fields are named
//! by index and offset, as in the [encoding specification](https://capnproto.org/encoding.html).
//!
//! ```
//! use capnp_layout::{Builder, Limits, Message, StructSize};
//!
//! let mut built = Builder::new();
//! let mut person = built.init_root(StructSize { data_words: 1, pointers: 1 });
//! person.set_u32(0, 123).set_text(0, "Alice");
//! let bytes = built.to_frame()?; // the one place where a refusal shows
//!
//! let message = Message::open(&bytes, Limits::default())?; // in place: no copy, no allocation
//! let person = message.sound()?; // the whole message is checked here, once
//! assert_eq!((person.get_u32(0), person.get_text(0)?), (123, "Alice"));
//! # Ok::<(), capnp_layout::Error>(())
//! ```
//!
//! # Checked once, or as it is read
//!
//! With code that `capnpc-layout-rust` generates from a schema, [`Message::root`] checks the whole
//! message against the schema, once. After it getters return values: nothing can be refused.
//!
//! Without a schema, [`Message::sound`] checks the whole message. After it neither a limit nor a
//! broken pointer can refuse a getter. [`Message::lazy`] checks each object when it is read, and
//! charges the message's limits through a `Cell`. Both have readers of the same types: [`Struct`],
//! [`List`] and [`Pointer`]. A getter that follows a pointer returns a `Result`, since neither
//! check knows what the program expects: a list where a text is wanted is refused, and so is a
//! text that isn't UTF-8.
//!
//! Readers of a checked message are `Copy`, `Send` and `Sync`.
//!
//! # Building
//!
//! Builders borrow the message mutably, so the borrow checker refuses two of them at once:
//!
//! ```compile_fail,E0499
//! # use capnp_layout::{Builder, StructSize};
//! # let size = StructSize { data_words: 1, pointers: 2 };
//! let mut message = Builder::new();
//! let mut root = message.init_root(size);
//! let mut first = root.init_struct(0, size);
//! root.init_struct(1, size); // `root` is borrowed by `first`
//! first.set_u32(0, 1);
//! ```
//!
//! Setters return no `Result`. The first refusal, such as a text of 2^29 bytes, is kept, later
//! calls change nothing, and each call that hands out the message returns the refusal, so that it
//! can't be overlooked.
//!
//! # What is proved
//!
//! The modules of [`proved`] are the core. They are written in Rattle, where each function is
//! proved to do what its contract says, and printed as Rust; no proof is about the printed text.
//! What is outside of `proved` is written by hand, and only tested. There is no unsafe code in
//! either. Programs that need pointers and places can call the core: its functions quote
//! their preconditions, which a Rust compiler doesn't check.
#![cfg_attr(not(feature = "std"), no_std)]
#![cfg_attr(docsrs, feature(doc_cfg))]
#![forbid(unsafe_code)]
#![warn(missing_docs)]

extern crate alloc as rust_alloc;

mod builder;
mod building;
mod checking;
mod element;
mod error;
#[doc(hidden)]
pub mod generated;
mod growing;
mod list;
mod list_building;
mod message;
mod meter;
mod opening;
#[doc(hidden)]
#[allow(missing_docs, clippy::all)]
// In the repository; a package has the modules in `src/proved`, and not this line.
#[path = "../../../../generated/rust/src/proved/mod.rs"]
pub mod proved;
mod reading;
mod searching;
mod segments;
mod showing;
mod typed;
mod values;

pub use builder::Builder;
pub use building::StructBuilder;
pub use element::{Element, Lists, Number, Pointers, Structs};
pub use error::{Error, Reason};
pub use list::{Iter, List};
pub use list_building::ListBuilder;
pub use message::{Checked, Limits, Message};
pub use meter::{Lazy, Meter, Outcome, Sound, Typed};
pub use reading::{Pointer, Struct, Target};
pub use segments::Segments;
pub use typed::{Enum, PointerBuilder, StructType, TypedBuilder};

pub use proved::capnp_framing::framing::FrameError;
pub use proved::capnp_messages::messages::MessageExtent;
pub use proved::capnp_pointers::pointers::{
    CanonicalFault, CanonicalFaultReason, Extent, MessageSize,
};
pub use proved::capnp_walks::walks::{WalkedObject, CAPABILITY, NO_PARENT, STRUCT};
pub use proved::capnp_words::error::ErrorKind;
pub use proved::capnp_words::wire_pointer::{ElementSize, StructSize};

#[cfg(doctest)]
#[doc = include_str!("../README.md")]
struct Readme;

/// What the borrow checker has to refuse, since places of builders rest on it.
///
/// ```compile_fail,E0502
/// # use capnp_layout::{Builder, StructSize};
/// let mut message = Builder::new();
/// let mut root = message.init_root(StructSize { data_words: 1, pointers: 1 });
/// let bytes = message.to_frame();
/// root.set_u32(0, 1);
/// ```
///
/// ```compile_fail,E0499
/// # use capnp_layout::{Builder, StructSize};
/// # let size = StructSize { data_words: 1, pointers: 1 };
/// let mut message = Builder::new();
/// let mut root = message.init_root(size);
/// message.init_root(size);
/// root.set_u32(0, 1);
/// ```
///
/// ```compile_fail,E0499
/// # use capnp_layout::{Builder, StructSize};
/// # let size = StructSize { data_words: 1, pointers: 1 };
/// # let mut message = Builder::new();
/// # let mut root = message.init_root(size);
/// let mut list = root.init_structs(0, 2, size);
/// let mut first = list.at(0);
/// list.at(1).set_u32(0, 2);
/// first.set_u32(0, 1);
/// ```
///
/// ```compile_fail,E0502
/// # use capnp_layout::{Builder, StructSize};
/// # let size = StructSize { data_words: 1, pointers: 1 };
/// # let mut message = Builder::new();
/// let read = message.as_message().unwrap();
/// message.init_root(size);
/// read.sound().unwrap();
/// ```
///
/// A reader doesn't outlive its message:
///
/// ```compile_fail,E0505
/// # use capnp_layout::{Limits, Message};
/// let message = Message::copy(&[0; 16], Limits::default()).unwrap();
/// let root = message.sound().unwrap();
/// drop(message);
/// root.get_u32(0);
/// ```
///
/// Readers that charge their message stay in its thread:
///
/// ```compile_fail,E0277
/// # use capnp_layout::{Limits, Message};
/// # let message = Message::copy(&[0; 16], Limits::default()).unwrap();
/// let root = message.lazy().unwrap();
/// std::thread::scope(|threads| threads.spawn(|| root.get_u32(0)).join());
/// ```
#[cfg(doctest)]
struct Refused;
