//! The program `conforming_runs`: tests each message of standard input against the schema of its
//! argument, `kinds` or `book`, which is that of `tests/typed/kinds.capnp` or of
//! `tests/typed/addressbook.capnp`. Prints a line for each message: `yes` or `no`, then what
//! `Pointer::validate` and the getters that may be refused answer. Fails if they disagree. With
//! `time validate TIMES` or `time conforms TIMES` after the schema, only tests each message as often.

mod checked;
mod lazy;
mod tables;
#[cfg(test)]
mod tests;

use capnp_proved::capnp_arena::arena::{ReaderArena, ReaderArenaImpl, ReaderOptions};
use capnp_proved::capnp_framing::devices::MemoryInput;
use capnp_proved::capnp_framing::framing::{read, OwnedSegments};
use capnp_proved::capnp_pointers::pointers::Pointer;
use capnp_proved::capnp_words::error::ErrorKind;
use capnp_proved::capnp_words::read_limiter::ReadLimiter;
use capnp_proved::support::alloc::Global;
use capnp_proved::typed_conforming::checked::CheckedStruct;
use capnp_proved::typed_conforming::conforms::conforms;
use capnp_proved::typed_conforming::schema::{Kind, Misfit};
use capnp_proved::typed_reading::value;
use lazy::Read;
use std::hint::black_box;
use std::io::Read as _;

/// The schema of a message.
#[derive(Clone, Copy, Debug)]
pub enum Schema {
    Kinds,
    Book,
}

impl Schema {
    fn table(self) -> &'static [u32] {
        match self {
            Schema::Kinds => &tables::KINDS,
            Schema::Book => &tables::BOOK,
        }
    }

    /// The row of the root.
    fn row(self) -> u32 {
        match self {
            Schema::Kinds => tables::KINDS_ROW,
            Schema::Book => tables::BOOK_ROW,
        }
    }
}

/// What each way of reading a message answers.
#[derive(Debug)]
pub struct Answers {
    /// `Pointer::validate`.
    pub validate: Result<(), ErrorKind>,
    /// The getters that may be refused.
    pub lazy: Result<Read, ErrorKind>,
    /// `CheckedStruct::root`, and then the getters that can't be refused.
    pub checked: Result<Read, Misfit>,
}

impl Answers {
    /// Whether the test says yes exactly if the message can be read whole and no getter is refused.
    /// The getters after a yes have to return what the others return, and a no has to name what
    /// `Pointer::validate` names, or else the first getter that is refused. If both find something,
    /// it may name either.
    pub fn agree(&self) -> bool {
        match (&self.validate, &self.lazy, &self.checked) {
            (Ok(()), Ok(lazy), Ok(checked)) => lazy == checked,
            (Ok(()), Err(lazy), Err(checked)) => *lazy == checked.error,
            (Err(validate), Ok(_), Err(checked)) => *validate == checked.error,
            (Err(_), Err(_), Err(_)) => true,
            _ => false,
        }
    }
}

fn validate(arena: &impl ReaderArena, lim: &mut ReadLimiter) -> Result<(), ErrorKind> {
    let root = Pointer::get_root_from_arena(arena, lim)?;
    root.validate(lim).map(drop)
}

fn read_lazily(
    arena: &impl ReaderArena,
    schema: Schema,
    lim: &mut ReadLimiter,
) -> Result<Read, ErrorKind> {
    let mut read = Read::default();
    let root = value::root(arena, lim)?;
    match schema {
        Schema::Kinds => lazy::read_kinds(&root, lim, &mut read)?,
        Schema::Book => lazy::read_book(&root, lim, &mut read)?,
    }
    Ok(read)
}

fn read_checked(
    arena: &impl ReaderArena,
    schema: Schema,
    lim: &mut ReadLimiter,
) -> Result<Read, Misfit> {
    let mut read = Read::default();
    let root = CheckedStruct::root(arena, schema.table(), schema.row(), lim)?;
    match schema {
        Schema::Kinds => checked::read_kinds(root, &mut read),
        Schema::Book => checked::read_book(root, &mut read),
    }
    Ok(read)
}

/// Reads a message in each way, each with all of the traversal limit.
pub fn answers(arena: &impl ReaderArena, schema: Schema, limit: Option<usize>) -> Answers {
    Answers {
        validate: validate(arena, &mut ReadLimiter::new(limit)),
        lazy: read_lazily(arena, schema, &mut ReadLimiter::new(limit)),
        checked: read_checked(arena, schema, &mut ReadLimiter::new(limit)),
    }
}

/// Prints what each way of reading a message answers. Returns whether they agree.
fn print_answers(
    arena: &ReaderArenaImpl<OwnedSegments>,
    schema: Schema,
    limit: Option<usize>,
) -> bool {
    let answers = answers(arena, schema, limit);
    let word = |error: Option<&ErrorKind>| error.map_or("ok".to_owned(), ToString::to_string);
    let test = if answers.checked.is_ok() { "yes" } else { "no" };
    let checked = word(answers.checked.as_ref().err().map(|misfit| &misfit.error));
    let validate = word(answers.validate.as_ref().err());
    println!(
        "{test} {checked} {validate} {}",
        word(answers.lazy.as_ref().err())
    );
    answers.agree()
}

/// Tests a message `times` times, against its schema or only for whether it can be read.
fn repeat(arena: &ReaderArenaImpl<OwnedSegments>, schema: Schema, conforming: bool, times: u32) {
    for _ in 0..times {
        let mut lim = ReadLimiter::new(None);
        let root = Pointer::get_root_from_arena(arena, &mut lim).expect("a root");
        if conforming {
            let answer = conforms(schema.table(), Kind::Struct(schema.row()), &root, &mut lim);
            black_box(answer).expect("a message that conforms");
        } else {
            black_box(root.validate(&mut lim)).expect("a message that can be read");
        }
    }
}

fn main() {
    let words: Vec<String> = std::env::args().skip(1).collect();
    let words: Vec<&str> = words.iter().map(String::as_str).collect();
    let schema = match words.first() {
        Some(&"kinds") => Schema::Kinds,
        Some(&"book") => Schema::Book,
        _ => panic!("usage: conforming_runs kinds|book [time conforms|validate TIMES]"),
    };
    let options = ReaderOptions::default();
    let mut bytes = Vec::new();
    std::io::stdin().read_to_end(&mut bytes).expect("input");
    let mut input = MemoryInput::new(&bytes);
    let mut agree = true;
    while let Some(segments) = read(Global, &mut input, u64::MAX).expect("a frame") {
        let arena = ReaderArenaImpl::new(segments, options);
        match words[1..] {
            [] => agree &= print_answers(&arena, schema, options.traversal_limit_in_words),
            ["time", what, times] => {
                repeat(
                    &arena,
                    schema,
                    what == "conforms",
                    times.parse().expect("a number"),
                );
            }
            _ => panic!("unknown arguments"),
        }
    }
    assert!(agree, "two ways of reading a message disagree");
}
