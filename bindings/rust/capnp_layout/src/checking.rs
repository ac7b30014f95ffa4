//! Checks of messages against a schema.

use crate::error::{Error, Reason};
use crate::message::{Checked, Message};
use crate::meter::{Meter, Typed};
use crate::proved::capnp_readers::readers::PointerReader;
use crate::proved::capnp_words::read_limiter::ReadLimiter;
use crate::proved::typed_conforming::conforms::conforms;
use crate::proved::typed_conforming::schema::{Kind, Misfit, NOT_UTF8};
use crate::reading::Pointer;
use crate::searching;
use crate::segments::Arena;
use crate::typed::StructType;
use rust_alloc::format;
use rust_alloc::string::String;

/// The reader of a type, after a check.
type Reader<'a, T> = <T as crate::element::Element>::Item<'a, Typed>;

/// The name of the field that a misfit is in: pointer `index` of the row at `row`. `names` has a line
/// for each row: its position, its name, and the names of its pointers with commas between them.
fn name_of(names: &str, row: u32, index: u32) -> Option<String> {
    let mut lines = names.lines().filter_map(|line| line.split_once(' '));
    let (_, line) = lines.find(|(position, _)| position.parse() == Ok(row))?;
    let Some((name, fields)) = line.split_once(' ') else {
        return Some(line.into());
    };
    match fields.split(',').nth(index as usize) {
        Some(field) if !field.is_empty() => Some(format!("{name}.{field}")),
        _ => Some(name.into()),
    }
}

/// The error of a check that was refused. `from` and `lim` are as they were before the check.
#[cold]
fn error_of<T: StructType>(
    misfit: Misfit,
    from: PointerReader<'_, Arena<'_>>,
    lim: &mut ReadLimiter,
) -> Error {
    let reason = match misfit.error {
        NOT_UTF8 => Reason::TextIsNotUtf8,
        kind => Reason::Layout(kind),
    };
    let field = name_of(T::NAMES, misfit.row, misfit.index);
    searching::misfit(reason, from, (misfit.segment, misfit.word), field, lim)
}

/// The struct of a pointer that was checked.
#[inline]
fn checked_struct<'a, T: StructType>(raw: PointerReader<'a, Arena<'a>>) -> Reader<'a, T> {
    let pointer = Pointer {
        raw,
        meter: Typed::NEW,
    };
    T::of(Typed::give(pointer.as_struct()))
}

impl<'a> Message<'a> {
    /// The root, a struct of type `T` that `capnpc-layout-rust` has generated from a schema. This
    /// checks the whole message once: its pointers, that it is within its limits, and
    /// that each pointer that the schema knows leads to what the schema says, with texts in UTF-8.
    /// From then on getters return values, and nothing refuses them. A message of an older or newer
    /// version of the schema passes, too.
    ///
    /// The check takes about as long as reading everything once, takes no memory, and each call makes
    /// it again: pass the root on, or keep a [`Checked`].
    ///
    /// The error has the reason, the [path](Error::path) and the [place](Error::place) of the
    /// pointer that was refused, and the name of its [field](Error::field), such as `Person.phones`.
    pub fn root<T: StructType>(&self) -> Result<Reader<'_, T>, Error> {
        let mut lim = self.limiter();
        let root = PointerReader::get_root_from_arena(&self.arena, &mut lim)?;
        match conforms(T::TABLE, Kind::Struct(T::ROW), &root.pointer(), &mut lim) {
            Ok(()) => Ok(checked_struct::<T>(root)),
            Err(misfit) => Err(error_of::<T>(misfit, root, &mut self.limiter())),
        }
    }

    /// Checks the message as [`root`](Message::root) does, and keeps it.
    ///
    /// ```ignore
    /// struct Job {
    ///     request: Checked<'static, Order<'static>>,
    /// }
    /// let job = Job { request: Message::copy(&bytes, Limits::default())?.into_root()? };
    /// println!("{}", job.request.root().id());
    /// ```
    pub fn into_root<T: StructType>(self) -> Result<Checked<'a, T>, Error> {
        self.root::<T>()?;
        Ok(Checked::of(self.arena))
    }
}

impl<'a, M: Meter> Pointer<'a, M> {
    /// The struct of type `T` that the pointer leads to, after a check of it and of all that it leads
    /// to. See [`Message::root`].
    pub fn as_checked<T: StructType>(&self) -> Result<Reader<'a, T>, Error> {
        let mut before = self.meter.limiter();
        let kind = Kind::Struct(T::ROW);
        let checked = |lim: &mut _| conforms(T::TABLE, kind, &self.raw.pointer(), lim);
        match self.meter.charge(checked) {
            Ok(()) => Ok(checked_struct::<T>(self.raw)),
            Err(misfit) => Err(error_of::<T>(misfit, self.raw, &mut before)),
        }
    }
}

impl<T: StructType> Checked<'_, T> {
    /// The root. Costs no check.
    pub fn root(&self) -> Reader<'_, T> {
        checked_struct::<T>(self.root_pointer())
    }
}
