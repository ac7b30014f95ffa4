//! How readers pay for what they read, and what their getters return.

use crate::error::Error;
use crate::proved::capnp_words::read_limiter::ReadLimiter;
use core::cell::Cell;
use core::fmt;

pub(crate) mod sealed {
    /// What only this crate and generated code implement.
    pub trait Closed {}
}

/// What a getter returns, as a `Result`: for programs that take readers of every [`Meter`].
///
/// ```
/// # use capnp_layout::Error;
/// use capnp_layout::Outcome;
/// # fn name() -> &'static str { "Alice" }
/// # fn lazy_name() -> Result<&'static str, Error> { Ok("Alice") }
///
/// fn length<'a>(name: impl Outcome<&'a str>) -> Result<usize, Error> {
///     Ok(name.into_result()?.len())
/// }
/// assert_eq!(length(name())?, length(lazy_name())?);
/// # Ok::<(), Error>(())
/// ```
pub trait Outcome<T>: fmt::Debug {
    /// The value, or the refusal.
    fn into_result(self) -> Result<T, Error>;
}

impl<T: fmt::Debug> Outcome<T> for T {
    #[inline(always)]
    fn into_result(self) -> Result<T, Error> {
        Ok(self)
    }
}

impl<T: fmt::Debug> Outcome<T> for Result<T, Error> {
    #[inline(always)]
    fn into_result(self) -> Result<T, Error> {
        self
    }
}

/// How a message is read: after a check against its schema ([`Typed`]), after one without it
/// ([`Sound`]), or checked and charged as it is read ([`Lazy`]).
// Calls that a program makes for each field take the limiter and settle it themselves: rustc doesn't
// inline a large closure, and then a pointer goes through memory.
pub trait Meter: Copy + fmt::Debug + sealed::Closed {
    /// What a getter returns that follows a pointer, in code that is generated from a schema: `T` if
    /// the message was checked against the schema, otherwise a `Result`.
    type Out<T: fmt::Debug>: Outcome<T>;

    /// How what the schema doesn't know is read, such as any pointer.
    type Plain: Meter;

    /// The same without the schema.
    #[doc(hidden)]
    fn plain(self) -> Self::Plain;

    /// What was read, in the form of this meter.
    #[doc(hidden)]
    fn give<T: fmt::Debug>(read: Result<T, Error>) -> Self::Out<T>;

    /// What may still be read.
    #[doc(hidden)]
    fn limiter(self) -> ReadLimiter;

    /// Takes what was charged to the limiter.
    #[doc(hidden)]
    fn settle(self, lim: &ReadLimiter);

    /// Reads with a limiter, and takes what was charged.
    #[doc(hidden)]
    #[inline(always)]
    fn charge<T>(self, read: impl FnOnce(&mut ReadLimiter) -> T) -> T {
        let mut lim = self.limiter();
        let made = read(&mut lim);
        self.settle(&lim);
        made
    }
}

/// The message was checked as a whole against a schema, so getters of generated types return values,
/// and reading costs nothing more. See [`Message::root`](crate::Message::root).
#[derive(Clone, Copy, Debug)]
pub struct Typed(());

impl Typed {
    pub(crate) const NEW: Typed = Typed(());
}

/// Ends the program: a message was checked against a schema, and then refused. Only a program can
/// get here that passes off another struct as one that was checked, or a schema with a text in a
/// default value that isn't UTF-8.
#[cold]
#[inline(never)]
fn misread(error: Error) -> ! {
    panic!("a message that was checked against its schema is refused: {error}")
}

impl sealed::Closed for Typed {}

impl Meter for Typed {
    type Out<T: fmt::Debug> = T;
    type Plain = Sound;

    #[inline(always)]
    fn plain(self) -> Sound {
        Sound::NEW
    }

    #[inline(always)]
    fn give<T: fmt::Debug>(read: Result<T, Error>) -> T {
        match read {
            Ok(value) => value,
            Err(error) => misread(error),
        }
    }

    #[inline(always)]
    fn limiter(self) -> ReadLimiter {
        ReadLimiter::new(None)
    }

    #[inline(always)]
    fn settle(self, _: &ReadLimiter) {}
}

/// The message was checked as a whole, but not against a schema, so reading costs nothing more, and
/// refuses what isn't of the type that the program wants.
#[derive(Clone, Copy, Debug)]
pub struct Sound(());

impl Sound {
    pub(crate) const NEW: Sound = Sound(());
}

impl sealed::Closed for Sound {}

impl Meter for Sound {
    type Out<T: fmt::Debug> = Result<T, Error>;
    type Plain = Self;

    #[inline(always)]
    fn plain(self) -> Self {
        self
    }

    #[inline(always)]
    fn give<T: fmt::Debug>(read: Result<T, Error>) -> Result<T, Error> {
        read
    }

    #[inline(always)]
    fn limiter(self) -> ReadLimiter {
        ReadLimiter::new(None)
    }

    #[inline(always)]
    fn settle(self, _: &ReadLimiter) {}
}

/// What is read is charged to the message.
#[derive(Clone, Copy)]
pub struct Lazy<'a>(pub(crate) &'a Cell<usize>);

impl fmt::Debug for Lazy<'_> {
    fn fmt(&self, f: &mut fmt::Formatter<'_>) -> fmt::Result {
        write!(f, "Lazy({} words left)", self.0.get())
    }
}

impl sealed::Closed for Lazy<'_> {}

impl Meter for Lazy<'_> {
    type Out<T: fmt::Debug> = Result<T, Error>;
    type Plain = Self;

    #[inline(always)]
    fn plain(self) -> Self {
        self
    }

    #[inline(always)]
    fn give<T: fmt::Debug>(read: Result<T, Error>) -> Result<T, Error> {
        read
    }

    #[inline(always)]
    fn limiter(self) -> ReadLimiter {
        ReadLimiter::new(Some(self.0.get()))
    }

    #[inline(always)]
    fn settle(self, lim: &ReadLimiter) {
        self.0.set(lim.left().unwrap_or(0));
    }
}
