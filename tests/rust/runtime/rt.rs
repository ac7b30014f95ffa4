//! The runtime, which Rattle's `main` is given.

use super::io::{Reader, Result};
use capnp_proved::support::alloc::Global;
use std::fmt;
use std::io::Write;

/// The runtime of a program.
pub struct HostRuntime;

impl HostRuntime {
    pub fn new() -> Self {
        HostRuntime
    }

    pub fn alloc(&self) -> Global {
        Global
    }

    pub fn reader(&self) -> Reader {
        Reader
    }

    pub fn stdout(&self) -> std::io::Stdout {
        std::io::stdout()
    }

    pub fn stderr(&self) -> std::io::Stderr {
        std::io::stderr()
    }

    pub fn println(&self, text: &str) -> Result<()> {
        self.print_line(format_args!("{text}"))
    }

    pub fn eprintln(&self, text: &str) -> Result<()> {
        self.eprint_line(format_args!("{text}"))
    }
}

/// What can print.
pub trait Print {
    fn print_line(&self, line: fmt::Arguments<'_>) -> Result<()>;
    fn eprint_line(&self, line: fmt::Arguments<'_>) -> Result<()>;
    fn eprint_text(&self, text: fmt::Arguments<'_>) -> Result<()>;
}

impl Print for HostRuntime {
    fn print_line(&self, line: fmt::Arguments<'_>) -> Result<()> {
        writeln!(std::io::stdout(), "{line}")
    }

    fn eprint_line(&self, line: fmt::Arguments<'_>) -> Result<()> {
        writeln!(std::io::stderr(), "{line}")
    }

    fn eprint_text(&self, text: fmt::Arguments<'_>) -> Result<()> {
        write!(std::io::stderr(), "{text}")
    }
}

/// Prints a line to standard output.
#[macro_export]
macro_rules! println {
    ($rt:expr; $($parts:tt)*) => {{
        use $crate::runtime::rt::Print as _;
        $rt.print_line(core::format_args!($($parts)*))
    }};
}

/// Prints a line to standard error.
#[macro_export]
macro_rules! eprintln {
    ($rt:expr; $($parts:tt)*) => {{
        use $crate::runtime::rt::Print as _;
        $rt.eprint_line(core::format_args!($($parts)*))
    }};
}

/// Prints to standard error.
#[macro_export]
macro_rules! eprint {
    ($rt:expr; $($parts:tt)*) => {{
        use $crate::runtime::rt::Print as _;
        $rt.eprint_text(core::format_args!($($parts)*))
    }};
}

/// Makes a text; `AllocError` if there is no memory for it.
#[macro_export]
macro_rules! format {
    (in $alloc:expr; $($parts:tt)*) => {{
        let mut made = $crate::runtime::rt::String::new($alloc);
        made.write_fmt(core::format_args!($($parts)*)).map(|()| made)
    }};
}

pub use capnp_proved::support::string::String;
