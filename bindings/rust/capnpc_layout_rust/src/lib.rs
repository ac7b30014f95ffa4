//! Generates Rust from Cap'n Proto schemas in build scripts: runs `capnp compile`, and the program
//! `capnpc-layout-rust` for what that says. The code is for the crate `capnp_layout`.
//!
//! ```no_run
//! // build.rs
//! fn main() -> Result<(), capnpc_layout_rust::Error> {
//!     capnpc_layout_rust::compile("schema/shop.capnp")
//! }
//! ```
//!
//! ```ignore
//! // src/main.rs
//! mod shop_capnp {
//!     include!(concat!(env!("OUT_DIR"), "/shop_capnp.rs"));
//! }
//! ```
//!
//! Both programs have to be there when the package is built. `capnp` is that of the path, or the
//! one that the environment variable `CAPNP` names. `capnpc-layout-rust` is the one that
//! `CAPNPC_LAYOUT_RUST` names, or that of the repository that this crate is in, or that of the path.
#![forbid(unsafe_code)]
#![warn(missing_docs)]

use std::ffi::{OsStr, OsString};
use std::fmt;
use std::io::{self, Write};
use std::path::{Path, PathBuf};
use std::process::{Command, Output, Stdio};

/// Generates the code for one schema into `NAME_capnp.rs` of `OUT_DIR`. See [`Generator::run`].
pub fn compile(schema: impl AsRef<Path>) -> Result<(), Error> {
    Generator::new().run([schema])
}

/// How schemas are compiled.
///
/// ```no_run
/// # fn main() -> Result<(), capnpc_layout_rust::Error> {
/// capnpc_layout_rust::Generator::new()
///     .src_prefix("schema")
///     .import_path("/usr/include")
///     .values()
///     .run(["schema/shop.capnp", "schema/orders.capnp"])
/// # }
/// ```
#[derive(Clone, Debug, Default)]
pub struct Generator {
    options: Vec<OsString>,
    has_values: bool,
    out_dir: Option<PathBuf>,
}

impl Generator {
    /// The code for `OUT_DIR`, without plain values.
    pub fn new() -> Self {
        Generator::default()
    }

    /// Takes a folder in which imports that begin with `/` are looked for: the option `-I` of
    /// `capnp compile`.
    pub fn import_path(&mut self, folder: impl AsRef<Path>) -> &mut Self {
        self.option("--import-path=", folder.as_ref())
    }

    /// Takes a folder that isn't part of a schema's name: the option `--src-prefix` of `capnp
    /// compile`.
    pub fn src_prefix(&mut self, folder: impl AsRef<Path>) -> &mut Self {
        self.option("--src-prefix=", folder.as_ref())
    }

    fn option(&mut self, name: &str, folder: &Path) -> &mut Self {
        let mut option = OsString::from(name);
        option.push(folder);
        self.options.push(option);
        self
    }

    /// Adds plain values: `person::Value`, with fields that are numbers, `String`s and `Vec`s.
    pub fn values(&mut self) -> &mut Self {
        self.has_values = true;
        self
    }

    /// Takes the folder that the code is written to, in place of `OUT_DIR`.
    pub fn out_dir(&mut self, folder: impl Into<PathBuf>) -> &mut Self {
        self.out_dir = Some(folder.into());
        self
    }

    /// Compiles schemas that may import one another, and writes `NAME_capnp.rs` for each. Names
    /// what isn't written, such as interfaces, in warnings of cargo. Tells cargo to run the build
    /// script again if one of these files changes, but not if one that they import does.
    ///
    /// Refuses if one of the programs isn't there or fails, with what it said.
    pub fn run<P: AsRef<Path>>(&self, schemas: impl IntoIterator<Item = P>) -> Result<(), Error> {
        let schemas: Vec<P> = schemas.into_iter().collect();
        for variable in ["CAPNP", "CAPNPC_LAYOUT_RUST"] {
            println!("cargo:rerun-if-env-changed={variable}");
        }
        for schema in &schemas {
            println!("cargo:rerun-if-changed={}", schema.as_ref().display());
        }
        let folder = match (&self.out_dir, std::env::var_os("OUT_DIR")) {
            (Some(folder), _) => folder.clone(),
            (None, Some(folder)) => folder.into(),
            (None, None) => {
                return Err(Error(
                    "OUT_DIR isn't set: cargo sets it for build scripts".into(),
                ))
            }
        };
        let request = self.request(&schemas)?;
        for line in self.generate(&request, &folder)?.lines() {
            println!("cargo:warning={line}");
        }
        Ok(())
    }

    /// What `capnp compile` asks a plug-in for.
    fn request<P: AsRef<Path>>(&self, schemas: &[P]) -> Result<Vec<u8>, Error> {
        let program = std::env::var_os("CAPNP").unwrap_or("capnp".into());
        let mut command = Command::new(&program);
        command.args(["compile", "-o-"]).args(&self.options);
        command.args(schemas.iter().map(AsRef::as_ref));
        let ran = command.stdin(Stdio::null()).output();
        let lacking = "it is in Debian's package capnproto, or CAPNP names it";
        Ok(finished(&program, ran, lacking)?.stdout)
    }

    /// Writes the code for a request into a folder, and returns what isn't written.
    fn generate(&self, request: &[u8], folder: &Path) -> Result<String, Error> {
        let program = generator()?;
        let mut command = Command::new(&program);
        command.current_dir(folder);
        if self.has_values {
            command.arg("--values");
        }
        command.stdin(Stdio::piped()).stderr(Stdio::piped());
        let ran = command.spawn().and_then(|mut child| {
            // a program that ends early says why; its status shows that it failed
            let _ = child.stdin.take().map(|mut to| to.write_all(request));
            child.wait_with_output()
        });
        let lacking = "`make all` in the repository builds it, or CAPNPC_LAYOUT_RUST names it";
        let ran = finished(program.as_os_str(), ran, lacking)?;
        Ok(String::from_utf8_lossy(&ran.stderr).into_owned())
    }
}

/// The program that writes the code: its whole path, unless it is looked for in the path.
fn generator() -> Result<PathBuf, Error> {
    if let Some(named) = std::env::var_os("CAPNPC_LAYOUT_RUST") {
        let named = PathBuf::from(named);
        return std::fs::canonicalize(&named).map_err(|error| {
            Error(format!(
                "CAPNPC_LAYOUT_RUST is {}: {error}",
                named.display()
            ))
        });
    }
    let ours = Path::new(env!("CARGO_MANIFEST_DIR")).join("../../../capnpc-layout-rust");
    Ok(std::fs::canonicalize(ours).unwrap_or("capnpc-layout-rust".into()))
}

/// What a program wrote, if it ran and succeeded. `lacking` says where one that isn't there comes from.
fn finished(program: &OsStr, ran: io::Result<Output>, lacking: &str) -> Result<Output, Error> {
    let name = program.to_string_lossy();
    match ran {
        Ok(ran) if ran.status.success() => Ok(ran),
        Ok(ran) => {
            let said = String::from_utf8_lossy(&ran.stderr);
            Err(Error(format!("{name} failed ({}):\n{said}", ran.status)))
        }
        Err(error) if error.kind() == io::ErrorKind::NotFound => {
            Err(Error(format!("{name} isn't there: {lacking}")))
        }
        Err(error) => Err(Error(format!("{name} didn't run: {error}"))),
    }
}

/// Why no code was generated, with what the program said that failed.
#[derive(Clone, PartialEq, Eq)]
pub struct Error(String);

impl fmt::Display for Error {
    fn fmt(&self, f: &mut fmt::Formatter<'_>) -> fmt::Result {
        f.write_str(&self.0)
    }
}

/// The same as `Display`, since a build script's `main` and `unwrap` show this.
impl fmt::Debug for Error {
    fn fmt(&self, f: &mut fmt::Formatter<'_>) -> fmt::Result {
        f.write_str(&self.0)
    }
}

impl std::error::Error for Error {}
