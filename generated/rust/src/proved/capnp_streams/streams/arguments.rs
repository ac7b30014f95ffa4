//! Parses the arguments, one by one.

use super::input_form::InputForm;
use super::options::{
    looks_like_option, option_of, split_at_equals, subcommand_of, OptionName, PlainOption,
    Subcommand, ValueOption,
};
use super::path::{parse_path, Path};
use super::task::{DiffTask, Request, ShowTask, Task};
use crate::proved::capnp_arena::arena::ReaderOptions;
use crate::proved::capnp_messages::messages::{Command, Form};
use crate::proved::capnp_messages::text::{parse_nesting_limit, parse_traversal_limit};

/// How many pointers below the first one are followed without `--depth`.
const PLAIN_DEPTH: i32 = 64;

/// How many bytes are written at most without `--bytes`.
const PLAIN_BYTES: usize = 1 << 30;

/// Why arguments are refused: what is wrong with an argument, or which argument is missing.
#[derive(Clone, Copy, Debug, PartialEq, Eq)]
pub enum ArgumentFault {
    /// There is no command.
    MissingCommand,
    /// The argument is expected to be the command, but isn't one.
    UnknownCommand,
    /// The argument looks like an option, but isn't one.
    UnknownOption,
    /// The value of the option is missing.
    MissingValue(ValueOption),
    /// The argument follows the option, but isn't a valid value of the option.
    InvalidValue(ValueOption),
    /// The argument is the option, a `=`, and a text that isn't a valid value of the option.
    InvalidAssignment(ValueOption),
    /// The argument is an option that takes no value, with a `=` and a value.
    UnwantedValue(OptionName),
    /// The command doesn't have the option.
    NotOfCommand(Subcommand, OptionName),
    /// The two options can't be used together.
    Excluded(PlainOption, PlainOption),
    /// The command has the first option only together with the second.
    Needs(PlainOption, PlainOption),
}

/// What the arguments so far ask for.
#[derive(Clone, Copy)]
pub(super) struct ParsedArguments {
    subcommand: Option<Subcommand>,
    limits: ReaderOptions,
    unpack: bool,
    pack: bool,
    flat: bool,
    from_flat: bool,
    hex: bool,
    quiet: bool,
    /// Whether the files are lists of digests.
    lists: bool,
    /// The path to the part that is asked about.
    path: Path,
    json: bool,
    values: bool,
    depth: Option<i32>,
    colors: bool,
    /// The most bytes to write; `Some(None)` if any number may be written.
    bytes: Option<Option<usize>>,
    /// The option whose value comes next.
    expects: Option<ValueOption>,
    /// Whether `--` came, after which no argument is an option.
    ended: bool,
}

/// What an argument does to the `ParsedArguments` of the arguments before it.
#[derive(Clone, Copy)]
pub(super) enum ArgumentStep {
    /// Replaces the line by this one.
    Goes(ParsedArguments),
    /// Leaves the line unchanged: the argument is a file.
    File,
    /// The arguments so far ask for this, and all later arguments are ignored.
    Stops(Request),
}

impl ParsedArguments {
    /// Returns the line before any argument.
    pub(super) fn new() -> Self {
        ParsedArguments {
            subcommand: None,
            limits: ReaderOptions::default(),
            unpack: false,
            pack: false,
            flat: false,
            from_flat: false,
            hex: false,
            quiet: false,
            lists: false,
            path: Path::empty(),
            json: false,
            values: false,
            depth: None,
            colors: false,
            bytes: None,
            expects: None,
            ended: false,
        }
    }

    /// Whether the line asks to read the input as the raw words of one message.
    fn reads_flat(&self) -> bool {
        match self.subcommand {
            Some(Subcommand::Canon) | None => self.from_flat,
            Some(_) => self.flat || self.from_flat,
        }
    }

    /// Returns how the line asks to read the input. Raw words are never packed:
    /// `conflicting_options_fault` refuses to ask for both.
    fn input_form(&self) -> InputForm {
        if self.unpack {
            InputForm::PackedFrames
        } else if self.reads_flat() {
            InputForm::RawWords
        } else {
            InputForm::Frames
        }
    }

    /// Returns the fault if the line's command doesn't have one of the line's options. Returns
    /// `None` if the command has all of them, or if there is no command yet.
    fn unsupported_option_fault(&self) -> Option<ArgumentFault> {
        let subcommand = self.subcommand?;
        let option = self.unsupported_option(subcommand)?;
        Some(ArgumentFault::NotOfCommand(subcommand, option))
    }

    /// Returns an option of the line that `subcommand` doesn't have; `None` if it has all of them.
    fn unsupported_option(&self, subcommand: Subcommand) -> Option<OptionName> {
        if self.pack && !subcommand.writes_words() {
            Some(OptionName::Plain(PlainOption::Pack))
        } else if self.hex && !subcommand.writes_words() {
            Some(OptionName::Plain(PlainOption::Hex))
        } else if self.quiet && !subcommand.can_be_quiet() {
            Some(OptionName::Plain(PlainOption::Quiet))
        } else if self.lists && !subcommand.reads_lists() {
            Some(OptionName::Plain(PlainOption::Check))
        } else if !self.path.is_empty() && !subcommand.takes_path() {
            Some(OptionName::Valued(ValueOption::At))
        } else if subcommand.shows() {
            None
        } else {
            self.option_of_show()
        }
    }

    /// Returns an option of the line that only `show` has; `None` if the line has no such option.
    fn option_of_show(&self) -> Option<OptionName> {
        if self.json {
            Some(OptionName::Plain(PlainOption::Json))
        } else if self.values {
            Some(OptionName::Plain(PlainOption::Values))
        } else if self.depth.is_some() {
            Some(OptionName::Valued(ValueOption::Depth))
        } else if self.colors {
            Some(OptionName::Plain(PlainOption::Color))
        } else if self.bytes.is_some() {
            Some(OptionName::Valued(ValueOption::Bytes))
        } else {
            None
        }
    }

    /// Returns the fault if two of the line's options can't be used together; otherwise `None`. Hex
    /// digits are written neither as raw words nor packed, JSON has no colors, and raw words are
    /// never read packed.
    fn conflicting_options_fault(&self) -> Option<ArgumentFault> {
        if self.hex && self.flat {
            Some(ArgumentFault::Excluded(PlainOption::Hex, PlainOption::Flat))
        } else if self.hex && self.pack {
            Some(ArgumentFault::Excluded(PlainOption::Hex, PlainOption::Pack))
        } else if self.json && self.colors {
            Some(ArgumentFault::Excluded(
                PlainOption::Json,
                PlainOption::Color,
            ))
        } else if self.unpack && self.from_flat {
            Some(ArgumentFault::Excluded(
                PlainOption::Packed,
                PlainOption::FromFlat,
            ))
        } else if self.unpack && self.reads_flat() {
            Some(ArgumentFault::Excluded(
                PlainOption::Packed,
                PlainOption::Flat,
            ))
        } else {
            None
        }
    }

    /// Returns why the command and options of the line can't be used together; `None` if they can.
    fn option_fault(&self) -> Option<ArgumentFault> {
        self.unsupported_option_fault()
            .or(self.conflicting_options_fault())
    }

    /// Returns the step that replaces the line before by this one; an error if the command and
    /// options of this line can't be used together.
    fn into_checked_step(self) -> Result<ArgumentStep, ArgumentFault> {
        match self.option_fault() {
            Some(fault) => Err(fault),
            None => Ok(ArgumentStep::Goes(self)),
        }
    }

    /// Returns what the argument `option`, without a `=`, does to the line.
    fn apply_option(self, option: OptionName) -> Result<ArgumentStep, ArgumentFault> {
        match option {
            OptionName::Help | OptionName::HelpLetter => Ok(ArgumentStep::Stops(Request::Help)),
            OptionName::Version | OptionName::VersionLetter => {
                Ok(ArgumentStep::Stops(Request::Version))
            }
            OptionName::End => Ok(ArgumentStep::Goes(ParsedArguments {
                ended: true,
                ..self
            })),
            OptionName::Plain(option) => self.with_option(option).into_checked_step(),
            OptionName::Valued(option) => Ok(ArgumentStep::Goes(ParsedArguments {
                expects: Some(option),
                ..self
            })),
        }
    }

    /// Returns the line with `option`.
    fn with_option(self, option: PlainOption) -> Self {
        let mut line = self;
        match option {
            PlainOption::Packed => line.unpack = true,
            PlainOption::Pack => line.pack = true,
            PlainOption::Flat => line.flat = true,
            PlainOption::FromFlat => line.from_flat = true,
            PlainOption::Hex => line.hex = true,
            PlainOption::Quiet => line.quiet = true,
            PlainOption::Check | PlainOption::CheckLetter => line.lists = true,
            PlainOption::Json => line.json = true,
            PlainOption::Values => line.values = true,
            PlainOption::Color => line.colors = true,
        }
        line
    }

    /// Returns the line with `text` as the value of `value_option`; `None` if `text` isn't a valid
    /// value of `value_option`.
    fn with_parsed_value(self, value_option: ValueOption, text: &str) -> Option<Self> {
        let mut line = self;
        line.expects = None;
        match value_option {
            ValueOption::Nesting => line.limits.nesting_limit = parse_i32(text)?,
            ValueOption::Words => {
                line.limits.traversal_limit_in_words = parse_number_or_none(text)?;
            }
            ValueOption::At => line.path = parse_path(text)?,
            ValueOption::Depth => line.depth = Some(parse_i32(text)?),
            ValueOption::Bytes => line.bytes = Some(parse_number_or_none(text)?),
        }
        Some(line)
    }

    /// Returns what `text`, as the value of `value_option`, does to the line; the error `fault` if
    /// `text` isn't a valid value of `value_option`; an error if the command doesn't have
    /// `value_option`.
    fn apply_value(
        self,
        value_option: ValueOption,
        text: &str,
        fault: ArgumentFault,
    ) -> Result<ArgumentStep, ArgumentFault> {
        match self.with_parsed_value(value_option, text) {
            Some(line) => line.into_checked_step(),
            None => Err(fault),
        }
    }

    /// Returns what an argument does to the line that is an option's name, a `=` and `value`. The
    /// caller passes the option as `option`, or `None` if no option has this name.
    fn apply_assignment(
        self,
        option: Option<OptionName>,
        value: &str,
    ) -> Result<ArgumentStep, ArgumentFault> {
        match option {
            None => Err(ArgumentFault::UnknownOption),
            Some(OptionName::Valued(option)) => {
                self.apply_value(option, value, ArgumentFault::InvalidAssignment(option))
            }
            Some(option) => Err(ArgumentFault::UnwantedValue(option)),
        }
    }

    /// Returns what the argument `text` does to the line. The caller passes a text that looks like
    /// an option, but isn't just an option's name.
    fn parse_assignment(self, text: &str) -> Result<ArgumentStep, ArgumentFault> {
        match split_at_equals(text) {
            Some((name, value)) => self.apply_assignment(option_of(name), value),
            None => Err(ArgumentFault::UnknownOption),
        }
    }

    /// Returns what the argument `text` does to the line. The caller passes a text that looks like
    /// an option.
    fn parse_option(self, text: &str) -> Result<ArgumentStep, ArgumentFault> {
        match option_of(text) {
            Some(option) => self.apply_option(option),
            None => self.parse_assignment(text),
        }
    }

    /// Returns what the argument `text` does to the line. The caller passes a text that is neither
    /// an option nor the value of one: it is the command if the line has none yet, and otherwise a
    /// file.
    fn parse_operand(self, text: &str) -> Result<ArgumentStep, ArgumentFault> {
        match self.subcommand {
            Some(_) => Ok(ArgumentStep::File),
            None => self.apply_subcommand(subcommand_of(text)),
        }
    }

    /// Returns what the command `subcommand` does to the line; the error `UnknownCommand` if
    /// `subcommand` is
    /// `None`.
    fn apply_subcommand(
        self,
        subcommand: Option<Subcommand>,
    ) -> Result<ArgumentStep, ArgumentFault> {
        match subcommand {
            Some(subcommand) => ParsedArguments {
                subcommand: Some(subcommand),
                ..self
            }
            .into_checked_step(),
            None => Err(ArgumentFault::UnknownCommand),
        }
    }

    /// Returns what the next argument, `text`, does to the line; an error if `text` can't follow
    /// the arguments before it.
    pub(super) fn parse_argument(self, text: &str) -> Result<ArgumentStep, ArgumentFault> {
        match self.expects {
            Some(value_option) => self.apply_value(
                value_option,
                text,
                ArgumentFault::InvalidValue(value_option),
            ),
            None if looks_like_option(text) && !self.ended => self.parse_option(text),
            None => self.parse_operand(text),
        }
    }

    /// Returns what the line asks for if no argument follows; an error if a command or the value of
    /// an option is missing.
    pub(super) fn into_request(self) -> Result<Request, ArgumentFault> {
        if let Some(value_option) = self.expects {
            return Err(ArgumentFault::MissingValue(value_option));
        }
        match self.subcommand {
            Some(subcommand) => {
                if self.lacks_check(subcommand) {
                    Err(ArgumentFault::Needs(PlainOption::Quiet, PlainOption::Check))
                } else {
                    Ok(self.request_of(subcommand))
                }
            }
            None => Err(ArgumentFault::MissingCommand),
        }
    }

    /// Whether the command is `digest`, with `--quiet` and without `--check`.
    fn lacks_check(self, subcommand: Subcommand) -> bool {
        subcommand.reads_lists() && self.quiet && !self.lists
    }

    /// Returns what the line asks for, with the command `subcommand`.
    fn request_of(self, subcommand: Subcommand) -> Request {
        match subcommand {
            Subcommand::Canon => Request::Run(self.task(Command::Canon(self.form()))),
            Subcommand::Check => Request::Run(self.task(Command::Check)),
            Subcommand::Size => Request::Run(self.task(Command::Size)),
            Subcommand::Digest => Request::Run(self.task(Command::Digest)),
            Subcommand::Validate => Request::Run(self.task(Command::Validate)),
            Subcommand::Show => Request::Show(self.show_task()),
            Subcommand::Diff => Request::Diff(self.diff_task()),
        }
    }

    /// Returns the form in which canonical words are written.
    fn form(self) -> Form {
        if self.flat {
            Form::Flat
        } else {
            Form::Framed
        }
    }

    /// Returns the task that the line asks for, with this command.
    fn task(self, command: Command) -> Task {
        Task {
            command,
            limits: self.limits,
            input_form: self.input_form(),
            pack: self.pack,
            hex: self.hex,
            quiet: self.quiet,
            lists: self.lists,
            path: self.path,
        }
    }

    /// Returns how the line asks to show messages.
    fn show_task(self) -> ShowTask {
        ShowTask {
            json: self.json,
            values: self.values,
            colors: self.colors,
            depth: self.depth.unwrap_or(PLAIN_DEPTH),
            bytes: self.bytes.unwrap_or(Some(PLAIN_BYTES)),
            path: self.path,
            limits: self.limits,
            input_form: self.input_form(),
        }
    }

    /// Returns how the line asks to compare messages.
    fn diff_task(self) -> DiffTask {
        DiffTask {
            limits: self.limits,
            input_form: self.input_form(),
            quiet: self.quiet,
        }
    }
}

/// Returns the nesting limit that `text` states; `None` if `text` doesn't state one.
fn parse_i32(text: &str) -> Option<i32> {
    parse_nesting_limit(text)
}

/// Returns the number that `text` states, which is `Some(None)` if `text` is
/// `none`. Returns `None` if `text` doesn't state a traversal limit.
fn parse_number_or_none(text: &str) -> Option<Option<usize>> {
    parse_traversal_limit(text)
}
