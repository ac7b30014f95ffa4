//! Edits of a message being built, and their outcomes.

use crate::calls::{self, Form, Values};
use crate::output::Output;
use crate::parse::{self, Fault};
use capnp_proved::capnp_arena::arena::{BuilderArena, ReaderArenaImpl, SegmentArray};
use capnp_proved::capnp_edits::edit::{apply, Edit, Op, Source, Step};

/// The operation of an edit.
#[derive(Clone, Copy)]
enum Name {
    Make(Making),
    Set(Setting),
    Copy(Copying),
    Get(Getting),
    Write(Writing),
}

/// An operation that makes an object of zeros.
#[derive(Clone, Copy)]
enum Making {
    Struct,
    List,
    StructList,
    Text,
    Data,
}

/// An operation that replaces what a pointer leads to, by no copy.
#[derive(Clone, Copy)]
enum Setting {
    Text,
    Data,
    Capability,
    Null,
}

/// An operation that copies from another message.
#[derive(Clone, Copy)]
enum Copying {
    Value,
    Struct,
    List,
    Content,
}

/// An operation that looks for an object.
#[derive(Clone, Copy)]
enum Getting {
    Struct,
    List,
    StructList,
    Text,
    Data,
}

/// An operation that writes into an object.
#[derive(Clone, Copy)]
enum Writing {
    Field,
    Bool,
    Element,
    Text,
    Data,
}

const FORMS: [Form<Name>; 23] = [
    ("is", "dp", 2, Name::Make(Making::Struct)),
    ("il", "sc", 2, Name::Make(Making::List)),
    ("isl", "cdp", 3, Name::Make(Making::StructList)),
    ("it", "c", 1, Name::Make(Making::Text)),
    ("id", "c", 1, Name::Make(Making::Data)),
    ("st", "h", 1, Name::Set(Setting::Text)),
    ("sd", "h", 1, Name::Set(Setting::Data)),
    ("sc", "c", 1, Name::Set(Setting::Capability)),
    ("cl", "", 0, Name::Set(Setting::Null)),
    ("cf", "glrf", 4, Name::Copy(Copying::Value)),
    ("ss", "glrf", 4, Name::Copy(Copying::Struct)),
    ("sl", "glrf", 4, Name::Copy(Copying::List)),
    ("cc", "glr", 3, Name::Copy(Copying::Content)),
    ("gs", "dpo", 3, Name::Get(Getting::Struct)),
    ("gl", "so", 2, Name::Get(Getting::List)),
    ("gsl", "dpo", 3, Name::Get(Getting::StructList)),
    ("gt", "o", 1, Name::Get(Getting::Text)),
    ("gd", "o", 1, Name::Get(Getting::Data)),
    ("sf", "scn", 3, Name::Write(Writing::Field)),
    ("sb", "cf", 2, Name::Write(Writing::Bool)),
    ("se", "scn", 3, Name::Write(Writing::Element)),
    ("wt", "cb", 2, Name::Write(Writing::Text)),
    ("wd", "cb", 2, Name::Write(Writing::Data)),
];

/// Applies the edits in the only word of `words`, and adds their outcomes to `out`, separated by
/// `;`.
pub fn apply_edits<A: BuilderArena>(
    arena: &mut A,
    words: &[&str],
    out: &mut Output,
) -> Result<(), Fault> {
    let [edits] = words else {
        return Err(Fault::Malformed);
    };
    for (i, edit) in edits.split(';').enumerate() {
        if i > 0 {
            out.push_text(";");
        }
        match apply_edit(arena, edit) {
            Ok(()) => out.push_text("ok"),
            Err(Fault::Refused(kind)) => out.push(kind),
            Err(fault) => return Err(fault),
        }
    }
    out.push_text(" ");
    Ok(())
}

/// Applies an edit of the form `PATH:OP,ARGUMENT,..`.
fn apply_edit<A: BuilderArena>(arena: &mut A, text: &str) -> Result<(), Fault> {
    let (path, call) = text.split_once(':').ok_or(Fault::Malformed)?;
    let (name, values) = calls::parse_one_of(&FORMS, call)?;
    if values.is_unfit {
        return Err(Fault::Unfit);
    }
    let path = parse_path(path)?;
    let bytes = values.hex.map(parse::bytes).transpose()?;
    let source = values.source;
    let segments = source.parse_segments()?;
    let slices = parse::slices(&segments);
    let array = SegmentArray::new(&slices).ok_or(Fault::Unfit)?;
    let message = ReaderArenaImpl::new(array, source.options);
    let source = Source {
        arena: &message,
        budget: source.options.traversal_limit_in_words,
    };
    let op = operation(name, &values, bytes.as_deref(), source);
    Ok(apply(arena, &Edit { path: &path, op })?)
}

/// Parses a path: `-` for no steps; otherwise steps, such as `c3` for child 3 and `e12` for element
/// 12, separated by points.
fn parse_path(text: &str) -> Result<Vec<Step>, Fault> {
    if text == "-" {
        return Ok(Vec::new());
    }
    text.split('.').map(parse_step).collect()
}

/// Parses one step of a path.
fn parse_step(text: &str) -> Result<Step, Fault> {
    if let Some(index) = text.strip_prefix('c') {
        Ok(Step::Child(parse::number(index)?))
    } else if let Some(index) = text.strip_prefix('e') {
        Ok(Step::Element(parse::number(index)?))
    } else {
        Err(Fault::Malformed)
    }
}

/// Makes the operation with this name from its arguments, its bytes, and the message that it copies
/// from.
fn operation<'a>(
    name: Name,
    values: &Values<'_>,
    given: Option<&'a [u8]>,
    source: Source<'a>,
) -> Op<'a> {
    match name {
        Name::Make(making) => making_op(making, values),
        Name::Set(setting) => setting_op(setting, values, given.unwrap_or(&[])),
        Name::Copy(copying) => copying_op(copying, values, source),
        Name::Get(getting) => getting_op(getting, values, given),
        Name::Write(writing) => writing_op(writing, values),
    }
}

fn making_op<'a>(making: Making, values: &Values<'_>) -> Op<'a> {
    match making {
        Making::Struct => Op::InitStruct(values.sections),
        Making::List => Op::InitList(values.size, values.count),
        Making::StructList => Op::InitStructList(values.count, values.sections),
        Making::Text => Op::InitText(values.count),
        Making::Data => Op::InitData(values.count),
    }
}

fn setting_op<'a>(setting: Setting, values: &Values<'_>, bytes: &'a [u8]) -> Op<'a> {
    match setting {
        Setting::Text => Op::SetText(bytes),
        Setting::Data => Op::SetData(bytes),
        Setting::Capability => Op::SetCapability(values.count),
        Setting::Null => Op::Clear,
    }
}

fn copying_op<'a>(copying: Copying, values: &Values<'_>, source: Source<'a>) -> Op<'a> {
    match copying {
        Copying::Value => Op::CopyFrom(source, values.flag),
        Copying::Struct => Op::SetStruct(source, values.flag),
        Copying::List => Op::SetList(source, values.flag),
        Copying::Content => Op::CopyContent(source),
    }
}

fn getting_op<'a>(getting: Getting, values: &Values<'_>, default: Option<&'a [u8]>) -> Op<'a> {
    match getting {
        Getting::Struct => Op::GetStruct(values.sections, default),
        Getting::List => Op::GetList(values.size, default),
        Getting::StructList => Op::GetStructList(values.sections, default),
        Getting::Text => Op::GetText(default),
        Getting::Data => Op::GetData(default),
    }
}

fn writing_op<'a>(writing: Writing, values: &Values<'_>) -> Op<'a> {
    match writing {
        Writing::Field => Op::SetField(values.size, values.count, values.number),
        Writing::Bool => Op::SetBool(values.count, values.flag),
        Writing::Element => Op::SetElement(values.size, values.count, values.number),
        Writing::Text => Op::WriteText(values.count, values.byte),
        Writing::Data => Op::WriteData(values.count, values.byte),
    }
}
