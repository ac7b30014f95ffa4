//! Calls as lines write them: a name, and arguments separated by commas.

use crate::parse::{self, Fault};
use crate::source::{self, SourceText};
use crate::types::{element_type, ElementType};
use capnp_proved::capnp_arena::arena::ReaderOptions;
use capnp_proved::capnp_words::wire_pointer::{ElementSize, StructSize};

/// A call that lines may have: its name, a letter for each of its arguments (see
/// `Values::parse_argument`), the least number of arguments, and the value that stands for the
/// call.
pub type Form<T> = (&'static str, &'static str, usize, T);

/// The arguments of a call, by kind. Arguments that the call doesn't have are zero or missing.
#[derive(Clone, Copy)]
pub struct Values<'l> {
    pub sections: StructSize,
    pub size: ElementSize,
    pub element: ElementType,
    pub index: usize,
    pub count: u32,
    pub word: u32,
    pub number: u64,
    pub byte: u8,
    pub flag: bool,
    /// Decimal digits of a number of any type.
    pub digits: &'l str,
    /// Decimal digits of a mask.
    pub mask: Option<&'l str>,
    /// Bytes in hex digits.
    pub hex: Option<&'l str>,
    /// Another message to copy from. A call that has only a nesting limit has it in the options
    /// here.
    pub source: SourceText<'l>,
    /// Whether an argument is out of its type's range.
    pub is_unfit: bool,
}

impl<'l> Values<'l> {
    fn empty() -> Self {
        Values {
            sections: StructSize {
                data_words: 0,
                pointers: 0,
            },
            size: ElementSize::Void,
            element: ElementType::Void,
            index: 0,
            count: 0,
            word: 0,
            number: 0,
            byte: 0,
            flag: false,
            digits: "0",
            mask: None,
            hex: None,
            source: SourceText {
                segments: "-",
                options: ReaderOptions {
                    traversal_limit_in_words: None,
                    nesting_limit: 0,
                },
            },
            is_unfit: false,
        }
    }

    /// Parses `word` as the argument with this letter. If it is out of its type's range, only notes
    /// that.
    fn parse_or_note(&mut self, letter: char, word: &'l str) -> Result<(), Fault> {
        match self.parse_argument(letter, word) {
            Err(Fault::Unfit) => {
                self.is_unfit = true;
                Ok(())
            }
            taken => taken,
        }
    }

    /// Parses `word` as the argument with this letter.
    fn parse_argument(&mut self, letter: char, word: &'l str) -> Result<(), Fault> {
        let options = &mut self.source.options;
        match letter {
            'd' => self.sections.data_words = parse::number(word)?,
            'p' => self.sections.pointers = parse::number(word)?,
            'i' => self.index = parse::number(word)?,
            'c' => self.count = parse::number(word)?,
            'w' => self.word = parse::number(word)?,
            'n' => self.number = parse::number(word)?,
            'b' => self.byte = parse::number(word)?,
            's' => self.size = parse::element_size(word)?,
            't' => self.element = element_type(word)?,
            'f' => self.flag = parse::flag(word)?,
            'l' => options.nesting_limit = parse::number(word)?,
            'r' => options.traversal_limit_in_words = parse::limit(word)?,
            _ => return self.keep_text(letter, word),
        }
        Ok(())
    }

    /// Keeps `word` as the argument with this letter, if the argument is kept as text.
    fn keep_text(&mut self, letter: char, word: &'l str) -> Result<(), Fault> {
        match letter {
            'h' if parse::is_hex(word) => self.hex = Some(word),
            'o' if word == "none" => self.hex = None,
            'o' if parse::is_hex(word) => self.hex = Some(word),
            'g' if source::are_segments(word) => self.source.segments = word,
            'm' if parse::is_number(word) => self.mask = Some(word),
            'e' if matches!(self.element, ElementType::Void) && word == "-" => self.digits = word,
            'e' if matches!(self.element, ElementType::Void) => return Err(Fault::Malformed),
            'e' | 'v' if parse::is_number(word) => self.digits = word,
            _ => return Err(Fault::Malformed),
        }
        Ok(())
    }
}

/// Parses a call, if it is one of `forms`.
pub fn parse_one_of<'l, T: Copy>(
    forms: &[Form<T>],
    text: &'l str,
) -> Result<(T, Values<'l>), Fault> {
    let (name, arguments) = match text.split_once(',') {
        Some((name, arguments)) => (name, Some(arguments)),
        None => (text, None),
    };
    let count = arguments.map_or(0, |arguments| arguments.split(',').count());
    let (letters, call) = find_form(forms, name, count).ok_or(Fault::Malformed)?;
    Ok((call, parse_values(letters, arguments)?))
}

/// Finds the form with this name that allows `count` arguments. Returns the letters of its
/// arguments, and the call.
pub fn find_form<T: Copy>(
    forms: &[Form<T>],
    name: &str,
    count: usize,
) -> Option<(&'static str, T)> {
    let found = forms.iter().find(|(known, letters, least, _)| {
        *known == name && (*least..=letters.len()).contains(&count)
    });
    found.map(|(_, letters, _, call)| (*letters, *call))
}

/// Parses arguments, each by its letter. If one argument has the wrong form, and another is out of
/// its type's range, reports the wrong form.
fn parse_values<'l>(letters: &str, arguments: Option<&'l str>) -> Result<Values<'l>, Fault> {
    let mut values = Values::empty();
    let Some(arguments) = arguments else {
        return Ok(values);
    };
    for (letter, word) in letters.chars().zip(arguments.split(',')) {
        values.parse_or_note(letter, word)?;
    }
    Ok(values)
}
