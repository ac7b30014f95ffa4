//! Messages that `capnp encode` made, and altered copies of them.

use crate::lazy::Read;
use crate::tables::{ITEM, KINDS, KINDS_ROW, TEXTS};
use crate::{answers, Answers, Schema};
use capnp_proved::capnp_arena::arena::{ReaderArenaImpl, ReaderOptions};
use capnp_proved::capnp_framing::framing::OwnedSegments;
use capnp_proved::capnp_pointers::pointers::Pointer;
use capnp_proved::capnp_words::error::ErrorKind;
use capnp_proved::capnp_words::read_limiter::ReadLimiter;
use capnp_proved::typed_conforming::conforms::conforms;
use capnp_proved::typed_conforming::schema::{Kind, Misfit, NOT_UTF8};
use test_support::{arena_from_hex, decode_hex, encode_hex};

/// A `Kinds` with all fields but `any`, and the member `inner.more`.
const FULL: &str = "\
    0000000001000a00 0200010000000000 2500000022000000 2500000012000000 2400000001000a00 \
    0000000000000000 590000001e000000 6d0000001c000000 7100000019000000 7100000027000000 \
    850000001e000000 9500000017000000 6162630000000000 0102000000000000 0000000000000000 \
    250000002a000000 0000000000000000 0000000000000000 0000000000000000 0000000000000000 \
    0000000000000000 0000000000000000 0000000000000000 090000000e000000 0d0000000a000000 \
    6465657000000000 010000000b000000 0700000000000000 0000000000000000 0900000012000000 \
    090000000a000000 090000001a000000 7800000000000000 0000000000000000 797a000000000000 \
    0100000002000000 0300000000000000 0500000000000000 0800000001000100 0400000000000000 \
    0900000012000000 0500000000000000 0000000000000000 6900000000000000 0900000013000000 \
    0900000003000000 050000000b000000 0100020000000000 0300000000000000 0400000001000100 \
    0000000000000000 0100000012000000 6d00000000000000";

/// A `Kinds` with the member `item`, and another one in it with the member `inner.bytes`.
const MEMBERS: &str = "\
    0000000001000a00 0100000000000000 2500000022000000 0000000000000000 2000000001000a00 \
    0000000000000000 0000000000000000 0000000000000000 0000000000000000 0000000000000000 \
    0000000000000000 3400000001000100 6162630000000000 0200000000000000 0000000000000000 \
    0000000000000000 0000000000000000 0000000000000000 0000000000000000 0000000000000000 \
    0000000000000000 0000000000000000 0000000000000000 010000000a000000 aa00000000000000 \
    0900000000000000 0100000012000000 6e00000000000000";

/// An `AddressBook` of three people.
const BOOK: &str = "\
    0000000000000100 010000007f000000 0c00000001000400 0100000002000000 3500000012000000 \
    3500000022000000 3500000017000000 4100000022000000 0200000001000000 0000000000000000 \
    0000000000000000 0000000000000000 3100000012000000 0300000000000000 2d00000012000000 \
    0000000000000000 0000000000000000 0000000000000000 4100000000000000 6140620000000000 \
    0400000001000100 0100000000000000 010000001a000000 3132000000000000 4d49540000000000 \
    4500000000000000 4300000000000000";

/// The messages, with their schemas.
const MESSAGES: [(&str, Schema); 3] = [
    (FULL, Schema::Kinds),
    (MEMBERS, Schema::Kinds),
    (BOOK, Schema::Book),
];

fn arena(text: &str) -> ReaderArenaImpl<OwnedSegments> {
    arena_from_hex(text, ReaderOptions::default())
}

/// With a traversal limit, because an altered list of void has up to 2^29 elements.
fn answers_for(text: &str, schema: Schema) -> Answers {
    answers(&arena(text), schema, Some(4096))
}

/// The refusal of a `Kinds` by the test.
fn refusal(text: &str) -> Misfit {
    let found = answers_for(text, Schema::Kinds);
    assert!(found.agree(), "{found:?}");
    found.checked.expect_err("a refusal")
}

/// Tests a `Kinds` against the row of this table.
fn test_with(table: &[u32], text: &str) -> Result<(), Misfit> {
    let arena = arena(text);
    let mut lim = ReadLimiter::new(None);
    let root = Pointer::get_root_from_arena(&arena, &mut lim).expect("a root");
    conforms(table, Kind::Struct(KINDS_ROW), &root, &mut lim)
}

/// `text` with word `at` replaced.
fn with_word(text: &str, at: usize, word: &str) -> String {
    let mut words: Vec<&str> = text.split(' ').collect();
    words[at] = word;
    words.join(" ")
}

#[test]
fn messages_conform() {
    for (text, schema) in MESSAGES {
        let found = answers_for(text, schema);
        assert!(found.agree() && found.checked.is_ok(), "{found:?}");
    }
}

/// What `capnp encode` was given.
#[test]
fn checked_getters_return_the_fields() {
    let Read(full) = answers_for(FULL, Schema::Kinds).checked.expect("a yes");
    let want =
        "text=abc data=\\x01\\x02 text=deep data= lists=1 lists=7 name= texts=x texts= texts=yz \
        numbers=1 numbers=2 numbers=3 bits=true bits=false bits=true item=i item=4 item= item=5 \
        lists=2 lists=1 lists=2 lists=0 lists=1 lists=3 item=m item=0";
    assert_eq!(full.join(" "), want);
    let Read(book) = answers_for(BOOK, Schema::Book).checked.expect("a yes");
    let want =
        "id=1 name=A email=a@b number=12 type=1 employment=MIT id=2 name= email= employment=E \
        id=3 name=C email=";
    assert_eq!(book.join(" "), want);
}

/// Each bit of each message, flipped.
#[test]
fn flipped_bits_are_found_or_harmless() {
    for (text, schema) in MESSAGES {
        let bytes = decode_hex(text).expect("hex digits");
        for bit in 0..8 * bytes.len() {
            let mut altered = bytes.clone();
            altered[bit / 8] ^= 1 << (bit % 8);
            let found = answers_for(&encode_hex(&altered), schema);
            assert!(found.agree(), "bit {bit} of {schema:?}: {found:?}");
        }
    }
}

/// Each word of each message, replaced by each other word of it, and by zero.
#[test]
fn exchanged_words_are_found_or_harmless() {
    for (text, schema) in MESSAGES {
        let words: Vec<&str> = text.split(' ').collect();
        for at in 0..words.len() {
            for word in &words {
                let found = answers_for(&with_word(text, at, word), schema);
                assert!(
                    found.agree(),
                    "word {at} as {word} of {schema:?}: {found:?}"
                );
            }
        }
    }
}

/// `capnp encode` leaves no words unused, so the least limit is the number of words.
#[test]
fn the_traversal_limit_counts() {
    for (text, schema) in MESSAGES {
        let words = text.split(' ').count();
        for limit in 0..2 * words {
            let found = answers(&arena(text), schema, Some(limit));
            assert!(found.agree(), "limit {limit} of {schema:?}: {found:?}");
            assert_eq!(
                found.checked.is_ok(),
                limit >= words,
                "limit {limit} of {schema:?}"
            );
        }
    }
}

#[test]
fn the_nesting_limit_counts() {
    let depths = [
        (FULL, Schema::Kinds, 4),
        (MEMBERS, Schema::Kinds, 3),
        (BOOK, Schema::Book, 4),
    ];
    for (text, schema, depth) in depths {
        for limit in 0..8 {
            let mut options = ReaderOptions::default();
            options.nesting_limit = limit;
            let found = answers(&arena_from_hex(text, options), schema, None);
            assert_eq!(found.checked.is_ok(), limit >= depth, "{limit}: {found:?}");
        }
    }
}

/// A pointer of `FULL` that leads to something else. Word `2 + i` is pointer i.
#[test]
fn refusals_name_what_is_wrong() {
    use ErrorKind::*;
    let no_words = "fcffffff00000000"; // A struct without sections.
    let bytes = "2500000012000000"; // Two bytes, 9 words on.
    let bits = "0100000009000000"; // One bit, the next word.
    for (pointer, word, want) in [
        (
            0,
            no_words,
            MessageContainsNonListPointerWhereTextWasExpected,
        ),
        (
            0,
            bits,
            MessageContainsListPointerOfNonBytesWhereTextWasExpected,
        ),
        (
            0,
            "2900000012000000",
            MessageContainsTextThatIsNotNULTerminated,
        ),
        (
            0,
            "2900000002000000",
            MessageContainsTextThatIsNotNULTerminated,
        ),
        (
            1,
            no_words,
            MessageContainsNonListPointerWhereDataWasExpected,
        ),
        (
            1,
            bits,
            MessageContainsListPointerOfNonBytesWhereDataWasExpected,
        ),
        (
            2,
            bytes,
            MessageContainsNonStructPointerWhereStructPointerWasExpected,
        ),
        (
            4,
            no_words,
            MessageContainsNonListPointerWhereListPointerWasExpected,
        ),
        (4, bytes, MessageContainsListWithIncompatibleElementType),
        (5, bytes, MessageContainsListWithIncompatibleElementType),
        (5, bits, FoundBitListWhereStructListWasExpected),
        (9, bits, FoundBitListWhereStructListWasExpected),
    ] {
        let want = Misfit {
            error: want,
            segment: 0,
            word: 2 + pointer as u32,
            row: KINDS_ROW,
            index: pointer as u32,
        };
        assert_eq!(refusal(&with_word(FULL, 2 + pointer, word)), want);
    }
}

/// Words of `FULL` that are replaced, and the pointer that is refused.
#[test]
fn refusals_name_the_pointer() {
    use ErrorKind::*;
    let no_words = "fcffffff00000000"; // A struct without sections.
    let outside = "fdffff7f0a000000"; // A byte past the end.
    let as_any = [(4, "0000000000000000"), (5, "2000000001000a00")]; // `next` as `any`
    let no_text = MessageContainsNonListPointerWhereTextWasExpected;
    let out = MessageContainsOutOfBoundsPointer;
    let no_struct = MessageContainsNonStructPointerWhereStructPointerWasExpected;
    for (words, error, word, row, index) in [
        (vec![(0, "0100000002000000")], no_struct, 0, 0, 0),
        (vec![(30, no_words)], no_text, 30, TEXTS, 0),
        (vec![(42, no_words)], no_text, 42, ITEM, 0),
        (vec![(15, outside)], out, 15, KINDS_ROW, 0),
        ([&as_any[..], &[(16, outside)]].concat(), out, 16, 0, 1),
    ] {
        let text = words.iter().fold(FULL.to_owned(), |text, (at, word)| {
            with_word(&text, *at, word)
        });
        let want = Misfit {
            error,
            segment: 0,
            word,
            row,
            index,
        };
        assert_eq!(refusal(&text), want);
    }
}

/// The last of `texts` of `FULL`, which has to be UTF-8, and `text`, which needn't. The bytes are from
/// the tables of the Unicode standard.
#[test]
fn texts_are_utf8_where_the_schema_says_so() {
    for (bytes, is_utf8) in [
        ("c3a9", true),
        ("7f7f", true),
        ("c328", false), // A lead byte without the byte that has to follow.
        ("a9c3", false),
        ("c1bf", false), // Two bytes for what one can say.
        ("fffe", false),
    ] {
        let found = answers_for(
            &with_word(FULL, 34, &format!("{bytes}000000000000")),
            Schema::Kinds,
        );
        assert!(found.agree(), "{found:?}");
        assert_eq!(found.checked.is_ok(), is_utf8, "{bytes}");
        if let Err(misfit) = found.checked {
            assert_eq!(
                (misfit.error, misfit.word, misfit.row),
                (NOT_UTF8, 31, TEXTS)
            );
        }
        let first = with_word(FULL, 12, &format!("{bytes}630000000000"));
        assert!(answers_for(&first, Schema::Kinds).checked.is_ok());
    }
}

/// Any words are a table. In `KINDS`, word 11 names test 18, whose words 20 and 21 are a text and
/// test 22.
#[test]
fn tests_are_followed_to_later_ones_only() {
    let item = with_word(FULL, 1, "0100000000000000"); // Pointer 9 is a list, and not an item.
    assert!(test_with(&KINDS, &item).is_err());
    for (at, word) in [
        (21, 16 * 18 + 7), // The same test again.
        (25, 16 * 18 + 7), // Back to the first one.
        (11, 16 * 38 + 7), // Past the end.
        (11, 16 * 0x0fff_ffff + 7),
        (11, 0),
    ] {
        let mut table = KINDS;
        table[at] = word;
        let text = if at == 25 {
            with_word(FULL, 1, "0300000000000000")
        } else {
            item.clone()
        };
        assert_eq!(test_with(&table, &text), Ok(()), "word {at} as {word}");
    }
}

/// Without a row, a row that is cut off, and more pointers than there are words.
#[test]
fn rows_past_the_end_have_no_pointers() {
    let item = with_word(FULL, 1, "0100000000000000");
    for length in 0..KINDS.len() {
        let answer = test_with(&KINDS[..length], &item);
        assert_eq!(answer.is_ok(), length <= 24, "{length}");
    }
    let mut table = KINDS;
    table[KINDS_ROW as usize] = u32::MAX;
    assert!(test_with(&table, FULL).is_ok());
    table[KINDS_ROW as usize] = 9;
    assert!(test_with(&table, &item).is_ok());
}

/// Pointer 9 of `FULL` belongs to the member that is set; the other members don't count.
#[test]
fn members_that_are_not_set_do_not_count() {
    for (tags, conforms) in [
        ("0000000000000000", false), // name
        ("0100000000000000", false), // item
        ("0200000000000000", false), // inner.bytes
        ("0200010000000000", true),  // inner.more
        ("0200020000000000", true),  // a member of `inner` that the schema doesn't have
        ("0300000000000000", true),  // nothing
        ("0400000000000000", true),  // a member that the schema doesn't have
    ] {
        let found = answers_for(&with_word(FULL, 1, tags), Schema::Kinds);
        assert!(found.agree(), "{tags}: {found:?}");
        assert_eq!(found.checked.is_ok(), conforms, "{tags}");
    }
}
