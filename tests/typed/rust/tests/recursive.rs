//! Readers and values of structs that lead to themselves, also if the pointers that do are null.

use capnp_layout::{Builder, Error, Limits, Message};
use std::fmt::Debug;
use typed_rust::recursive_capnp as lazy;
use typed_rust::values::recursive_capnp::{chain, nest, ring, term, tree};
use typed_rust::values::recursive_capnp::{Chain, Nest, Ring, Term, Tree};

/// Calls `read` with a message of a root without sections: each of its fields is read as its default value.
fn with_empty_root<T>(read: impl Fn(&Message<'_>) -> Result<T, Error>) -> Result<T, Error> {
    let bytes = [0, 0, 0, 0, 1, 0, 0, 0, 0xfc, 0xff, 0xff, 0xff, 0, 0, 0, 0];
    read(&Message::open(&bytes, Limits::default())?)
}

fn shown(value: impl Debug) -> String {
    format!("{value:?}")
}

#[test]
fn null_structs_are_shown_as_null() -> Result<(), Error> {
    with_empty_root(|message| {
        assert_eq!(
            shown(message.root::<Tree>()?),
            "Tree { number: 0, left: null, children: [], knot: Knot { inner: null } }"
        );
        assert_eq!(shown(message.root::<Term>()?), "Term { which: Not(null) }");
        assert_eq!(
            shown(message.root::<Chain>()?),
            "Chain { number: 0, next: Chain { number: 7, next: null } }"
        );
        assert_eq!(
            shown(message.root::<Ring>()?),
            "Ring { number: 0, which: Again(Ring { number: 9, which: Again(null) }) }"
        );
        assert_eq!(
            shown(message.root::<Nest>()?),
            "Nest { number: 0, kids: [Nest { number: 5, kids: null }] }"
        );
        let ring = lazy::Ring::from(message.lazy()?);
        assert_eq!(
            shown(ring),
            "Ring { number: 0, which: Again(Ring { number: 9, which: Again(null) }) }"
        );
        Ok(())
    })
}

#[test]
fn structs_that_are_set_are_shown() -> Result<(), Error> {
    let mut message = Builder::new();
    let mut tree = message.init::<lazy::Tree>();
    tree.init_left().set_number(1);
    tree.init_children(1).at(0).set_number(2);
    tree.knot().init_inner().set_number(3);
    let bytes = message.to_frame()?;
    let leaf = |number| {
        format!(
            "Tree {{ number: {number}, left: null, children: [], knot: Knot {{ inner: null }} }}"
        )
    };
    assert_eq!(
        shown(Message::open(&bytes, Limits::default())?.root::<lazy::Tree>()?),
        format!(
            "Tree {{ number: 0, left: {}, children: [{}], knot: Knot {{ inner: {} }} }}",
            leaf(1),
            leaf(2),
            leaf(3)
        )
    );
    let mut message = Builder::new();
    message
        .init::<lazy::Term>()
        .init_both()
        .init_second()
        .set_constant(true);
    let bytes = message.to_frame()?;
    assert_eq!(
        shown(Message::open(&bytes, Limits::default())?.root::<lazy::Term>()?),
        "Term { which: Both(Both { first: null, second: Term { which: Constant(true) } }) }"
    );
    Ok(())
}

#[test]
fn null_structs_have_no_value_or_their_default_value() -> Result<(), Error> {
    with_empty_root(|message| {
        assert_eq!(tree::Value::from(message.root::<Tree>()?).left, None);
        let term = term::Value::from(message.root::<Term>()?);
        assert_eq!(term.which, term::WhichValue::Not(None));
        let last = chain::Value {
            number: 7,
            next: None,
        };
        let chain = chain::Value::from(message.root::<Chain>()?);
        assert_eq!(chain.next, Some(Box::new(last)));
        let last = nest::Value {
            number: 5,
            kids: vec![],
        };
        assert_eq!(nest::Value::from(message.root::<Nest>()?).kids, [last]);
        let last = ring::Value {
            number: 9,
            which: ring::WhichValue::Again(None),
        };
        let ring = ring::Value::from(message.root::<Ring>()?);
        assert_eq!(ring.which, ring::WhichValue::Again(Some(Box::new(last))));
        assert_eq!(term, term::Value::default());
        assert_eq!(ring, ring::Value::default());
        Ok(())
    })
}

#[test]
fn values_are_written_and_read() -> Result<(), Error> {
    let end = ring::Value {
        number: 4,
        which: ring::WhichValue::End,
    };
    let value = ring::Value {
        number: 2,
        which: ring::WhichValue::Again(Some(Box::new(end))),
    };
    let mut message = Builder::new();
    value.write_to(message.init::<Ring>());
    let bytes = message.to_frame()?;
    let message = Message::open(&bytes, Limits::default())?;
    assert_eq!(ring::Value::from(message.root::<Ring>()?), value);
    let value = term::Value {
        which: term::WhichValue::Not(None),
    };
    let mut message = Builder::new();
    value.write_to(message.init::<Term>());
    let bytes = message.to_frame()?;
    let message = Message::open(&bytes, Limits::default())?;
    assert_eq!(term::Value::from(message.root::<Term>()?), value);
    Ok(())
}
