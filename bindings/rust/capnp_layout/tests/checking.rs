//! Checks against a schema, by a reader that is written by hand like the generated ones:
//! `struct Node { name @0 :Text; next @1 :Node; any @2 :AnyPointer; tags @3 :List(Text); }`.
use capnp_layout::generated as g;
use capnp_layout::{Builder, Checked, Error, Limits, Lists, Message, Reason, Struct, StructSize};

#[derive(Clone, Copy, Debug)]
struct Node<'a, M: g::Meter = g::Typed>(g::Struct<'a, M>);

impl<'a, M: g::Meter> Node<'a, M> {
    fn name(&self) -> M::Out<&'a str> {
        M::give(self.0.get_text(0))
    }

    fn next(&self) -> M::Out<Node<'a, M>> {
        M::give(self.0.get_struct(1).map(Into::into))
    }

    fn any(&self) -> g::Pointer<'a, M::Plain> {
        g::any(self.0.get_pointer(2))
    }

    fn tags(&self) -> M::Out<g::List<'a, str, M>> {
        M::give(self.0.get_list(3))
    }
}

impl<'a, M: g::Meter> From<g::Struct<'a, M>> for Node<'a, M> {
    fn from(fields: g::Struct<'a, M>) -> Self {
        Node(fields)
    }
}

impl g::Closed for Node<'_> {}

impl g::Element for Node<'_> {
    const SIZE: g::ElementSize = g::ElementSize::InlineComposite;
    type Item<'a, M: g::Meter> = Node<'a, M>;

    fn read<'a, M: g::Meter>(list: &g::RawList<'a>, meter: M, index: u32) -> Self::Item<'a, M> {
        g::struct_at(list, meter, index).into()
    }
}

struct NodeBuilder<'b>(g::StructBuilder<'b>);

impl<'b> From<g::StructBuilder<'b>> for NodeBuilder<'b> {
    fn from(fields: g::StructBuilder<'b>) -> Self {
        NodeBuilder(fields)
    }
}

const SIZE: StructSize = StructSize {
    data_words: 0,
    pointers: 4,
};

impl<'b> g::TypedBuilder<'b> for NodeBuilder<'b> {
    const SIZE: StructSize = SIZE;
}

impl g::StructType for Node<'_> {
    type Builder<'b> = NodeBuilder<'b>;
    const TYPE_ID: u64 = 0x9c1f_70a4_5e02_b3d8;
    // 3: a text in UTF-8; 5 + 16 * 1: a struct of row 1; 0: anything; 14 + 16 * 6: a list of row 6
    const TABLE: &'static [u32] = &[0, 4, 3, 21, 0, 110, 1, 3];
    const NAMES: &'static str = "1 Node name,next,any,tags\n6 Node.tags\n";
    const ROW: u32 = 1;

    fn of<'a, M: g::Meter>(fields: Struct<'a, M>) -> Self::Item<'a, M> {
        fields.into()
    }
}

/// Three nodes, each the next one of the one before.
fn nodes() -> Builder {
    let mut message = Builder::new();
    let mut first = message.init::<Node>().0;
    first.set_text(0, "a");
    first.init_list::<str>(3, 2).set(1, "tag");
    let mut second = first.init_struct(1, SIZE);
    second.set_text(0, "b");
    second.init_struct(1, SIZE).set_text(0, "c");
    message
}

#[test]
fn a_checked_message_is_read_by_values() -> Result<(), Error> {
    let mut built = nodes();
    built.edit::<Node>().0.init_struct(2, SIZE).set_text(0, "x");
    let message = built.as_message()?;
    let root = message.root::<Node>()?;
    assert_eq!(
        (root.name(), root.next().name(), root.next().next().name()),
        ("a", "b", "c")
    );
    assert_eq!(root.next().next().next().name(), "");
    assert_eq!(root.tags().iter().collect::<Vec<_>>(), ["", "tag"]);
    assert_eq!(root.any().as_struct()?.get_text(0)?, "x");
    assert_eq!(root.any().as_checked::<Node>()?.name(), "x");
    let lazily = Node::from(message.lazy()?);
    assert_eq!(lazily.next()?.name()?, "b");
    assert_eq!(lazily.any().as_checked::<Node>()?.name(), "x");
    assert_eq!(lazily.tags()?.at(1)?, "tag");
    Ok(())
}

#[test]
fn a_checked_message_is_kept() -> Result<(), Error> {
    let frame = nodes().to_frame()?;
    let kept: Checked<'static, Node> = Message::copy(&frame, Limits::default())?.into_root()?;
    assert_eq!(kept.root().next().name(), "b");
    let other = Message::copy(&frame, Limits::default())?.into_checked()?;
    assert!(kept == other && format!("{kept:?}") == format!("{other:?}"));
    assert!(kept.segments().eq(other.segments()));
    Ok(())
}

#[test]
fn a_refusal_has_path_place_and_field() -> Result<(), Error> {
    let refused = |write: &dyn Fn(g::StructBuilder<'_>)| {
        let mut built = nodes();
        write(built.edit::<Node>().0);
        let message = built.as_message().unwrap();
        message.root::<Node>().unwrap_err()
    };
    let text = refused(&|mut root| {
        root.edit_struct(1, SIZE).set_data(0, b"\xff\0");
    });
    assert_eq!(text.reason(), Reason::TextIsNotUtf8);
    assert_eq!(
        (text.field(), text.path()),
        (Some("Node.name"), Some("1.0"))
    );
    let wanted = "Node.name (pointer 1.0 at segment 0, word ";
    assert!(text.to_string().starts_with(wanted), "{text}");
    let list = refused(&|mut root| {
        root.edit_struct(1, SIZE).init_list::<u16>(1, 2);
    });
    assert_eq!(
        list.name(),
        "MessageContainsNonStructPointerWhereStructPointerWasExpected"
    );
    assert_eq!(
        (list.field(), list.path()),
        (Some("Node.next"), Some("1.1"))
    );
    let element = refused(&|mut root| {
        root.init_list::<Lists<u8>>(3, 3).init(2, 1).set(0, b'x');
    });
    assert_eq!(element.name(), "MessageContainsTextThatIsNotNULTerminated");
    assert_eq!(
        (element.field(), element.path()),
        (Some("Node.tags"), Some("3.[2]"))
    );
    Ok(())
}

/// Each check costs what reading everything once does, and reading costs nothing after it.
#[test]
fn the_least_limits_of_a_check() -> Result<(), Error> {
    let frame = nodes().to_frame()?;
    let open = |words, depth| Message::from_words(&frame[8..], Limits { words, depth });
    // the root pointer, three nodes, four texts, and the list of two pointers
    let words = 1 + 3 * 4 + 4 + 2;
    let message = open(words, 4)?;
    for _ in 0..3 {
        let root = message.root::<Node>()?;
        assert_eq!((root.name(), root.next().next().name()), ("a", "c"));
    }
    let refused = open(words - 1, 4)?.root::<Node>().unwrap_err();
    assert_eq!(
        (refused.name(), refused.is_limit()),
        ("ReadLimitExceeded", true)
    );
    let refused = open(words, 3)?.root::<Node>().unwrap_err();
    assert!(refused.is_limit());
    assert_eq!(refused.field(), Some("Node.name"));
    Ok(())
}

/// A far pointer to a capability, which no writer makes, passes the check, and is read after it.
#[test]
fn a_far_pointer_to_a_capability_is_read() {
    // two segments of 5 words and 1; a struct of 4 pointers: number 2 leads to the second segment
    let words: [u64; 8] = [5 << 32 | 1, 1, 4 << 48, 0, 0, 1 << 32 | 2, 0, 7 << 32 | 3];
    let frame: Vec<u8> = words.iter().flat_map(|it| it.to_le_bytes()).collect();
    let message = Message::open(&frame, Limits::default()).unwrap();
    let node = message.root::<Node>().unwrap();
    assert_eq!(g::capability(node.any()).unwrap(), Some(7));
}
