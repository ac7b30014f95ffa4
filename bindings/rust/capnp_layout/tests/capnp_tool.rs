//! Both ways through `capnp encode`, `decode` and `convert`, and the examples as programs. Left out
//! without `capnp`.
use capnp_layout::{Builder, Limits, Message, StructSize};
use std::io::Write;
use std::process::{Command, Stdio};

/// What a program writes when it reads `input`; `None` if there is no such program.
fn run(program: &str, words: &[&str], input: &[u8]) -> Option<Vec<u8>> {
    let mut command = Command::new(program);
    command
        .args(words)
        .current_dir(env!("CARGO_MANIFEST_DIR"))
        .stdin(Stdio::piped())
        .stdout(Stdio::piped());
    let mut child = match command.spawn() {
        Ok(child) => child,
        Err(error) => {
            println!("skipped: {program}: {error}");
            return None;
        }
    };
    child.stdin.take().unwrap().write_all(input).unwrap();
    let output = child.wait_with_output().unwrap();
    assert!(output.status.success(), "{program} {words:?}");
    Some(output.stdout)
}

fn capnp(words: &[&str], input: &[u8]) -> Option<Vec<u8>> {
    run("capnp", words, input)
}

const PERSON: [&str; 2] = ["examples/person.capnp", "Person"];
const TEXT: &str = r#"(id = 123, name = "Alice", phones = [(number = "555-1212", kind = 1), (number = "555-3434")])"#;

fn build() -> Builder {
    let mut message = Builder::new();
    let mut person = message.init_root(StructSize {
        data_words: 1,
        pointers: 2,
    });
    person.set_u32(0, 123).set_text(0, "Alice");
    let mut phones = person.init_structs(
        1,
        2,
        StructSize {
            data_words: 1,
            pointers: 1,
        },
    );
    phones.at(0).set_text(0, "555-1212").set_u16(0, 1);
    phones.at(1).set_text(0, "555-3434");
    message
}

#[test]
fn encoded_messages_are_read() {
    for words in [&[][..], &["--segment-size=1"], &["--packed"]] {
        let args = [&["encode"], words, &PERSON[..]].concat();
        let Some(bytes) = capnp(&args, TEXT.as_bytes()) else {
            return;
        };
        let message = match words {
            ["--packed"] => Message::open_packed(&bytes, Limits::default()),
            _ => Message::open(&bytes, Limits::default()),
        };
        let message = message.unwrap();
        assert_eq!(message, build().as_message().unwrap());
        let canonical = capnp(
            &[
                "convert",
                "binary:canonical",
                "--quiet",
                PERSON[0],
                PERSON[1],
            ],
            &build().to_frame().unwrap(),
        )
        .unwrap();
        assert_eq!(message.canonical().unwrap(), canonical);
    }
}

#[test]
fn built_messages_are_decoded() {
    let expected = TEXT.strip_suffix(r#")])"#).unwrap();
    for (words, bytes) in [
        (&[][..], build().to_frame().unwrap()),
        (&["--packed"], build().to_packed().unwrap()),
        (&["--flat"], build().into_words().unwrap()),
    ] {
        let Some(text) = capnp(
            &[&["decode", "--short"], words, &PERSON[..]].concat(),
            &bytes,
        ) else {
            return;
        };
        assert!(
            text.starts_with(expected.as_bytes()),
            "{}",
            String::from_utf8_lossy(&text)
        );
    }
}

#[test]
fn the_examples_run() {
    let folder = std::env::current_exe()
        .unwrap()
        .parent()
        .unwrap()
        .parent()
        .unwrap()
        .join("examples");
    let example = |name: &str, input: &[u8]| run(folder.join(name).to_str().unwrap(), &[], input);
    let Some(built) = example("build", b"") else {
        return;
    };
    assert_eq!(built, build().to_frame().unwrap());
    let read = example("read", &built).unwrap();
    assert_eq!(
        String::from_utf8(read).unwrap(),
        "Alice has number 123\n  555-1212 (1)\n  555-3434 (0)\n"
    );
    let digest = String::from_utf8(example("digest", &built).unwrap()).unwrap();
    let expected: String = build()
        .digest()
        .unwrap()
        .iter()
        .map(|byte| format!("{byte:02x}"))
        .collect();
    assert_eq!(digest, expected + "\n");
    if let Some(encoded) = capnp(
        &["encode", "--segment-size=1", PERSON[0], PERSON[1]],
        TEXT.as_bytes(),
    ) {
        assert_eq!(
            example("digest", &encoded).unwrap(),
            digest.as_bytes(),
            "equal values have the same digest"
        );
    }
}
