//! Writes a person that `capnp decode examples/person.capnp Person` reads.
use capnp_layout::{Builder, StructSize};

fn main() -> Result<(), Box<dyn std::error::Error>> {
    let size = StructSize {
        data_words: 1,
        pointers: 2,
    };
    let mut message = Builder::new();
    let mut person = message.init_root(size);
    person.set_u32(0, 123).set_text(0, "Alice");
    let mut phones = person.init_structs(
        1,
        2,
        StructSize {
            data_words: 1,
            pointers: 1,
        },
    );
    phones.at(0).set_text(0, "555-1212").set_u16(0, 1);
    phones.at(1).set_text(0, "555-3434");
    Ok(message.write(std::io::stdout())?)
}
