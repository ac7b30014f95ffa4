//! Prints the person that `capnp encode examples/person.capnp Person` has written.
use capnp_layout::{Limits, Message};

fn main() -> Result<(), Box<dyn std::error::Error>> {
    let message = Message::read(std::io::stdin(), Limits::default())?;
    let person = message.sound()?;
    println!("{} has number {}", person.get_text(0)?, person.get_u32(0));
    for phone in person.get_structs(1)? {
        println!("  {} ({})", phone.get_text(0)?, phone.get_u16(0));
    }
    Ok(())
}
