//! Prints the SHA-256 of the canonical words of a frame: what a signature signs. Two frames of
//! equal values have the same.
use capnp_layout::{Limits, Message};

fn main() -> Result<(), Box<dyn std::error::Error>> {
    let message = Message::read(std::io::stdin(), Limits::default())?;
    for byte in message.digest()? {
        print!("{byte:02x}");
    }
    println!();
    Ok(())
}
