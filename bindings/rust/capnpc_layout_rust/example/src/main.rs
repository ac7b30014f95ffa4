//! Writes an order from a plain value, and reads it.

mod shop_capnp {
    include!(concat!(env!("OUT_DIR"), "/shop_capnp.rs"));
}

use capnp_layout::{Builder, Error, Limits, Message};
use shop_capnp::{order, Order};

fn main() -> Result<(), Error> {
    let value = order::Value {
        id: 7,
        customer: "Alice".into(),
    };
    let mut message = Builder::new();
    value.write_to(message.init::<Order>());
    let bytes = message.to_frame()?;

    let message = Message::open(&bytes, Limits::default())?;
    let order = message.root::<Order>()?;
    println!("{}: {}", order.id(), order.customer());
    assert_eq!(order::Value::from(order), value);
    Ok(())
}
