//! Generates the code for the schema of orders.

fn main() -> Result<(), capnpc_layout_rust::Error> {
    capnpc_layout_rust::Generator::new()
        .src_prefix("schema")
        .values()
        .run(["schema/shop.capnp"])
}
