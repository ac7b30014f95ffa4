//! The texts of answers, which are constants.

/// The text of the answer with the number `number`: one or more bytes that aren't zero, and a
/// terminating zero byte. Answers that no call returns have the text of unknown ones.
pub fn text_of_answer(number: u32) -> &'static [u8] {
    match number {
        0 => b"the call is done\0",
        1 => b"the buffer is too small\0",
        2 => b"there are no bytes where a frame was expected\0",
        3 => b"the size of a segment isn't a multiple of 8 bytes\0",
        17 => b"the frame has more than 512 segments\0",
        18 => b"the frame or the unpacked bytes have more words than the limit\0",
        19 => b"the bytes end inside a frame or a packed word\0",
        32 => b"memory ran out\0",
        33 => b"the value contains a capability, so it has no canonical form\0",
        34 => b"the tag of a list of structs isn't a struct pointer\0",
        42 => b"the elements of a list of structs take more words than its pointer claims\0",
        43 => b"the tag of a list of structs isn't a struct pointer\0",
        44 => b"a far pointer names a segment that doesn't exist, or there are no segments\0",
        45 => {
            b"a one-word landing pad, or the tag of a two-word landing pad, is itself a far pointer\0"
        }
        55 => b"a pointer points outside its segment\0",
        57 => b"the nesting limit is exceeded\0",
        58 => b"the nesting limit is exceeded, perhaps by a cycle of pointers\0",
        59 => b"the message or its canonical form is larger than the format allows\0",
        60 => b"the nesting limit is exceeded\0",
        61 => b"the path leads nowhere\0",
        62 => b"the traversal limit is exceeded\0",
        66 => b"a pointer is of an unknown kind\0",
        _ => b"a refusal that this library doesn't know\0",
    }
}
