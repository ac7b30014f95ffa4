//! Writes bytes to an output, until all of them are written.

use super::{DeviceFault, Output};

/// Writes all of `from`, in as many writes as it takes. Precondition: `output` hasn't failed.
///
/// # Preconditions
///
/// ```text
/// requires { W.has_failed output.old ≡ false }
/// ```
pub fn write_all<W: Output>(output: &mut W, from: &[u8]) -> Result<(), DeviceFault> {
    let mut rest = from;
    while !rest.is_empty() {
        let n = output.write(rest)?;
        rest = &rest[n..];
    }
    Ok(())
}
