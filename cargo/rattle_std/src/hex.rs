//! Bytes in hexadecimal.

use crate::alloc::AllocError;
use crate::string::String;

/// Returns two lower-case digits per byte.
pub fn encode<A>(alloc: A, bytes: impl AsRef<[u8]>) -> Result<String<A>, AllocError> {
    let mut text = String::with_capacity(alloc, 2 * bytes.as_ref().len())?;
    for digit in bytes.as_ref().iter().flat_map(|byte| [byte >> 4, byte & 15]) {
        text.push(char::from(b"0123456789abcdef"[usize::from(digit)]))?;
    }
    Ok(text)
}
