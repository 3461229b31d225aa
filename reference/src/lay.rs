//! Laying a record down, part after part.

/// Lays bytes at the front of what remains and gives back the rest.
pub fn put<'a>(out: &'a mut [u8], bytes: &[u8]) -> &'a mut [u8] {
    let (here, rest) = out.split_at_mut(bytes.len());
    here.copy_from_slice(bytes);
    rest
}
