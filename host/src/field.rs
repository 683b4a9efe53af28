//! A field: tag, length in two bytes, value. Document 01, 'How a store is handed over'.

/// Appends a field.
pub fn put(out: &mut Vec<u8>, tag: u8, parts: &[&[u8]]) {
    let length: usize = parts.iter().map(|part| part.len()).sum();
    out.push(tag);
    out.extend(u16::try_from(length).unwrap_or(u16::MAX).to_le_bytes());
    parts.iter().for_each(|part| out.extend(*part));
}

/// Takes the field that the bytes begin with.
pub fn take<'a>(bytes: &mut &'a [u8]) -> Option<(u8, &'a [u8])> {
    let (head, rest) = bytes.split_first_chunk::<3>()?;
    let (value, rest) = rest.split_at_checked(usize::from(u16::from_le_bytes([head[1], head[2]])))?;
    *bytes = rest;
    Some((head[0], value))
}

/// A name's text. The names of an image that the port accepted are ASCII.
pub fn name(value: &[u8]) -> Option<String> {
    String::from_utf8(value.to_vec()).ok()
}
