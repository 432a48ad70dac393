//! Tree files: fields of a one-byte tag, a two-byte length and a payload.

/// The tag of a program whose tree has four bytes in every mark (02, E5).
pub const WIDE: u8 = 0x3E;

/// Whether every mark of a tree has four bytes: its last field alone says so.
pub fn is_wide(fields: &[Field]) -> bool {
    fields.last().is_some_and(|last| last.tag == WIDE)
}

/// One field; its payload is a part of the file.
#[derive(Clone, Copy, Debug, PartialEq)]
pub struct Field<'t> {
    pub tag: u8,
    pub payload: &'t [u8],
}

impl Field<'_> {
    /// Word k of the payload.
    pub fn word(&self, k: usize) -> u16 {
        u16::from_be_bytes([self.payload[2 * k], self.payload[2 * k + 1]])
    }

    /// The payload as words; a byte left over is dropped.
    pub fn words(&self) -> Vec<u16> {
        (0..self.payload.len() / 2).map(|k| self.word(k)).collect()
    }
}

/// The first field and what stands behind it, or nothing where a header or payload runs past the end.
pub fn first_field(bytes: &[u8]) -> Option<(Field<'_>, &[u8])> {
    let (&tag, rest) = bytes.split_first()?;
    let (length, rest) = rest.split_at_checked(2)?;
    let length = u16::from_be_bytes([length[0], length[1]]) as usize;
    let (payload, rest) = rest.split_at_checked(length)?;
    Some((Field { tag, payload }, rest))
}

/// All whole fields, and the bytes behind them that are none.
pub fn whole_fields(bytes: &[u8]) -> (Vec<Field<'_>>, &[u8]) {
    let mut rest = bytes;
    let mut found = vec![];
    while let Some((field, more)) = first_field(rest) {
        found.push(field);
        rest = more;
    }
    (found, rest)
}

/// All fields, or how many whole ones stand before the one that is cut.
pub fn fields(bytes: &[u8]) -> Result<Vec<Field<'_>>, usize> {
    let (found, rest) = whole_fields(bytes);
    if rest.is_empty() {
        Ok(found)
    } else {
        Err(found.len())
    }
}

/// Appends one field.
pub fn push_field(file: &mut Vec<u8>, tag: u8, payload: &[u8]) {
    file.push(tag);
    file.extend((payload.len() as u16).to_be_bytes());
    file.extend(payload);
}
