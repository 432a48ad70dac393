//! What both modes share of a tree without classes, as long as they differ in where continue goes alone: number, place, length, and every
//! other byte of the image.
use files::opcodes::opcode;
use files::tree::{fields, whole_fields, Field};

/// The tag of a continue, whose payload is its mark.
const CONTINUE: u8 = 0x17;

/// Whether a field that is whole is a class, which mode 1 refuses.
pub fn has_class(tree: &[u8]) -> bool {
    whole_fields(tree).0.iter().any(|field| field.tag == 0x1D)
}

/// The tree with another mark at each continue, or nothing where it has none. In the image the Jmps of continues get other marks, and no other Jmp does.
pub fn remarked(tree: &[u8]) -> Option<Vec<u8>> {
    let mut changed = tree.to_vec();
    let mut at = 0;
    for field in fields(tree).ok()? {
        at += 3 + field.payload.len();
        if field.tag == CONTINUE {
            changed[at - 1] ^= 1;
        }
    }
    (changed != tree).then_some(changed)
}

/// The images of one tree in mode 0 and in mode 1 agree but for where continues go on; says how many differ there.
/// `marked` is the image of `remarked`, in either mode.
pub fn shared(zero: &[u8], one: &[u8], marked: &[u8]) -> Result<usize, String> {
    let whole = |image| fields(image).map_err(|k| format!("field {k} of an image is cut"));
    let (zero, one, marked) = (whole(zero)?, whole(one)?, whole(marked)?);
    if zero.len() != one.len() || zero.len() != marked.len() {
        return Err("the modes give another number of fields".into());
    }
    let mut differ = 0;
    for (k, ((zero, one), marked)) in zero.iter().zip(&one).zip(&marked).enumerate() {
        if zero != one {
            continues(zero, one, marked).map_err(|fault| format!("field {k} of the image: {fault}"))?;
            differ += 1;
        }
    }
    Ok(differ)
}

/// Two fields that differ are one continue's Jmp: back in mode 0, ahead in mode 1, and the same but for its distance.
fn continues(zero: &Field, one: &Field, marked: &Field) -> Result<(), String> {
    let mark = |f: &Field| f.payload[4..].to_vec();
    let parts = |f: &Field| (f.tag, f.payload[0], f.payload[1], mark(f));
    let distance = |f: &Field| i16::from_be_bytes([f.payload[2], f.payload[3]]);
    match () {
        _ if !matches!(zero.tag, 0x43 | 0x47) || zero.payload.len() != one.payload.len() => {
            Err("the modes differ, and it is no instruction")
        }
        _ if parts(zero) != parts(one) => Err("the modes differ in more than b and c"),
        _ if zero.payload[0] != opcode("Jmp") => Err("the modes differ, and it is no Jmp"),
        _ if mark(zero) == mark(marked) => Err("the modes differ, and it is no continue's"),
        _ if distance(zero) >= 0 || distance(one) <= 0 => Err("a continue goes back in mode 0 and ahead in mode 1"),
        _ => Ok(()),
    }
    .map_err(str::to_string)
}
