//! A second mender, from E9 of document 02: stray breaks and continues, and jumps that leave their prototype, become Return 0 0 0.
use crate::images::build::end;
use crate::reading;
use files::image::{Image, Instruction};
use files::opcodes::opcode;

/// What a call leaves: the answer's four numbers, every byte of the output and of the list.
#[derive(Clone, Debug, PartialEq)]
pub struct Mended {
    pub numbers: [u64; 4],
    pub out: Vec<u8>,
    pub list: Vec<u8>,
}

/// The answer to a call that lends so many bytes of output and of list.
pub fn mend(image: &[u8], room: usize, list_room: usize) -> Mended {
    let refused =
        |number, place| Mended { numbers: [number, place, 0, 0], out: vec![0; room], list: vec![0; list_room] };
    let (copy, entries) = copied(image);
    match reading::numbers(&copy) {
        // 19 and 20 at their places: what is broken in the mended copy was broken by something else
        [number, place] if number != 0 => refused(number, place),
        _ if list_room < entries.len() => refused(26, 0),
        _ if room < copy.len() => refused(18, 0),
        _ => {
            let numbers = [0, 0, copy.len() as u64, entries.len() as u64 / 8];
            Mended { numbers, out: filled(copy, room), list: filled(entries, list_room) }
        }
    }
}

fn filled(mut bytes: Vec<u8>, length: usize) -> Vec<u8> {
    bytes.resize(length, 0);
    bytes
}

/// The copy with these jumps replaced, and the list: eight bytes for each, in order. An image whose order is broken stays as it is.
fn copied(bytes: &[u8]) -> (Vec<u8>, Vec<u8>) {
    let Ok(mut image) = Image::from_bytes(bytes) else { return (bytes.to_vec(), vec![]) };
    let mut list = vec![];
    for (own, prototype) in image.prototypes.iter_mut().enumerate() {
        let length = prototype.instructions.len();
        for (at, i) in prototype.instructions.iter_mut().enumerate() {
            if is_replaced(i, at, length) {
                list.extend((own as u16).to_be_bytes());
                list.extend((at as u16).to_be_bytes());
                list.extend([i.opcode, i.a, i.b, i.c]);
                *i = Instruction { mark: i.mark, ..end() };
            }
        }
    }
    (image.to_bytes(), list)
}

/// "Each Jmp whose a is 1 or 2, or whose target leaves its prototype".
fn is_replaced(i: &Instruction, at: usize, length: usize) -> bool {
    let target = at as isize + i.sbx();
    i.opcode == opcode("Jmp") && (matches!(i.a, 1 | 2) || target < 0 || target >= length as isize)
}
