//! One call of the mender, with everything that must hold afterwards.
use crate::calls::{guarded, holds, same_numbers, Fault};
use crate::lent::Lent;
use oracle::mending::Mended;
use oracle::mends::Question;
use oracle::rng::Rng;

/// `yengrazul_mend`: image, output, list, and the answer's four numbers.
pub type Mend = unsafe extern "C" fn(*const u8, usize, *mut u8, usize, *mut u8, usize, *mut u64);

/// Numbers, output and list against the second mender; what was mended once is mended.
pub fn mend(function: Mend, question: &Question, due: &Mended, rng: &mut Rng) -> Result<(), Fault> {
    once(function, question, due, rng)?;
    let [number, _, length, _] = due.numbers;
    if number != 0 {
        return Ok(());
    }
    let again = Question { image: due.out[..length as usize].to_vec(), room: length as usize, list_room: 0 };
    let unchanged = Mended { numbers: [0, 0, length, 0], out: again.image.clone(), list: vec![] };
    once(function, &again, &unchanged, rng).map_err(|fault| format!("mended once more: {fault}"))
}

fn once(function: Mend, question: &Question, due: &Mended, rng: &mut Rng) -> Result<(), Fault> {
    let image = Lent::holding(rng, &question.image);
    let mut out: Lent<u8> = Lent::noise(rng, question.room);
    let mut list: Lent<u8> = Lent::noise(rng, question.list_room);
    let mut answer: Lent<u64> = Lent::noise(rng, 4);
    let (i, o, l, a) = (image.slice(), out.slice_mut(), list.slice_mut(), answer.slice_mut());
    unsafe {
        let (out, list) = (o.as_mut_ptr(), l.as_mut_ptr());
        function(i.as_ptr(), i.len(), out, o.len(), list, l.len(), a.as_mut_ptr());
    }
    same_numbers(answer.slice(), due.numbers)?;
    guarded([image.is_guarded(), out.is_guarded(), list.is_guarded(), answer.is_guarded()])?;
    holds(image.slice() == question.image, "the image was written to")?;
    same_bytes("output", out.slice(), &due.out)?;
    same_bytes("list", list.slice(), &due.list)
}

fn same_bytes(what: &str, got: &[u8], due: &[u8]) -> Result<(), Fault> {
    match got.iter().zip(due).position(|(got, due)| got != due) {
        Some(at) => Err(format!("byte {at} of the {what} is {} where {} is due", got[at], due[at])),
        None => Ok(()),
    }
}
