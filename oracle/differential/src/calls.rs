//! One call of each function, with everything that must hold afterwards.
use crate::lent::Lent;
use files::tree::{fields, is_wide};
use oracle::facts;
use oracle::judge::Refusal;
use oracle::limits::{ask_in, Asked, Room, Work};
use oracle::modes;
use oracle::reading;
use oracle::rng::Rng;
use oracle::trees::width;
use oracle::visits;

/// `yengrazul_lower`: tree, work area, output, the mode, and the answer's four numbers.
pub type Lower = unsafe extern "C" fn(*const u8, usize, *mut u32, usize, *mut u8, usize, u64, *mut u64);

/// `yengrazul_check`: tree, how many words the work area has, the mode, and the answer's three numbers.
pub type Check = unsafe extern "C" fn(*const u8, usize, usize, u64, *mut u64);

/// `yengrazul_read`: an image, and the answer's two numbers.
pub type Read = unsafe extern "C" fn(*const u8, usize, *mut u64);

/// What a call got wrong, in words.
pub type Fault = String;

/// The whole call against the oracle's answer: numbers, image, and every lent word.
pub fn lower(function: Lower, asked: &Asked, rng: &mut Rng) -> Result<(), Fault> {
    let tree = Lent::holding(rng, &asked.tree);
    let mut work: Lent<u32> = Lent::noise(rng, asked.work as usize);
    let mut out: Lent<u8> = Lent::noise(rng, asked.room as usize);
    let mut answer: Lent<u64> = Lent::noise(rng, 4);
    let (t, w, o) = (tree.slice(), work.slice_mut(), out.slice_mut());
    unsafe { call(function, t, w, o, asked.mode, answer.slice_mut()) };
    same_numbers(answer.slice(), asked.answer.numbers())?;
    guarded([tree.is_guarded(), work.is_guarded(), out.is_guarded(), answer.is_guarded()])?;
    holds(tree.slice() == asked.tree, "the tree was written to")?;
    holds(work.slice().iter().all(|word| *word == 0), "the work area is not all zero")?;
    let (image, rest) = out.slice().split_at(asked.image.len());
    if let Some(at) = image.iter().zip(&asked.image).position(|(got, due)| got != due) {
        return Err(format!("byte {at} of the image is {} where {} is due", image[at], asked.image[at]));
    }
    holds(rest.iter().all(|byte| *byte == 0), "the output behind the image is not all zero")?;
    if asked.answer.number == 0 {
        facts::check_bytes(image).map_err(|fault| format!("demand 3: {fault}"))?;
        let nodes = fields(&asked.tree).map_err(|k| format!("field {k} of an accepted tree is cut"))?;
        visits::bounded(&nodes, answer.slice()[3])?;
    }
    Ok(())
}

unsafe fn call(function: Lower, tree: &[u8], work: &mut [u32], out: &mut [u8], mode: u64, answer: &mut [u64]) {
    let (w, o) = (work.as_mut_ptr(), out.as_mut_ptr());
    function(tree.as_ptr(), tree.len(), w, work.len(), o, out.len(), mode, answer.as_mut_ptr())
}

/// What both modes share, of a question in mode 0 or 1 that `lower` has found nothing wrong with. With a class in it they share nothing:
/// the other mode is asked for itself.
pub fn both_modes(function: Lower, asked: &Asked, rng: &mut Rng) -> Result<(), Fault> {
    if modes::has_class(&asked.tree) {
        let (work, room) = (Work::Words(asked.work), Room::Bytes(asked.room));
        return lower(function, &ask_in(1 - asked.mode, asked.tree.clone(), work, room), rng);
    }
    let (mut work, mut answer) = (vec![0; asked.work as usize], [0; 4]);
    let mut image_of = |tree: &[u8], mode: u64| {
        let mut out = vec![0; asked.room as usize];
        unsafe { call(function, tree, &mut work, &mut out, mode, &mut answer) };
        same_numbers(&answer, asked.answer.numbers()).map_err(|fault| format!("mode {mode}: {fault}"))?;
        out.truncate(asked.image.len());
        Ok::<_, Fault>(out)
    };
    let other = image_of(&asked.tree, 1 - asked.mode)?;
    let Some(remarked) = modes::remarked(&asked.tree).filter(|_| asked.answer.number == 0) else {
        return holds(other == asked.image, "the modes differ, and no continue stands in the tree");
    };
    let marked = image_of(&remarked, asked.mode)?;
    let (zero, one) = if asked.mode == 0 { (&asked.image, &other) } else { (&other, &asked.image) };
    modes::shared(zero, one, &marked).map(|_| ())
}

/// What a wide tree shares with the one whose marks are narrowed, of a question that `lower` has found nothing wrong with: number, place and
/// visits, where the output is large enough, and the image but for its marks. Of a tree that 1 to 3 refuse nothing is asked.
pub fn both_widths(function: Lower, asked: &Asked) -> Result<(), Fault> {
    let wide = fields(&asked.tree).is_ok_and(|nodes| is_wide(&nodes));
    if !wide || matches!(asked.answer.number, 1..=3 | 18 | 21) {
        return Ok(());
    }
    let tree = width::narrowed(&asked.tree, width::folded).expect("a shorter file");
    let (mut work, mut answer) = (vec![0; asked.work as usize], [0; 4]);
    let mut out = vec![0; asked.image.len()];
    unsafe { call(function, &tree, &mut work, &mut out, asked.mode, &mut answer) };
    let [number, place, length, visits] = answer;
    let due = asked.answer.numbers();
    same_numbers(&[number, place, visits], [due[0], due[1], due[3]])
        .map_err(|fault| format!("its marks narrowed: {fault}"))?;
    match number {
        0 => width::same_but_for_marks(&asked.image, out.get(..length as usize).unwrap_or(&[])),
        _ => Ok(()),
    }
}

/// Refusals 21, 1 to 6 and 27 alone; an accepted tree has 0, 0 and its number of nodes.
pub fn check(
    function: Check,
    tree: &[u8],
    work: u64,
    mode: u64,
    due: Result<usize, Refusal>,
    rng: &mut Rng,
) -> Result<(), Fault> {
    let lent = Lent::holding(rng, tree);
    let mut answer: Lent<u64> = Lent::noise(rng, 3);
    unsafe {
        function(lent.slice().as_ptr(), tree.len(), work as usize, mode, answer.slice_mut().as_mut_ptr());
    }
    let due = due.map_or_else(|r| [r.number.into(), r.place, 0], |nodes| [0, 0, nodes as u64]);
    same_numbers(answer.slice(), due)?;
    guarded([lent.is_guarded(), answer.is_guarded()])?;
    holds(lent.slice() == tree, "the tree was written to")
}

/// Any bytes against the second reader.
pub fn read(function: Read, image: &[u8], due: [u64; 2], rng: &mut Rng) -> Result<(), Fault> {
    let lent = Lent::holding(rng, image);
    let mut answer: Lent<u64> = Lent::noise(rng, 2);
    unsafe { function(lent.slice().as_ptr(), image.len(), answer.slice_mut().as_mut_ptr()) };
    same_numbers(answer.slice(), due)?;
    guarded([lent.is_guarded(), answer.is_guarded()])?;
    holds(lent.slice() == image, "the image was written to")
}

/// What the lowering writes is taken, by the library and by the second reader.
pub fn read_back(function: Read, image: &[u8], rng: &mut Rng) -> Result<(), Fault> {
    let due = reading::numbers(image);
    holds(due == [0, 0], "the second reader does not take the image")?;
    read(function, image, due, rng).map_err(|fault| format!("the image read back: {fault}"))
}

pub(crate) fn same_numbers<const N: usize>(got: &[u64], due: [u64; N]) -> Result<(), Fault> {
    if got == due {
        Ok(())
    } else {
        Err(format!("{got:?} where {due:?} is due"))
    }
}

pub(crate) fn guarded<const N: usize>(all: [bool; N]) -> Result<(), Fault> {
    holds(all.iter().all(|is| *is), "a guard word was written to")
}

pub(crate) fn holds(is: bool, otherwise: &str) -> Result<(), Fault> {
    if is {
        Ok(())
    } else {
        Err(otherwise.into())
    }
}
