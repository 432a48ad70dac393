//! Both widths of marks (02, E5): narrow trees made wide and back, and files that mix the two.
use super::damage::{joined, loose, Loose};
use super::values;
use crate::rng::Rng;
use files::image::Image;
use files::tree::{whole_fields, Field, WIDE};
use files::NONE;
use std::iter::once;

const PROGRAM: u8 = 0x1E;

/// By which word of a payload each mark of it begins, where a mark has so many words; as far as the payload goes.
fn marks(field: &Field, size: usize) -> Vec<usize> {
    let n = field.payload.len() / 2;
    let word = |k: usize| if k < n { usize::from(field.word(k)) } else { 0 };
    // a pair is a name and a mark
    let pairs = |from: usize, count: usize| (0..count).map(move |k| from + k * (1 + size) + 1);
    let found: Vec<usize> = match field.tag {
        0x04..=0x08 | 0x11 | 0x1D => vec![1],
        0x13 | 0x14 | 0x16..=0x19 => vec![0],
        0x1B => vec![2],
        0x15 => once(0).chain(pairs(size + 2, n)).collect(),
        0x09 => pairs(1, word(0)).collect(),
        0x1C => once(1).chain(pairs(size + 2, word(size + 1))).collect(),
        _ => vec![],
    };
    found.into_iter().filter(|k| k + size <= n).collect()
}

/// A payload with marks of `from` words, which have `to` words then, each as `change` makes it of the old one.
fn resized(field: &Field, from: usize, to: usize, change: &mut dyn FnMut(u32) -> u32) -> Vec<u8> {
    let (mut payload, mut at) = (vec![], 0);
    for start in marks(field, from) {
        payload.extend(&field.payload[at..2 * start]);
        at = 2 * (start + from);
        let old = field.payload[2 * start..at].iter().fold(0, |sum, byte| sum << 8 | u32::from(*byte));
        payload.extend(&change(old).to_be_bytes()[4 - 2 * to..]);
    }
    payload.extend(&field.payload[at..]);
    payload
}

/// Every whole field resized and a program of tag `old` at the end of tag `new`; what is cut stays. Nothing where a payload grows too long.
fn remade(
    tree: &[u8],
    [from, to]: [usize; 2],
    [old, new]: [u8; 2],
    change: &mut dyn FnMut(u32) -> u32,
) -> Option<Vec<u8>> {
    let (fields, rest) = whole_fields(tree);
    let mut all: Vec<Loose> =
        fields.iter().map(|f| Loose { tag: f.tag, payload: resized(f, from, to, change) }).collect();
    if let Some(last) = all.last_mut().filter(|last| last.tag == old) {
        last.tag = new;
    }
    let fits = all.iter().all(|f| f.payload.len() <= usize::from(u16::MAX));
    fits.then(|| [joined(&all), rest.to_vec()].concat())
}

/// A narrow tree with four bytes in every mark, each as `change` makes it of the old one.
pub fn widened(tree: &[u8], mut change: impl FnMut(u32) -> u32) -> Option<Vec<u8>> {
    remade(tree, [1, 2], [PROGRAM, WIDE], &mut change)
}

/// A wide tree with two bytes in every mark.
pub fn narrowed(tree: &[u8], mut change: impl FnMut(u32) -> u32) -> Option<Vec<u8>> {
    remade(tree, [2, 1], [WIDE, PROGRAM], &mut change)
}

/// The same mark in four bytes: absent stays absent.
pub fn kept(mark: u32) -> u32 {
    if mark == NONE.into() {
        u32::MAX
    } else {
        mark
    }
}

/// A mark of two bytes for any of four: absent for absent alone.
pub fn folded(mark: u32) -> u32 {
    match mark {
        u32::MAX => NONE.into(),
        mark => (mark ^ mark >> 16) % u32::from(NONE),
    }
}

/// What a wide tree gives is what it gives with its marks folded, but for these marks and their bytes.
pub fn same_but_for_marks(wide: &[u8], narrow: &[u8]) -> Result<(), String> {
    let mut image = Image::from_bytes(wide)?;
    if !image.wide {
        return Err("a wide tree gives instructions of tag 43".into());
    }
    image.wide = false;
    let code = image.prototypes.iter_mut().flat_map(|p| &mut p.instructions);
    code.for_each(|i| i.mark = i.mark.map(folded));
    match image.to_bytes() == narrow {
        true => Ok(()),
        false => Err("narrowing the marks gives another image".into()),
    }
}

/// A file of a narrow tree in which the widths are mixed, or a program of either stands where none may.
pub fn mixed(rng: &mut Rng, narrow: &[u8]) -> Vec<u8> {
    let Some(wide) = widened(narrow, |_| values::wide_mark(rng)) else { return narrow.to_vec() };
    let (mut fields, mut others) = (loose(narrow), loose(&wide));
    if rng.chance(500) {
        std::mem::swap(&mut fields, &mut others);
    }
    let n = fields.len();
    match rng.below(8) {
        // payloads of the other width
        0..=2 => other_payloads(rng, &mut fields, &others),
        // all of them: the program alone says how wide its tree is
        3 => fields[n - 1].tag = others[n - 1].tag,
        // a program of either kind in the middle: one more, or in place of a block
        4 => fields.insert(rng.below(n), Loose { tag: either(rng), payload: vec![] }),
        5 => {
            let at = rng.below(n);
            fields[at].tag = either(rng);
        }
        6 => {
            let blocks: Vec<usize> = (0..n).filter(|k| fields[*k].tag == 0x12).collect();
            if !blocks.is_empty() {
                fields[*rng.pick(&blocks)].tag = either(rng);
            }
        }
        // the last is no program
        _ => fields[n - 1].tag = *rng.pick(&[0x12, 0x3F, 0x2E, 0x47]),
    }
    joined(&fields)
}

fn either(rng: &mut Rng) -> u8 {
    *rng.pick(&[PROGRAM, WIDE])
}

/// One to three of the fields that have a mark.
fn other_payloads(rng: &mut Rng, fields: &mut [Loose], others: &[Loose]) {
    let differ: Vec<usize> =
        (0..fields.len()).filter(|k| fields[*k].payload.len() != others[*k].payload.len()).collect();
    if !differ.is_empty() {
        for _ in 0..rng.range(1, 3) {
            let at = *rng.pick(&differ);
            fields[at].payload = others[at].payload.clone();
        }
    }
}
