//! The runner finds each of these libraries that are wrong about the width of marks alone.
use differential::calls::{Check, Lower, Read};
use differential::mends::Mend;
use differential::run::{run, Plan};
use files::image::Image;
use files::tree::{fields, is_wide, whole_fields, Field};
use oracle::reading::numbers;
use standin::{yengrazul_check, yengrazul_lower, yengrazul_mend, yengrazul_read};
use std::slice::{from_raw_parts, from_raw_parts_mut};

/// Each instruction of tag 47 in an image: its payload, to be changed.
fn each_wide(image: &mut [u8], change: impl Fn(&mut [u8])) {
    let mut at = 0;
    let sizes: Vec<(u8, usize)> = whole_fields(image).0.iter().map(|f| (f.tag, f.payload.len())).collect();
    for (tag, size) in sizes {
        if tag == 0x47 {
            change(&mut image[at + 3..at + 3 + size]);
        }
        at += 3 + size;
    }
}

/// The image with narrow instructions, each with the low half of its mark.
fn in_43(image: &[u8]) -> Vec<u8> {
    let mut image = Image::from_bytes(image).expect("an image");
    image.wide = false;
    let code = image.prototypes.iter_mut().flat_map(|p| &mut p.instructions);
    code.for_each(|i| i.mark = i.mark.map(|mark| mark & 0xFFFF));
    image.to_bytes()
}

/// Whether a node that is not the last has a tag.
fn in_the_middle(nodes: &[Field], tag: u8) -> bool {
    nodes.split_last().is_some_and(|(_, before)| before.iter().any(|node| node.tag == tag))
}

/// A wrong library: the right one, then something done to its answer or its image.
unsafe extern "C" fn wrong<const HOW: u8>(
    t: *const u8,
    tn: usize,
    w: *mut u32,
    wn: usize,
    o: *mut u8,
    on: usize,
    mode: u64,
    a: *mut u64,
) {
    yengrazul_lower(t, tn, w, wn, o, on, mode, a);
    let (tree, out) = (from_raw_parts(t, tn), from_raw_parts_mut(o, on));
    let answer = from_raw_parts_mut(a, 4);
    let Ok(nodes) = fields(tree) else { return };
    let image = &mut out[..answer[2] as usize];
    match HOW {
        0 => each_wide(image, |p| p[4..6].fill(0)),
        1 if answer[0] == 0 => each_wide(image, |p| {
            if p[4..] == [255; 4] {
                p[4..6].fill(0)
            }
        }),
        2 if answer[0] == 0 => each_wide(image, |p| {
            if p[4..] == [0, 0, 255, 255] {
                p[4..].fill(255)
            }
        }),
        3 if answer[0] == 0 => each_wide(image, |p| p[4..].rotate_left(2)),
        4 if is_wide(&nodes) && answer[0] == 0 => {
            let narrow = in_43(image);
            image.fill(0);
            image[..narrow.len()].copy_from_slice(&narrow);
            answer[2] = narrow.len() as u64;
        }
        // a word more for each node of a wide tree
        5 if is_wide(&nodes) && wn == 12_288 + 16 * nodes.len() && answer[0] == 0 => {
            image.fill(0);
            answer.copy_from_slice(&[6, 0, 0, 0]);
        }
        // a 3E in the middle is let pass, or told at the end
        6 if answer[0] == 3 && nodes[answer[1] as usize].tag == 0x3E => answer[0] = 4,
        7 if answer[0] == 3 && nodes[answer[1] as usize].tag == 0x3E => answer[1] = nodes.len() as u64 - 1,
        8 if answer[0] == 3 && is_wide(&nodes) => answer[1] += 1,
        9 if is_wide(&nodes) => answer[3] = 0,
        // the width is that of the first program
        10 if in_the_middle(&nodes, 0x3E) && answer[0] == 3 && nodes[answer[1] as usize].tag != 0x3E => answer[1] += 1,
        _ => {}
    }
}

/// A wrong library that takes every tree for narrow, its last tag apart.
unsafe extern "C" fn all_narrow(
    t: *const u8,
    tn: usize,
    w: *mut u32,
    wn: usize,
    o: *mut u8,
    on: usize,
    mode: u64,
    a: *mut u64,
) {
    let narrow = last_tag(from_raw_parts(t, tn), 0x3E, 0x1E);
    yengrazul_lower(narrow.as_ptr(), tn, w, wn, o, on, mode, a);
}

/// The tree with another tag at its last field.
fn last_tag(tree: &[u8], old: u8, new: u8) -> Vec<u8> {
    let mut other = tree.to_vec();
    if let Some(last) = fields(tree).ok().as_ref().and_then(|all| all.last()) {
        let at = tree.len() - 3 - last.payload.len();
        if other[at] == old {
            other[at] = new;
        }
    }
    other
}

#[test]
fn a_right_library() {
    let plan = Plan { wide: 2500, ..Plan::nothing(5) };
    let report =
        run(&Plan { lower: Some(yengrazul_lower), check: Some(yengrazul_check), read: Some(yengrazul_read), ..plan });
    assert_eq!(report.differences, Vec::<String>::new());
    assert_eq!(report.total(), 5000);
}

#[test]
fn wrong_about_trees() {
    let wrong: [(&str, Lower); 12] = [
        ("the high half dropped", wrong::<0>),
        ("absent as 65,535", wrong::<1>),
        ("65,535 as absent", wrong::<2>),
        ("the halves turned", wrong::<3>),
        ("an image of 43", wrong::<4>),
        ("more words", wrong::<5>),
        ("3E in the middle passed", wrong::<6>),
        ("3E in the middle told at the end", wrong::<7>),
        ("a place one off", wrong::<8>),
        ("no visits", wrong::<9>),
        ("the first program decides", wrong::<10>),
        ("every tree narrow", all_narrow),
    ];
    for (name, lower) in wrong {
        let report = run(&Plan { wide: 3000, lower: Some(lower), ..Plan::nothing(5) });
        assert!(!report.differences.is_empty(), "{name}");
    }
}

#[test]
fn a_wrong_check() {
    unsafe extern "C" fn narrow(t: *const u8, tn: usize, work: usize, mode: u64, a: *mut u64) {
        let tree = last_tag(from_raw_parts(t, tn), 0x3E, 0x1E);
        yengrazul_check(tree.as_ptr(), tn, work, mode, a);
    }
    unsafe extern "C" fn wide(t: *const u8, tn: usize, work: usize, mode: u64, a: *mut u64) {
        let tree = last_tag(from_raw_parts(t, tn), 0x1E, 0x3E);
        yengrazul_check(tree.as_ptr(), tn, work, mode, a);
    }
    for wrong in [narrow as Check, wide] {
        assert!(!run(&Plan { wide: 500, check: Some(wrong), ..Plan::nothing(5) }).differences.is_empty());
    }
}

/// A wrong reader: mixes taken, wide images refused, or a size that is not looked at.
unsafe extern "C" fn reads<const HOW: u8>(image: *const u8, n: usize, answer: *mut u64) {
    yengrazul_read(image, n, answer);
    let (image, answer) = (from_raw_parts(image, n), from_raw_parts_mut(answer, 2));
    let Ok(all) = fields(image) else { return };
    let as_43 = |of: &dyn Fn(usize, &Field) -> bool| -> Vec<u8> {
        let each = all.iter().enumerate().flat_map(|(k, f)| match (f.tag, f.payload.len()) {
            (0x47, 8) if of(k, f) => [&[0x43, 0, 6], &f.payload[..4], &f.payload[6..]].concat(),
            (tag, size) => [&[tag][..], &(size as u16).to_be_bytes(), f.payload].concat(),
        });
        each.collect()
    };
    let has = |tag: u8| all.iter().any(|f| f.tag == tag);
    match HOW {
        0 => answer.copy_from_slice(&numbers(&as_43(&|_, _| true))),
        1 if has(0x47) && answer[0] == 0 => answer.copy_from_slice(&[20, 1]),
        // each prototype decides for itself
        2 if has(0x47) && has(0x43) => {
            let head = |k: usize| all[..k].iter().rposition(|f| f.tag == 0x41).unwrap_or(0);
            let first = |k: usize| all[head(k)..].iter().find(|f| matches!(f.tag, 0x43 | 0x47)).map(|f| f.tag);
            answer.copy_from_slice(&numbers(&as_43(&|k, _| first(k) == Some(0x47))));
        }
        // the last one decides: a mix is told at the first
        3 if has(0x47) && has(0x43) && answer[0] == 20 => {
            answer[1] = all.iter().position(|f| matches!(f.tag, 0x43 | 0x47)).unwrap_or(0) as u64;
        }
        _ => {}
    }
}

#[test]
fn wrong_readers() {
    let wrong: [(&str, Read); 4] = [
        ("both tags taken", reads::<0>),
        ("47 refused", reads::<1>),
        ("each prototype decides", reads::<2>),
        ("a mix told at the first", reads::<3>),
    ];
    for (name, read) in wrong {
        assert!(!run(&Plan { images: 4000, read: Some(read), ..Plan::nothing(5) }).differences.is_empty(), "{name}");
        assert!(
            !run(&Plan { images: 1, fixed: true, read: Some(read), ..Plan::nothing(5) }).differences.is_empty(),
            "{name}"
        );
    }
}

/// A wrong mender: marks of four bytes that do not stay.
unsafe extern "C" fn mends<const HOW: u8>(
    image: *const u8,
    n: usize,
    out: *mut u8,
    on: usize,
    list: *mut u8,
    ln: usize,
    answer: *mut u64,
) {
    yengrazul_mend(image, n, out, on, list, ln, answer);
    let (out, answer) = (from_raw_parts_mut(out, on), from_raw_parts_mut(answer, 4));
    let is_end = |p: &[u8]| p[..4] == [20, 0, 0, 0];
    match HOW {
        0 if answer[3] > 0 => each_wide(out, |p| {
            if is_end(p) {
                p[4..6].fill(255)
            }
        }),
        1 if answer[3] > 0 => each_wide(out, |p| {
            if is_end(p) {
                p[4..].fill(255)
            }
        }),
        2 if answer[0] == 0 && answer[3] > 0 && out.get(13) == Some(&0x47) => answer[3] -= 1,
        _ => {}
    }
}

#[test]
fn wrong_menders() {
    for (name, mend) in
        [("the high half", mends::<0> as Mend), ("the mark", mends::<1>), ("a jump not told", mends::<2>)]
    {
        assert!(!run(&Plan { mends: 3000, mend: Some(mend), ..Plan::nothing(5) }).differences.is_empty(), "{name}");
    }
}
