//! The second mender against what was written down by hand from 02, on the source's own images, and by what 02 says of any.
use files::tree::fields;
use oracle::mending::mend;
use oracle::mends::{edges, needs, random, real, rooms};
use oracle::reading::numbers;

#[test]
fn every_edge_gives_what_is_due() {
    let edges = edges::all();
    for edge in &edges {
        let (room, list) = needs(&edge.image);
        let mended = mend(&edge.image, room, list);
        match &edge.due {
            Ok(entries) => {
                let due = [0, 0, edge.image.len() as u64, entries.len() as u64 / 8];
                assert_eq!((mended.numbers, &mended.list), (due, entries), "{}", edge.name);
            }
            Err([number, place]) => assert_eq!(mended.numbers, [*number, *place, 0, 0], "{}", edge.name),
        }
    }
    assert!(edges.len() > 350, "{}", edges.len());
}

/// Byte for byte: what is listed became Return 0 0 0 with its mark, and nothing else moved.
fn only_listed_moved(image: &[u8], out: &[u8], list: &[u8]) {
    assert_eq!(image.len(), out.len());
    let (mut own, mut index, mut entries) = (-1i32, 0u16, list.chunks(8));
    let mut at = 0;
    for field in fields(image).expect("a whole image") {
        let new = &out[at..at + 3 + field.payload.len()];
        let old = &image[at..at + 3 + field.payload.len()];
        match field.tag {
            0x41 => (own, index) = (own + 1, 0),
            0x43 | 0x47 => {
                if new != old {
                    let entry = [&(own as u16).to_be_bytes(), &index.to_be_bytes(), &old[3..5], &old[5..7]].concat();
                    assert_eq!(entries.next(), Some(&entry[..]));
                    assert_eq!(new, [&old[..3], &[20, 0, 0, 0], &old[7..]].concat());
                }
                index += 1;
            }
            _ => assert_eq!(new, old),
        }
        at += 3 + field.payload.len();
    }
    assert_eq!(entries.next(), None);
}

#[test]
fn what_02_says_of_any_image() {
    let mut seen = [0; 30];
    let (mut listed, mut unchanged, mut long) = (0, 0, 0);
    let random = (0..15_000).map(|k| random::any(11, k));
    for question in random.chain(real::fixed().iter().flat_map(|image| rooms(image))) {
        let mended = mend(&question.image, question.room, question.list_room);
        let [number, place, length, entries] = mended.numbers;
        seen[number as usize] += 1;
        assert_eq!((mended.out.len(), mended.list.len()), (question.room, question.list_room));
        if number != 0 {
            assert!(length == 0 && entries == 0 && (place == 0 || [19, 20].contains(&number)));
            assert!(mended.out.iter().chain(&mended.list).all(|byte| *byte == 0));
            continue;
        }
        let (out, rest) = mended.out.split_at(length as usize);
        let (list, more) = mended.list.split_at(entries as usize * 8);
        assert!(rest.iter().chain(more).all(|byte| *byte == 0));
        assert_eq!(numbers(out), [0, 0], "the result is one that E1 takes");
        only_listed_moved(&question.image, out, list);
        if numbers(&question.image) == [0, 0] {
            assert_eq!((out, entries), (&question.image[..], 0));
            unchanged += 1;
        }
        let again = mend(out, out.len(), 0);
        assert_eq!((again.numbers, &again.out[..]), ([0, 0, length, 0], out));
        listed += u32::from(entries > 0);
        long += u32::from(out.len() > 290_000);
    }
    assert!([0, 18, 19, 20, 26].iter().all(|n| seen[*n] > 100), "{seen:?}");
    assert!(listed > 2000 && unchanged > 1000 && long > 15, "{listed} {unchanged} {long}");
}

/// The source's own images: with a stray or a jump that wrapped they are refused, and are taken when they are mended; no jump of a long
/// try wraps.
#[test]
fn the_source_s_own_images() {
    let (mut refused, mut most) = (0, 0);
    for image in real::fixed() {
        let (room, list) = needs(image);
        let mended = mend(image, room, list).numbers;
        assert!(mended[0] == 0 && (mended[3] > 0) == (numbers(image)[0] == 20), "{mended:?}");
        refused += u32::from(mended[3] > 0);
        most = most.max(mended[3]);
    }
    assert!(refused >= 15 && most >= 4, "{refused} refused, {most} jumps in one");
}
