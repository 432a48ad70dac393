//! The committed sample: made again byte for byte, and of every kind and number.
use files::tree::fields;
use oracle::answer::answer;
use oracle::packed::{checksum, read, write, Packed};
use oracle::sample::{sample, SEED};

fn committed() -> Vec<u8> {
    let path = concat!(env!("CARGO_MANIFEST_DIR"), "/../../crates/lower_replay/stdin");
    std::fs::read(path).expect("crates/lower_replay/stdin")
}

#[test]
fn the_sample_is_made_again() {
    assert!(write(&sample(SEED)) == committed(), "oracle sample crates/lower_replay/stdin makes another file");
    // the room of the program that replays it
    assert!(committed().len() < 1_000_000);
}

#[test]
fn the_sample_is_of_every_kind() {
    let cases = read(&committed()).expect("the packed layout");
    assert!(cases.len() >= 300);
    let (mut numbers, mut tags) = ([[0; 30]; 2], [0; 256]);
    for case in &cases {
        numbers[usize::from(case.mode == 1)][case.told[0] as usize] += 1;
        if case.told[0] == 0 {
            fields(&case.rule.expand()).unwrap().iter().for_each(|f| tags[usize::from(f.tag)] += 1);
        }
    }
    let [other, one] = numbers;
    assert!((0..=18).chain([21]).all(|n| other[n] > 0) && one[27] > 3, "by number {other:?}");
    assert!(one[0] > 100 && one[21] == 0 && other[21] == 40, "by number in mode 1 {one:?}");
    let listed = (0x01..=0x09).chain(0x10..=0x1E).chain([0x3E]);
    assert!(listed.clone().all(|tag| tags[tag] > 0), "by tag {tags:?}");
}

/// A replayer needs nothing but the packed file: expand, ask, compare.
#[test]
fn the_sample_replays() {
    for case in read(&committed()).unwrap() {
        let Packed { mode, rule, tree_length, work, room, told, checksum: sum, image } = case;
        let tree = rule.expand();
        assert_eq!(tree.len() as u32, tree_length);
        let (got, bytes) = answer(&tree, mode, work.into(), room.into());
        assert_eq!(got.numbers()[..3], told.map(u64::from));
        assert_eq!(checksum(&bytes), sum);
        assert!(image.is_empty() || image == bytes);
    }
}
