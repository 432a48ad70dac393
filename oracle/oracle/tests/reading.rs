//! The second reader against numbers and places that were written down by hand, and what the kinds of images reach.
use files::image::Image;
use files::opcodes::is_written;
use oracle::images::build::Edge;
use oracle::images::{by_hand, edits, fixed, random};
use oracle::reading::{numbers, read};
use oracle::{answer, questions};

#[test]
fn edges_by_hand() {
    let all: Vec<Edge> = by_hand();
    let wrong: Vec<String> = all
        .iter()
        .filter(|edge| numbers(&edge.image) != edge.due)
        .map(|edge| format!("{}: {:?} where {:?} is due", edge.name, numbers(&edge.image), edge.due))
        .collect();
    assert!(wrong.is_empty(), "{} of {}: {:#?}", wrong.len(), all.len(), &wrong[..wrong.len().min(20)]);
    assert!(all.len() > 3000, "{}", all.len());
    assert!(all.iter().filter(|edge| edge.due == [0, 0]).count() > 600);
}

#[test]
fn bases_are_taken_and_edits_reach_every_field() {
    for base in edits::bases() {
        assert_eq!(numbers(&base), [0, 0]);
        let fields = files::tree::fields(&base).expect("whole fields").len();
        assert!(fields >= 2);
    }
    let answers: Vec<[u64; 2]> = edits::all().iter().map(|image| numbers(image)).collect();
    assert!(answers.len() > 90_000, "{}", answers.len());
    for place in 0..=13 {
        assert!(answers.contains(&[19, place]) && answers.contains(&[20, place]), "place {place}");
    }
    assert!(answers.iter().filter(|answer| **answer == [0, 0]).count() > 5_000);
}

#[test]
fn random_images_reach_every_answer() {
    let mut seen = [0; 21];
    let mut opcodes = [false; 256];
    for k in 0..20_000 {
        match read(&random::any(3, k)) {
            Ok(image) => {
                seen[0] += 1;
                image
                    .prototypes
                    .iter()
                    .flat_map(|p| &p.instructions)
                    .for_each(|i| opcodes[usize::from(i.opcode)] = true);
            }
            Err(refusal) => seen[usize::from(refusal.number)] += 1,
        }
    }
    assert!(seen[0] > 5_000 && seen[19] > 500 && seen[20] > 5_000, "{seen:?}");
    assert!((0..=255).all(|opcode: u8| opcodes[usize::from(opcode)] == is_written(opcode)));
    assert_eq!(opcodes.iter().filter(|is| **is).count(), 38);
}

#[test]
fn what_is_taken_is_written_back() {
    let lowered = (0..500).filter_map(|k| answer::image(&questions::small(9, k, k % 2).tree, k % 2, u64::MAX).ok());
    let mut taken = 0;
    for image in lowered {
        assert_eq!(read(&image).expect("what the lowering writes is taken").to_bytes(), image);
        taken += 1;
    }
    assert!(taken > 200);
    for image in fixed().iter().filter(|image| image.len() < 10_000) {
        if let Ok(read) = read(image) {
            assert_eq!((&read.to_bytes(), Image::from_bytes(image)), (image, Ok(read)));
        }
    }
}
