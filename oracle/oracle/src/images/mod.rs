//! Images to ask about: built by hand at the rules' limits, edited byte by byte and field by field, at random, and damaged.
pub mod build;
pub mod costly;
pub mod counts;
pub mod edges;
pub mod edits;
pub mod random;
pub mod width;

/// Those with number and place written down by hand, narrow and with the same due of them wide, and those of the width itself.
pub fn by_hand() -> Vec<build::Edge> {
    let mut all: Vec<build::Edge> = edges::all().into_iter().chain(counts::all()).collect();
    let wide: Vec<build::Edge> = all.iter().filter_map(made_wide).collect();
    all.extend(wide);
    all.extend(width::edges());
    all
}

/// The same fields with marks of four bytes, where there is an instruction: the same number and place are due.
fn made_wide(narrow: &build::Edge) -> Option<build::Edge> {
    let image = width::widened(&narrow.image);
    (image != narrow.image).then(|| build::edge(format!("wide: {}", narrow.name), image, narrow.due))
}

/// Everything that is the same in every run.
pub fn fixed() -> Vec<Vec<u8>> {
    by_hand().into_iter().map(|edge| edge.image).chain(edits::all()).collect()
}
