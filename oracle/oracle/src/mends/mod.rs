//! Images to mend: what the unchanged source leaves where the port refuses, images with jumps hurt, and others; at every limit of what is lent.
pub mod edges;
pub mod random;
pub mod real;

use crate::images;
use crate::mending::mend;
use crate::rng::Rng;

/// An image, and how many bytes of output and of list are lent.
#[derive(Clone, Debug)]
pub struct Question {
    pub image: Vec<u8>,
    pub room: usize,
    pub list_room: usize,
}

/// How many bytes a call needs: of output, and of list, whose entries are shorter than instructions.
pub fn needs(image: &[u8]) -> (usize, usize) {
    let [number, _, length, entries] = mend(image, image.len(), image.len()).numbers;
    if number == 0 {
        (length as usize, entries as usize * 8)
    } else {
        (image.len(), 8)
    }
}

/// Exactly as much as is needed, one byte less of either or both, a whole entry less, nothing, and more.
pub fn rooms(image: &[u8]) -> Vec<Question> {
    let (room, list) = needs(image);
    let lent = |room, list_room| Question { image: image.to_vec(), room, list_room };
    vec![
        lent(room, list),
        lent(room - usize::from(room > 0), list),
        lent(room, list - usize::from(list > 0)),
        lent(room, list.saturating_sub(8)),
        lent(room - usize::from(room > 0), list - usize::from(list > 0)),
        lent(0, list),
        lent(room, 0),
        lent(room + 33, list + 21),
    ]
}

/// Everything that is the same in every run: by hand and of the source with all rooms, the reader's images by hand with enough.
pub fn fixed() -> Vec<Question> {
    let by_hand = edges::all().into_iter().map(|edge| edge.image);
    let read = images::edges::all().into_iter().map(|edge| edge.image);
    // of a row of three or four like ones, one is asked wide too
    let both = read.enumerate().flat_map(|(k, image)| match k % 4 {
        0 => vec![images::width::widened(&image), image],
        _ => vec![image],
    });
    let widths = images::width::edges().into_iter().map(|edge| edge.image);
    let small = both.chain(widths).filter(|image| image.len() < 60_000);
    let real = real::fixed().iter().cloned();
    let mut all: Vec<Question> = by_hand.chain(real).flat_map(|image| rooms(&image)).collect();
    all.extend(small.map(|image| {
        let (room, list_room) = needs(&image);
        Question { image, room, list_room }
    }));
    all
}

/// Rooms of a random question: mostly enough.
pub fn lent(rng: &mut Rng, image: Vec<u8>) -> Question {
    let mut all = rooms(&image);
    let which = if rng.chance(500) { *rng.pick(&[0, all.len() - 1]) } else { rng.below(all.len()) };
    all.swap_remove(which)
}
