//! Finds the rule of a file: rows of like fields and rows of like words become repeated patterns.
use super::rule::{Part, Rule};
use files::tree::{whole_fields, Field};

/// A rule that expands to the file.
pub fn rule_of(file: &[u8]) -> Rule {
    let (fields, rest) = whole_fields(file);
    let mut packer = Packer { parts: vec![], plain: vec![] };
    let mut at = 0;
    while at < fields.len() {
        match best_row(&fields[at..]) {
            Some((period, part)) => {
                at += period * part.times as usize;
                packer.row(part);
            }
            None => {
                packer.field(&fields[at]);
                at += 1;
            }
        }
    }
    packer.plain.extend(rest);
    packer.flush();
    Rule(packer.parts)
}

struct Packer {
    parts: Vec<Part>,
    plain: Vec<u8>,
}

/// A part costs this much more than the bytes it stands for.
const COST: usize = 16;

impl Packer {
    fn flush(&mut self) {
        for chunk in std::mem::take(&mut self.plain).chunks(60_000) {
            self.parts.push(Part { times: 1, pattern: chunk.to_vec(), steps: vec![] });
        }
    }

    fn row(&mut self, part: Part) {
        self.flush();
        self.parts.push(part);
    }

    /// A single field; rows of words within its payload are found too.
    fn field(&mut self, field: &Field) {
        self.plain.push(field.tag);
        self.plain.extend((field.payload.len() as u16).to_be_bytes());
        let words = field.words();
        let mut at = 0;
        while at < words.len() {
            let (times, step) = word_row(&words[at..]);
            if 2 * times > COST + 8 {
                let pattern = words[at].to_be_bytes().to_vec();
                let steps = if step == 0 { vec![] } else { vec![(0, step)] };
                self.row(Part { times: times as u32, pattern, steps });
                at += times;
            } else {
                self.plain.extend(words[at].to_be_bytes());
                at += 1;
            }
        }
        if field.payload.len() % 2 == 1 {
            self.plain.extend(field.payload.last());
        }
    }
}

/// How many words go on by the same step.
fn word_row(words: &[u16]) -> (usize, u16) {
    let Some(second) = words.get(1) else { return (1, 0) };
    let step = second.wrapping_sub(words[0]);
    let pairs = words.windows(2).take_while(|w| w[1].wrapping_sub(w[0]) == step).count();
    (pairs + 1, step)
}

/// The row from the first field on that saves most: its period in fields, and the part.
fn best_row(fields: &[Field]) -> Option<(usize, Part)> {
    let rows = (1..=3).filter_map(|period| Some((period, row(fields, period)?)));
    rows.max_by_key(|(_, part)| part.pattern.len() * (part.times as usize - 1))
}

/// A row of at least three groups of `period` fields, alike but for words that go up by fixed steps.
fn row(fields: &[Field], period: usize) -> Option<Part> {
    let groups: Vec<&[Field]> = fields.chunks_exact(period).collect();
    let steps = steps_between(groups.first()?, groups.get(1)?)?;
    let like = groups.windows(2).take_while(|g| steps_between(g[0], g[1]).as_ref() == Some(&steps)).count();
    let pattern: Vec<u8> = groups[0].iter().flat_map(bytes_of).collect();
    let saved = pattern.len() * like;
    let steps: Vec<(u16, u16)> = steps.into_iter().filter(|(_, step)| *step != 0).collect();
    (like >= 2 && saved > COST + 4 * steps.len() && pattern.len() < 60_000).then(|| Part {
        times: like as u32 + 1,
        pattern,
        steps,
    })
}

fn bytes_of(field: &Field) -> Vec<u8> {
    let mut bytes = vec![];
    files::tree::push_field(&mut bytes, field.tag, field.payload);
    bytes
}

/// Where each word of a group stands and by how much it grows to the next group, if the groups are alike.
fn steps_between(now: &[Field], next: &[Field]) -> Option<Vec<(u16, u16)>> {
    let mut steps = vec![];
    let mut offset = 0;
    for (a, b) in now.iter().zip(next) {
        if a.tag != b.tag || a.payload.len() != b.payload.len() || a.payload.len() % 2 == 1 {
            return None;
        }
        for (k, (x, y)) in a.words().into_iter().zip(b.words()).enumerate() {
            steps.push((u16::try_from(offset + 3 + 2 * k).ok()?, y.wrapping_sub(x)));
        }
        offset += 3 + a.payload.len();
    }
    Some(steps)
}
