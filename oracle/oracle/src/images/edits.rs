//! Small images, three of them wide too, each edited in every byte to every value, cut and stretched at every byte, with every field gone, doubled, moved or resized.
use super::build::*;
use super::width::widened;
use crate::trees::damage::{joined, loose};
use files::image::Constant;

pub fn all() -> Vec<Vec<u8>> {
    let mut edited = vec![];
    for base in bases() {
        bytes_changed(&base, &mut edited);
        bytes_moved(&base, &mut edited);
        fields_changed(&base, &mut edited);
        edited.push(base);
    }
    edited
}

/// Images that are taken, with every kind of field and of step among them.
pub fn bases() -> Vec<Vec<u8>> {
    let kinds = vec![Constant::Number(0x3FF0_0000_0000_0000), Constant::Text(3), Constant::Other(2)];
    let inner = prototype(2, vec![local(1), outer(0)], vec![ins("GetUpval", 0, 1, 0), ins("Return", 1, 2, 0), end()]);
    let making = vec![wide("Closure", 0, 0), wide("SetGlobal", 0, 1), wide("LoadK", 1, 2), end()];
    let calling = vec![ins("Test", 0, 0, 0), wide("Jmp", 0, 3), ins("Call", 0, 2, 3), wide("Jmp", 0, 0xFFFD), end()];
    let trying = vec![
        wide("RegisterTryCatch", 0, 3),
        ins("DeregisterTryCatch", 0, 0, 0),
        wide("Jmp", 0, 3),
        ins("DeregisterTryCatch", 0, 0, 0),
        wide("Jmp", 0, 1),
        end(),
        ins("Return", 0, 1, 0),
    ];
    let making = image(vec![inner, prototype(2, vec![local(0)], making)], kinds);
    let (empty, trying) = (alone(0, vec![end()]), alone(0, trying));
    vec![
        widened(&empty),
        widened(&making),
        widened(&trying),
        empty,
        making,
        alone(3, calling),
        trying,
        image(vec![bare(), bare(), prototype(1, vec![], vec![wide("Closure", 0, 1), end()])], texts(1)),
    ]
}

fn bytes_changed(base: &[u8], edited: &mut Vec<Vec<u8>>) {
    for at in 0..base.len() {
        for value in (0..=255).filter(|value| *value != base[at]) {
            let mut other = base.to_vec();
            other[at] = value;
            edited.push(other);
        }
    }
}

/// Cut, one byte gone, one byte doubled, one more.
fn bytes_moved(base: &[u8], edited: &mut Vec<Vec<u8>>) {
    for at in 0..base.len() {
        edited.push(base[..at].to_vec());
        edited.push([&base[..at], &base[at + 1..]].concat());
        edited.push([&base[..=at], &base[at..]].concat());
    }
    for tag in 0..=255 {
        edited.push([base, &[tag]].concat());
        edited.push([base, &[tag, 0, 0]].concat());
        edited.push([base, &[tag, 0, 2, 0, 0]].concat());
    }
}

fn fields_changed(base: &[u8], edited: &mut Vec<Vec<u8>>) {
    let fields = loose(base);
    let mut push = |change: &dyn Fn(&mut Vec<_>)| {
        let mut other = fields.clone();
        change(&mut other);
        edited.push(joined(&other));
    };
    for at in 0..fields.len() {
        push(&|all| {
            all.remove(at);
        });
        push(&|all| all.truncate(at));
        push(&|all| all[at].payload.push(0));
        push(&|all| {
            all[at].payload.pop();
        });
        push(&|all| all[at].payload.clear());
        for to in 0..=fields.len() {
            push(&|all| all.insert(to, fields[at].clone()));
        }
        for other in 0..at {
            push(&|all| all.swap(at, other));
        }
    }
}
