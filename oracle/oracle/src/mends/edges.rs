//! Images by hand, with number and place, and the entries that are due: prototype, index, and the four bytes.
use crate::images::build::*;
use crate::images::width::widened;
use files::image::Instruction;
use files::opcodes::opcode;

pub struct Edge {
    pub name: String,
    pub image: Vec<u8>,
    pub due: Result<Vec<u8>, [u64; 2]>,
}

const JMP: u8 = 3;

pub fn all() -> Vec<Edge> {
    let mut edges = narrow();
    let wide: Vec<Edge> = edges.iter().filter_map(made_wide).collect();
    edges.extend(wide);
    widths(&mut edges);
    edges
}

/// The same fields with marks of four bytes, where there is an instruction: the same entries, number and place are due.
fn made_wide(narrow: &Edge) -> Option<Edge> {
    let image = widened(&narrow.image);
    let name = format!("wide: {}", narrow.name);
    (image != narrow.image).then(|| Edge { name, image, due: narrow.due.clone() })
}

/// Jumps of both widths, which no image has, and marks of four bytes that stay.
fn widths(edges: &mut Vec<Edge>) {
    let wide = |code: [u8; 4], mark: u32| field(0x47, &[code, mark.to_be_bytes()].concat());
    let (stray, end) = (wide([JMP, 1, 0, 0], 0x0001_FFFF), wide([20, 0, 0, 0], u32::MAX));
    let narrow = field(0x43, &[JMP, 1, 0, 0, 0, 7]);
    let head = header([65_535, 0, 0, 0, 2]);
    let mut say = |name: &str, parts: &[&[u8]], due| edges.push(Edge { name: name.into(), image: parts.concat(), due });
    say("a wide mark", &[&head, &stray, &end], Ok(vec![0, 0, 0, 0, JMP, 1, 0, 0]));
    say("a wide stray, then a narrow one", &[&head, &stray, &narrow], Err([20, 2]));
    say("a narrow stray, then a wide one", &[&head, &narrow, &stray], Err([20, 2]));
}

fn narrow() -> Vec<Edge> {
    let mut edges = vec![];
    jumps(&mut edges);
    let mut say = |name: &str, image: Vec<u8>, due| edges.push(Edge { name: name.into(), image, due });
    say("no bytes", vec![], Err([19, 0]));
    say("the empty program", alone(0, vec![end()]), Ok(vec![]));
    let stray = ins("Jmp", 1, 0, 0);
    let whole = alone(0, vec![stray, end()]);
    say("a cut image", whole[..whole.len() - 1].to_vec(), Err([19, 2]));
    say("a field behind it", [whole.clone(), field(0x43, &[20, 0, 0, 0, 0, 0])].concat(), Err([20, 3]));
    say("order before facts", [alone(0, vec![ins("Subi", 0, 0, 0), stray]), field(0x99, &[])].concat(), Err([20, 3]));
    // what else is broken is told, at the lowest, and a replaced jump never is
    say("a fault behind a stray", alone(0, vec![stray, ins("LoadNil", 0, 0, 0), end()]), Err([20, 2]));
    say("a fault before a stray", alone(0, vec![ins("Subi", 0, 0, 0), stray]), Err([20, 1]));
    // a Return of register 0 without registers stays where only replaced jumps entered it
    let entered = |to_it: Instruction| alone(0, vec![to_it, end(), ins("Return", 0, 1, 0)]);
    say("entered by a stray alone", entered(ins("Jmp", 1, 0, 2)), Ok(vec![0, 0, 0, 0, JMP, 1, 0, 2]));
    say("entered by a jump", entered(wide("Jmp", 0, 2)), Err([20, 3]));
    // the place that a jump enters is not its own
    let next = alone(0, vec![ins("Jmp", 2, 0, 1), ins("Return", 0, 1, 0)]);
    say("the one behind a stray", next, Ok(vec![0, 0, 0, 0, JMP, 2, 0, 1]));
    let marked = Instruction { mark: Some(0x1234), ..ins("Jmp", 0, 0x7F, 0xFF) };
    say("a mark", alone(0, vec![marked]), Ok(vec![0, 0, 0, 0, JMP, 0, 0x7F, 0xFF]));
    let many = image(
        vec![bare(), prototype(0, vec![], vec![stray, end()]), prototype(0, vec![], vec![end(), stray])],
        texts(3),
    );
    say("two prototypes", many, Ok(vec![0, 1, 0, 0, JMP, 1, 0, 0, 0, 2, 0, 1, JMP, 1, 0, 0]));
    let row = alone(0, vec![stray; 300]);
    let entries = (0..300u16).flat_map(|at| [[0, 0], at.to_be_bytes(), [JMP, 1], [0, 0]].concat()).collect();
    say("300 strays", row, Ok(entries));
    far(&mut edges);
    edges
}

/// Each a with targets at both ends and beyond them.
fn jumps(edges: &mut Vec<Edge>) {
    for n in [1, 2, 5] {
        for at in 0..n {
            for to in [-2, -1, 0, 1, n - 1, n, n + 1, 30_000, -30_000] {
                for a in [0, 1, 2, 3, 255] {
                    let jump = wide("Jmp", a, ((to - at) as i16 as u16).into());
                    let mut code = vec![end(); n as usize];
                    code[at as usize] = jump;
                    let inside = 0 <= to && to < n;
                    let due = match a {
                        0 if inside => Ok(vec![]),
                        3 | 255 if inside => Err([20, 1 + at as u64]),
                        _ => Ok(vec![0, 0, 0, at as u8, jump.opcode, a, jump.b, jump.c]),
                    };
                    let name = format!("a Jmp of {a} at {at} of {n} to {to}");
                    edges.push(Edge { name, image: alone(0, code), due });
                }
            }
        }
    }
}

/// The longest prototype with jumps as far as they go; one that wrapped to a place inside stays.
fn far(edges: &mut Vec<Edge>) {
    let n = 65_535;
    let mut code = vec![end(); n];
    code[0] = wide("Jmp", 0, 0x7FFF);
    code[32_767] = wide("Jmp", 0, 0x8000); // one before the first
    code[32_768] = wide("Jmp", 0, 0x8000);
    code[32_769] = wide("Jmp", 0, 0x7FFF); // beyond the last by two
    code[65_534] = wide("Jmp", 0, 1);
    code[40_000] = wide("Jmp", 0, 40_000); // meant ahead, and leads back to 14,464
    let entry = |at: u16, b: u8, c: u8| [[0, 0], at.to_be_bytes(), [opcode("Jmp"), 0], [b, c]].concat();
    let due = [entry(32_767, 0x80, 0), entry(32_769, 0x7F, 0xFF), entry(65_534, 0, 1)].concat();
    edges.push(Edge { name: "the longest prototype".into(), image: alone(0, code), due: Ok(due) });
}
