//! Every rule by its cases, one inside and one outside.
use super::build::*;
use files::image::{Instruction, Prototype};
use files::opcodes::{is_written, meets, Meets};

pub fn all() -> Vec<Edge> {
    let mut edges = vec![];
    frames(&mut edges);
    order(&mut edges);
    opcodes(&mut edges);
    steps(&mut edges);
    calls(&mut edges);
    closures(&mut edges);
    closed_captures(&mut edges);
    let_pass(&mut edges);
    first_of_two(&mut edges);
    edges
}

/// 19 comes before everything that 20 could say.
fn frames(edges: &mut Vec<Edge>) {
    let whole = alone(0, vec![end()]);
    edges.push(edge("no field", vec![], [19, 0]));
    edges.push(edge("the empty program", whole.clone(), TAKEN));
    let wrong = field(0x99, &[1, 2, 3]);
    for cut in 1..wrong.len() {
        edges.push(edge("a field of no tag, cut", wrong[..cut].to_vec(), [19, 0]));
        edges.push(edge("one behind a field of no tag", [&wrong, &wrong[..cut]].concat(), [19, 1]));
        edges.push(edge("one behind an image", [&whole, &wrong[..cut]].concat(), [19, 2]));
    }
    let three = [wrong.repeat(3), vec![0x41, 255, 255, 0]].concat();
    edges.push(edge("a payload of which one byte is there", three, [19, 3]));
}

/// Tags, sizes and the form of a capture, in every place.
fn order(edges: &mut Vec<Edge>) {
    let head = |captures, instructions| header([3, 2, 5, captures, instructions]);
    let (capture, code) = (field(0x42, &[0, 9]), field(0x43, &[20, 0, 0, 0, 0, 0]));
    let constants = [field(0x44, &[0; 8]), field(0x45, &[0; 2]), field(0x46, &[0; 2])];
    let small = |parts: &[&Vec<u8>]| parts.iter().flat_map(|p| p.iter().copied()).collect::<Vec<u8>>();
    let mut say = |name: &str, parts: &[&Vec<u8>], due| edges.push(edge(name, small(parts), due));
    let (h, h1) = (head(0, 1), head(1, 1));
    say("one of each", &[&h1, &capture, &code, &h, &code, &constants[0], &constants[1], &constants[2]], TAKEN);
    for constant in &constants {
        say("a constant first", &[constant, &h, &code], [20, 0]);
        say("a constant in place of a capture", &[&h1, constant], [20, 1]);
        say("a constant in place of an instruction", &[&h, constant], [20, 1]);
        say("a header behind a constant", &[&h, &code, constant, &h, &code], [20, 3]);
        say("an instruction behind a constant", &[&h, &code, constant, &code], [20, 3]);
    }
    say("an instruction in place of a capture", &[&h1, &code], [20, 1]);
    say("a capture in place of an instruction", &[&h, &capture], [20, 1]);
    say("a header in place of a capture", &[&h1, &h], [20, 1]);
    say("a header in place of an instruction", &[&h, &h], [20, 1]);
    say("captures behind the instructions", &[&h1, &code, &capture], [20, 1]);
    say("nothing behind the header", &[&h], [20, 1]);
    for first in [2, 3, 128, 255] {
        say("a capture that is neither", &[&h1, &field(0x42, &[first, 0]), &code], [20, 1]);
    }
    for tag in 0..=255 {
        let due = |tags: &[u8], place| rule_unless(tags.contains(&tag), place);
        say("a tag at the front", &[&field(tag, &[0, 0, 0, 0, 0, 0, 0, 0, 0, 1]), &code], due(&[0x41], 0));
        say("a tag for a capture", &[&h1, &field(tag, &[0, 0]), &code], due(&[0x42], 1));
        say("a tag for an instruction", &[&h, &field(tag, &[20, 0, 0, 0, 0, 0])], due(&[0x43], 1));
        say("a tag with eight bytes behind the code", &[&h, &code, &field(tag, &[0; 8])], due(&[0x44], 2));
        say("a tag with two bytes behind the code", &[&h, &code, &field(tag, &[0; 2])], due(&[0x45, 0x46], 2));
        say("an instruction with eight bytes", &[&h, &field(tag, &[20, 0, 0, 0, 0, 0, 0, 0])], due(&[0x47], 1));
    }
    for (tag, size, before) in [(0x41, 10, vec![]), (0x42, 2, h1.clone()), (0x43, 6, h.clone())] {
        for wrong in [0, 1, size - 1, size + 1, size + 2, 255, 256, 65_535] {
            let place = u64::from(!before.is_empty());
            say("a size", &[&before, &field(tag, &vec![0; wrong])], [20, place]);
        }
    }
    for (tag, size) in [(0x44, 8), (0x45, 2), (0x46, 2), (0x48, 8)] {
        for wrong in [0, 1, size - 1, size + 1, 65_535] {
            say("a constant's size", &[&h, &code, &field(tag, &vec![0; wrong])], [20, 2]);
        }
    }
}

/// Each of 256 where every operand is inside.
fn opcodes(edges: &mut Vec<Edge>) {
    for opcode in 0..=255 {
        for registers in [0, 2, 255] {
            let b = u8::from(opcode == 19); // a Call has itself
            let code = vec![Instruction { opcode, ..ins("Move", 0, b, 1) }, end(), end()];
            let main = prototype(registers, vec![local(0), outer(0)], code);
            let none = matches!(meets(opcode), Meets::None | Meets::Return);
            let due = rule_unless(is_written(opcode) && (registers > 0 || none), 7);
            edges.push(edge(format!("opcode {opcode}"), image(vec![bare(), bare(), main], texts(2)), due));
        }
    }
}

/// Steps that stay inside or leave by one, at both ends.
fn steps(edges: &mut Vec<Edge>) {
    let returns = |n: usize| vec![end(); n];
    for n in [1, 2, 3, 300] {
        for at in [0, 1, n / 2, n - 1].into_iter().filter(|at| *at < n) {
            let mut say = |i: Instruction, right: bool| {
                let mut code = returns(n);
                code[at] = i;
                let name = format!("{i:?} at {at} of {n}");
                edges.push(edge(name, alone(256, code), rule_unless(right, 1 + at)));
            };
            for to in [-2, -1, 0, 1, n as i32 - 1, n as i32, n as i32 + 1] {
                let offset = (to - at as i32) as i16;
                let inside = 0 <= to && to < n as i32;
                for a in [0, 1, 2, 3, 255] {
                    say(wide("Jmp", a, usize::from(offset as u16)), inside && a == 0);
                }
                let next = at + 1 < n;
                if to >= at as i32 {
                    say(wide("RegisterTryCatch", 7, offset as usize), inside && next);
                }
            }
            say(wide("Jmp", 0, 0x7FFF), false);
            say(wide("Jmp", 0, 0x8000), false);
            say(wide("RegisterTryCatch", 0, 65_535), false);
            say(ins("Test", 0, 0, 0), at + 2 < n);
            say(ins("Test", 0, 0, 255), at + 2 < n);
            for name in ["Move", "LoadNil", "DeregisterTryCatch", "GetExcept", "GetCurrentFunc"] {
                say(ins(name, 0, 0, 0), at + 1 < n);
            }
            say(ins("Return", 255, 255, 255), true);
        }
    }
    // the longest, with jumps as far as they go
    let mut code = returns(65_535);
    code[0] = wide("Jmp", 0, 0x7FFF);
    code[32_768] = wide("Jmp", 0, 0x8000);
    code[1] = wide("RegisterTryCatch", 0, 65_533);
    edges.push(edge("far jumps", alone(0, code.clone()), TAKEN));
    code[2] = wide("RegisterTryCatch", 0, 65_533);
    edges.push(edge("a handler one too far", alone(0, code.clone()), [20, 3]));
    code[2] = end();
    code[32_767] = wide("Jmp", 0, 0x8000);
    edges.push(edge("a jump one too far back", alone(0, code), [20, 32_768]));
}

/// b and c of a Call.
fn calls(edges: &mut Vec<Edge>) {
    for b in [0, 1, 2, 3] {
        for c in [0, 1, 2, 3] {
            for registers in [0, 1, 2, 3, 255] {
                let right = b > 0 && c > 0 && u16::from(b.max(c)) <= registers;
                let code = vec![ins("Call", 0, b, c), end()];
                edges.push(edge(
                    format!("Call 0 {b} {c} of {registers}"),
                    alone(registers, code),
                    rule_unless(right, 1),
                ));
            }
        }
    }
}

/// An earlier prototype alone: not itself, not a later one, not main from within.
fn closures(edges: &mut Vec<Edge>) {
    for n in [1, 2, 3, 256] {
        for own in [0, 1, n / 2, n - 1].into_iter().filter(|own| *own < n) {
            for made in [0, 1, own.max(1) - 1, own, own + 1, n - 1, n, 256, 257, 65_535] {
                let mut all: Vec<Prototype> = vec![bare(); n];
                all[own] = prototype(1, vec![], vec![wide("Closure", 0, made), end()]);
                let due = rule_unless(made < own, 2 * own + 1);
                edges.push(edge(format!("a Closure of {made} in {own} of {n}"), image(all, vec![]), due));
            }
        }
    }
}

/// Told at the Closure, and only where there is one.
fn closed_captures(edges: &mut Vec<Edge>) {
    for count in [0, 1, 2, 255, 256, 300] {
        for index in [0, 1, 2, 253, 254, 255] {
            for is_local in [true, false] {
                let captured = if is_local { local(index) } else { outer(index) };
                let inner = prototype(0, vec![local(0), captured, local(0)], vec![end()]);
                // of the other kind there are enough
                let (registers, captures) = if is_local { (count.max(1), 300) } else { (300, count) };
                let closing = vec![wide("Closure", 0, 0), end()];
                let main = prototype(registers, vec![outer(255); captures.into()], closing);
                let right = u16::from(index) < if is_local { registers } else { captures };
                let due = rule_unless(right, 6 + usize::from(captures));
                edges.push(edge(
                    format!("a Closure over {captured:?} of {count}"),
                    image(vec![inner.clone(), main], vec![]),
                    due,
                ));
                edges.push(edge(
                    format!("{captured:?} that nothing closes"),
                    image(vec![inner, bare()], vec![]),
                    TAKEN,
                ));
            }
        }
    }
}

/// The one Return that is let pass, and each clause broken alone.
fn let_pass(edges: &mut Vec<Edge>) {
    let value = |a, b| ins("Return", a, b, 0);
    let mut say =
        |name: &str, registers, code: Vec<Instruction>, due| edges.push(edge(name, alone(registers, code), due));
    for b in [1, 2, 3, 255] {
        say("behind a Return", 0, vec![end(), value(0, b)], TAKEN);
        say("the first", 0, vec![value(0, b)], [20, 1]);
        say("the first of two", 0, vec![value(0, b), end()], [20, 1]);
        say("entered by the next", 0, vec![ins("DeregisterTryCatch", 0, 0, 0), value(0, b)], [20, 2]);
        say("entered by a Jmp", 0, vec![wide("Jmp", 0, 1), value(0, b)], [20, 2]);
        say("entered by a Jmp from far", 0, vec![wide("Jmp", 0, 2), end(), value(0, b)], [20, 3]);
        say("entered by a Jmp from behind", 0, vec![end(), value(0, b), wide("Jmp", 0, 0xFFFF)], [20, 2]);
        say("entered by a Jmp that nothing reaches", 0, vec![end(), wide("Jmp", 0, 1), value(0, b)], [20, 3]);
        say("passed over by a Jmp", 0, vec![wide("Jmp", 0, 2), value(0, b), end()], TAKEN);
        say("entered by a handler", 0, vec![wide("RegisterTryCatch", 0, 2), end(), value(0, b)], [20, 3]);
        say("behind a RegisterTryCatch", 0, vec![wide("RegisterTryCatch", 0, 2), value(0, b), end()], [20, 2]);
        say("passed over by a handler", 0, vec![wide("RegisterTryCatch", 0, 3), end(), value(0, b), end()], TAKEN);
        // a Test meets a register, so the Test itself is told first
        say("entered by a Test's skip", 0, vec![ins("Test", 0, 0, 0), end(), value(0, b)], [20, 1]);
        say("register 1", 0, vec![end(), value(1, b)], [20, 2]);
        say("register 255", 0, vec![end(), value(255, b)], [20, 2]);
        say("register 0 with registers", 1, vec![end(), value(0, b)], TAKEN);
        say("register 1 with one register", 1, vec![end(), value(1, b)], [20, 2]);
        say("the first, with registers", 1, vec![value(0, b)], TAKEN);
        say("two that are let pass", 0, vec![end(), value(0, b), value(0, b)], TAKEN);
        say("a jump to itself from itself", 0, vec![end(), wide("Jmp", 0, 0), value(0, b)], TAKEN);
        // a wrong Jmp enters its target all the same, but is told first unless it stands behind
        say("entered by a wrong Jmp from behind", 0, vec![end(), value(0, b), wide("Jmp", 1, 0xFFFF)], [20, 2]);
        say("a wrong Jmp behind", 0, vec![end(), value(0, b), wide("Jmp", 1, 0)], [20, 3]);
    }
    say("without a value, the first", 0, vec![value(0, 0)], TAKEN);
    say("without a value, of register 255", 0, vec![value(255, 0)], TAKEN);
    let second = prototype(0, vec![], vec![end(), value(0, 1)]);
    edges.push(edge("in the second prototype", image(vec![bare(), second.clone(), second], vec![]), TAKEN));
    let first = prototype(0, vec![], vec![value(0, 1)]);
    edges.push(edge("the first of the second prototype", image(vec![bare(), first], vec![]), [20, 3]));
}

/// Order before facts, the lowest fact before the others.
fn first_of_two(edges: &mut Vec<Edge>) {
    let bad = || ins("SetUpval", 0, 0, 0);
    edges.push(edge("two faults", alone(9, vec![bad(), end(), bad(), end()]), [20, 1]));
    edges.push(edge("the second fault alone", alone(9, vec![end(), end(), bad(), end()]), [20, 3]));
    let behind = |more: &[u8]| [alone(9, vec![bad(), end()]), more.to_vec()].concat();
    edges.push(edge("a fault, then a field of no tag", behind(&field(0x99, &[])), [20, 3]));
    edges.push(edge("a fault, then the end too soon", behind(&header([0, 0, 0, 0, 1])), [20, 4]));
    edges.push(edge("a fault, then a cut", behind(&[0x45]), [19, 3]));
    let mut many = image(vec![prototype(0, vec![], vec![bad()])], texts(1025));
    edges.push(edge("a fault, then a constant too many", many.clone(), [20, 1026]));
    many.extend([0x45, 0, 2, 0]);
    edges.push(edge("a fault, a constant too many, a cut", many, [19, 1027]));
    let inner = prototype(0, vec![local(5)], vec![bad()]);
    let main = prototype(1, vec![], vec![wide("Closure", 0, 0), end()]);
    edges.push(edge("a fault before a Closure's", image(vec![inner, main], vec![]), [20, 2]));
}
