//! Every count at its limit and beside it.
use super::build::*;
use files::image::Constant;

const NEAR: [u16; 8] = [0, 1, 2, 254, 255, 256, 257, 65_535];

pub fn all() -> Vec<Edge> {
    let mut edges = vec![];
    prototypes(&mut edges);
    constants(&mut edges);
    instructions(&mut edges);
    registers(&mut edges);
    captures(&mut edges);
    named_constants(&mut edges);
    edges
}

/// 1 to 256; the header of the 257th is field 512.
fn prototypes(edges: &mut Vec<Edge>) {
    for n in [1, 2, 255, 256, 257, 258, 300] {
        let due = rule_unless(n <= 256, 512);
        edges.push(edge(format!("{n} prototypes"), image(vec![bare(); n], vec![]), due));
        edges.push(edge(format!("{n} prototypes and a constant"), image(vec![bare(); n], texts(1)), due));
    }
}

/// At most 1,024; the 1,025th behind two fields is field 1,026.
fn constants(edges: &mut Vec<Edge>) {
    for n in [0, 1, 2, 255, 256, 1023, 1024, 1025, 1026, 2000] {
        for (kind, constant) in
            [("numbers", Constant::Number(1)), ("texts", Constant::Text(65_535)), ("others", Constant::Other(0))]
        {
            let due = rule_unless(n <= 1024, 1026);
            edges.push(edge(format!("{n} {kind}"), image(vec![bare()], vec![constant; n]), due));
        }
    }
}

/// What the header says against what is there, with and without something behind it.
fn instructions(edges: &mut Vec<Edge>) {
    let one = field(0x43, &[20, 0, 0, 0, 255, 255]);
    let constant = field(0x45, &[0, 7]);
    for said in [0, 1, 2, 3, 255, 256, 32_767, 32_768, 65_534, 65_535] {
        for there in [said.max(1) - 1, said, said + 1] {
            let whole = [header([65_535, 0, 0, 0, said as u16]), one.repeat(there)].concat();
            // 0 is told at the header, one missing at what stands in its place, one more at itself
            let due = if said == 0 { [20, 0] } else { rule_unless(there == said, 1 + said.min(there)) };
            edges.push(edge(format!("{there} instructions where {said} are said"), whole.clone(), due));
            let more = [whole, constant.clone()].concat();
            edges.push(edge(format!("{there} instructions where {said} are said, and a constant"), more, due));
        }
    }
    for said in [1, 2, 65_535] {
        for there in [0, 1, said - 1, said, said + 1] {
            let parts = [header([65_535, 0, 0, said as u16, 1]), field(0x42, &[1, 0]).repeat(there), one.clone()];
            let due = rule_unless(there == said, 1 + there.min(said));
            edges.push(edge(format!("{there} captures where {said} are said"), parts.concat(), due));
        }
    }
    edges.push(edge("captures due at the end", header([0, 0, 0, 2, 1]), [20, 1]));
}

/// A register is below the count, and meets the last one that an operand can name.
fn registers(edges: &mut Vec<Edge>) {
    for count in NEAR {
        for register in [0, 1, 253, 254, 255] {
            for (a, b, c) in [(register, 0, 0), (0, register, 0), (0, 0, register)] {
                let right = u16::from(register) < count && count > 0;
                let name = format!("Add {a} {b} {c} with {count} registers");
                edges.push(edge(name, alone(count, vec![ins("Add", a, b, c), end()]), rule_unless(right, 1)));
            }
        }
    }
    // the function, its b - 1 arguments, and the register before c
    for (a, b, c, needs) in
        [(255, 255, 255, 510), (255, 255, 1, 510), (255, 1, 1, 256), (0, 1, 255, 255), (0, 255, 1, 255)]
    {
        for count in [needs - 1, needs, needs + 1, 65_535] {
            let code = vec![ins("Call", a, b, c), end()];
            let due = rule_unless(count >= needs, 1);
            edges.push(edge(format!("Call {a} {b} {c} with {count} registers"), alone(count, code), due));
        }
    }
}

/// A capture is below the count.
fn captures(edges: &mut Vec<Edge>) {
    for count in NEAR {
        for capture in [0, 1, 253, 254, 255] {
            let code = vec![ins("GetUpval", 0, capture, 0), end()];
            let bytes = image(vec![prototype(1, vec![outer(9); count.into()], code)], vec![]);
            let due = rule_unless(u16::from(capture) < count, 1 + usize::from(count));
            edges.push(edge(format!("GetUpval of {capture} with {count} captures"), bytes, due));
        }
    }
}

/// A constant is below the count, and a text where a name is due.
fn named_constants(edges: &mut Vec<Edge>) {
    for name in ["LoadK", "GetGlobal", "SetGlobal", "GetBuiltin"] {
        for count in [0, 1, 2, 255, 256, 257, 1023, 1024] {
            for bx in [0, 1, 2, 254, 255, 256, 257, 511, 1022, 1023, 1024, 65_535] {
                let main = prototype(1, vec![], vec![wide(name, 0, bx), end()]);
                let due = rule_unless(bx < count, 1);
                edges.push(edge(format!("{name} of {bx} with {count} texts"), image(vec![main], texts(count)), due));
            }
        }
        let three = vec![Constant::Number(0), Constant::Text(65_535), Constant::Other(0)];
        for bx in 0..=3 {
            let main = prototype(1, vec![], vec![wide(name, 0, bx), end()]);
            let due = rule_unless(bx == 1 || name == "LoadK" && bx < 3, 1);
            edges.push(edge(format!("{name} of {bx} with each kind"), image(vec![main], three.clone()), due));
        }
    }
}
