//! Copies the source with a short list of edits, each of which must match exactly as often as it says.
include!("../bridge/locate.rs");
include!("../bridge/continues.rs");

/// In the file, `old` stands `times` times and becomes `new`.
struct Edit(&'static str, usize, &'static str, &'static str);

const EDITS: [Edit; 16] = [
    // 7 and 8: the source panics
    Edit("compiler", 1, "panic!(\"Ran out of registers\")", "return crate::trace::refuse_or(7, 0)"),
    Edit("compiler", 1, "panic!(\"Too many upvalues\")", "return crate::trace::refuse_or(8, 0)"),
    // 9 and 10: the source prints and ends the process
    Edit(
        "compiler", 1,
        "pub fn compilation_error(&self, msg: RuntimeErr, token_data: Option<TokenData>) {",
        "pub fn compilation_error(&self, msg: RuntimeErr, token_data: Option<TokenData>) {\n        return crate::trace::compilation_error(msg.msg);",
    ),
    Edit(
        "compiler", 1,
        "(ERR_GLOBAL_ALREADY_DEFINED, Some(stmt.name.clone()));\n                unreachable!();",
        "(ERR_GLOBAL_ALREADY_DEFINED, Some(stmt.name.clone()));",
    ),
    Edit(
        "compiler", 1,
        "self.is_global_var(var_name.clone())",
        "self.is_global_var(var_name.clone()) || crate::trace::is_passed(9)",
    ),
    // 11: the source goes on; a loop is open while its body is lowered
    Edit("compiler", 3, "stmt.body.accept(self)", "crate::trace::in_loop(self, |c| stmt.body.accept(c))"),
    Edit("compiler", 1, "a: JMP_BREAK,", "a: crate::trace::inside_loop(self, JMP_BREAK),"),
    Edit("compiler", 1, "a: JMP_CONTINUE,", "a: crate::trace::inside_loop(self, JMP_CONTINUE),"),
    // 13, then 12: the source's sum overflows, then its unwrap panics
    Edit("compiler", 2, "b: chunk.result_register + 2,", "b: crate::trace::plus_two(chunk.result_register),"),
    Edit("compiler", 1, "b: val_chunk.result_register + 2,", "b: crate::trace::plus_two(val_chunk.result_register),"),
    Edit("compiler", 2, "chunk.instructions.last().unwrap().src.clone()", "crate::trace::last_mark(&chunk.instructions)"),
    // 14: the source goes on
    Edit("compiler", 1, "pub constants: Vec<Literal>,", "pub constants: crate::trace::Constants,"),
    // 16: the source goes on
    Edit(
        "compiler", 1,
        "pub fn enter_function(&mut self, name: String) {",
        "pub fn enter_function(&mut self, name: String) {\n        crate::trace::entering(self.contexts.len());",
    ),
    // 17, then 15: the source goes on, but for the negation of a loop of exactly 32,768
    Edit(
        "compiler", 1,
        "self.prototypes.push(FnPrototype {",
        "crate::trace::leaving(instructions.len(), self.prototypes.len());\n        self.prototypes.push(FnPrototype {",
    ),
    Edit(
        "compiler", 3,
        "-((body_chunk.instructions.len() + cond_chunk.instructions.len() + 2) as i16)",
        "crate::trace::negated((body_chunk.instructions.len() + cond_chunk.instructions.len() + 2) as i16)",
    ),
    // 02, visits: an elif is a node without a routine of its own; no step is taken at it
    Edit(
        "compiler", 1,
        "for e in &stmt.elifs {",
        "for e in &stmt.elifs {\n            let _visit = crate::trace::Visit::of(e.node);",
    ),
];

fn edited(name: &str, text: String) -> String {
    let mut text = match name {
        "expr" => numbered(&text, 16),
        "stmt" => numbered(&text, 14),
        "compiler" => with_continues(&guarded(&text, 29), in_mode_1),
        _ => text,
    };
    for Edit(file, times, old, new) in EDITS {
        if file == name {
            assert_eq!(text.matches(old).count(), times, "in {file}.rs: {old}");
            text = text.replace(old, new);
        }
    }
    text
}

/// One copy serves both modes.
fn in_mode_1(old: &str, new: &str) -> String {
    format!("if crate::trace::is_mode_1() {{ {new} }} else {{ {old} }}")
}

/// Each struct of the syntax tree gets the number of its node.
fn numbered(text: &str, times: usize) -> String {
    behind(text, times, |line| line.starts_with("pub struct ").then(|| "    pub node: usize,".into()))
}

/// Each visitor notes its node first, until it returns.
fn guarded(text: &str, times: usize) -> String {
    behind(text, times, |line| {
        let parameter = line.strip_prefix("    fn visit_")?.strip_suffix(" -> Chunk {")?;
        let name = parameter.split(", ").nth(1)?.split(':').next()?;
        Some(format!("        let _visit = crate::trace::Visit::of({name}.node);"))
    })
}

/// Puts a line behind each line for which `more` has one; there must be as many as `times`.
fn behind(text: &str, times: usize, more: impl Fn(&str) -> Option<String>) -> String {
    let (mut out, mut found) = (String::new(), 0);
    for line in text.lines() {
        out += line;
        out += "\n";
        if let Some(line) = more(line) {
            out += &(line + "\n");
            found += 1;
        }
    }
    assert_eq!(found, times, "lines to put something behind");
    out
}

fn main() {
    println!("cargo:rerun-if-changed=build.rs");
    write_copy(edited);
}
