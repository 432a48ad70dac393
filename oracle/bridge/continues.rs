// Part of two build scripts: where continue goes in mode 1 of document 02, as an edit of the source's text.

/// A for loop: the routine that patches its jumps, the routine behind it, and what mode 1 has for `BACK` in between.
struct Continue(&'static str, &'static str, &'static str);

const CONTINUES: [Continue; 2] = [
    // the instruction behind the body: the first of the increment, which has the backward Jmp behind it
    Continue(
        "fn visit_classic_for_stmt",
        "fn visit_enhanced_for_stmt",
        "(chunk_size - 1 - inc_chunk.instructions.len() - i) as i64",
    ),
    // the counter's Addi, which has the backward Jmp behind it
    Continue("fn visit_enhanced_for_stmt", "fn visit_let_stmt", "(chunk_size - 2 - i) as i64"),
];

/// The offset to the loop's first instruction, which a continue gets in the source: once in each loop, the while among them.
const BACK: &str = "-(i as i64)";

/// The text of compiler.rs with `edit(old, new)` for `BACK` in both for loops.
fn with_continues(text: &str, edit: impl Fn(&str, &str) -> String) -> String {
    assert_eq!(text.matches(BACK).count(), 3, "in compiler.rs: {BACK}");
    let mut text = text.to_string();
    for Continue(from, to, new) in CONTINUES {
        let at = |words| {
            assert_eq!(text.matches(words).count(), 1, "in compiler.rs: {words}");
            text.find(words).unwrap()
        };
        let (start, end) = (at(from), at(to));
        assert_eq!(text[start..end].matches(BACK).count(), 1, "in {from}: {BACK}");
        text.replace_range(start..end, &text[start..end].replace(BACK, &edit(BACK, new)));
    }
    text
}
