//! One wording for one cause: the crate, the C header and the command line say the same; and the crate and the header the same sizes.
use yengrazul::{Cause, Ending, Mode, Refusal, LARGEST_IMAGE, MOST_NODES, STACK_BYTES};

fn text_of(path: &str) -> String {
    let path = format!("{}/../{path}", env!("CARGO_MANIFEST_DIR"));
    std::fs::read_to_string(&path).unwrap_or_else(|problem| panic!("{path}: {problem}"))
}

/// The quoted words of a text, in their order.
fn quoted(text: &str) -> Vec<&str> {
    text.split('"').skip(1).step_by(2).collect()
}

#[test]
fn of_the_header() {
    let header = text_of("include/yengrazul.h");
    let stands = |of: fn(Cause) -> &'static str| {
        let words: Vec<&str> = Cause::ALL.into_iter().map(of).collect();
        quoted(&header).windows(words.len()).any(|window| window == words)
    };
    assert!(stands(Cause::name), "the names in their order");
    assert!(stands(Cause::text), "the causes in their order");
}

#[test]
fn of_the_command_line() {
    let words = text_of("crates/lower_main/src/words.rt");
    let words = quoted(&words);
    let frame = format!("refused 1 Frame after {{place}} whole fields: {}", Cause::Frame.text());
    assert!(words.contains(&frame.as_str()), "{frame}");
    let mode = Refusal { cause: Cause::Mode, node: 0 }.to_string();
    assert!(words.contains(&mode.as_str()), "{mode}");
    // name and text of the others, by their numbers; 19 and 20 are refusals of images, which this program never gives
    let others = Cause::ALL[1..18].iter().chain([&Cause::Retired]).flat_map(|cause| [cause.name(), cause.text()]);
    let others: Vec<&str> = others.collect();
    let from = words.iter().position(|word| *word == "Many").expect("the table");
    assert!(words[from..].len() >= others.len(), "the whole table");
    for (found, due) in words[from..].iter().zip(others) {
        // 18 adds how large the output is
        assert!(*found == due || due == Cause::Room.text() && found.starts_with(due), "{found:?} where {due:?} is due");
    }
}

#[test]
fn of_a_walk() {
    let (words, header) = (text_of("tools/walks.py"), text_of("include/yengrazul.h"));
    for cause in [Cause::Prototype, Cause::Decision, Cause::Order, Cause::Visits] {
        let row = format!("{}: (\"{}\", \"{}\")", cause.number(), cause.name(), cause.text());
        assert!(words.contains(&row), "{row}");
    }
    let endings = [Ending::Return, Ending::Decisions, Ending::Budget, Ending::Failed, Ending::Handlers];
    let texts = endings.map(|ending| ending.to_string());
    assert!(quoted(&header).windows(texts.len()).any(|window| window == texts), "the endings in their order");
    let from = words.find("ENDINGS = [").expect("the table");
    let of_the_command = quoted(&words[from..]);
    for (ending, text) in texts.iter().enumerate() {
        assert_eq!(of_the_command[2 * ending + 1], text);
    }
}

#[test]
fn sizes_of_the_header() {
    let header = text_of("include/yengrazul.h");
    let defined = |name: &str| {
        let line = header.lines().find_map(|line| line.strip_prefix(&format!("#define {name} ")));
        line.unwrap_or_else(|| panic!("{name} is defined")).to_string()
    };
    assert_eq!(defined("YENGRAZUL_STACK_BYTES"), STACK_BYTES.to_string());
    assert_eq!(defined("YENGRAZUL_NODES_MOST"), MOST_NODES.to_string());
    // tests/c/lower.c holds the header's sum to the same number
    assert_eq!(LARGEST_IMAGE, 92_612_864);
    for mode in [Mode::Zero, Mode::One] {
        let number = u64::from(mode);
        assert_eq!(defined(&format!("YENGRAZUL_MODE_{number}")), format!("((uint64_t){number})"));
    }
}

#[test]
fn numbers_are_those_of_the_documents() {
    let known: Vec<u64> = (1..=23).chain([25, 26, 27, 29]).collect();
    assert_eq!(Cause::ALL.map(Cause::number).as_slice(), known);
    for (number, cause) in known.into_iter().zip(Cause::ALL) {
        assert_eq!(Cause::from_number(number), Some(cause));
    }
    let unknown = [0, 24, 28, 30, 21 + 256, u64::MAX];
    assert!(unknown.into_iter().all(|number| Cause::from_number(number).is_none()));
}

#[test]
fn a_refusal_as_a_line() {
    let refusal = Refusal { cause: Cause::Return, node: 509 };
    assert_eq!(
        refusal.to_string(),
        "refused 13 Return at node 509: a return can give back registers 0 to 253, and its value is in register 254"
    );
    let of = |cause, node| Refusal { cause, node }.to_string();
    assert!(of(Cause::ImageFrame, 3).starts_with("refused 19 Image frame after 3 whole fields: a header"));
    assert!(of(Cause::ImageRule, 3).starts_with("refused 20 Image rule at field 3: the image's fields"));
    assert_eq!(of(Cause::Decision, 4), "refused 23 Decision at byte 4: a decision must be 0 or 1");
    assert_eq!(of(Cause::Order, 2), "refused 25 Order at strike 2: a strike must be above the one before it");
    assert_eq!(of(Cause::Prototype, 0), "refused 22 Prototype: the image must have a prototype of this number");
}
