//! Files by rule expand to what they were made from.
use oracle::limits::{cases, edited_shapes};
use oracle::questions;
use oracle::trees::pack::rule_of;

#[test]
fn a_rule_expands_to_its_file() {
    let limits = cases().into_iter().map(|c| c.rule.expand());
    let shapes = edited_shapes().into_iter().step_by(7);
    let random = (0..1500).map(|k| questions::random(3, k, k % 2).tree);
    let damaged = (0..1500).map(|k| questions::damaged(3, k, 0).tree);
    let wide = (0..1500).map(|k| questions::wide(3, k, 0).tree);
    for file in limits.chain(shapes).chain(random).chain(damaged).chain(wide) {
        assert!(rule_of(&file).expand() == file);
    }
}
