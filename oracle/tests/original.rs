//! What is compiled under an original's name is that original, to the byte, and
//! behind it nothing but the declaration that opens its private items.

const SCHUR: [&str; 2] = [
    include_str!("../original/crates/openmvg-ba/src/kernel/two_view/schur.rs"),
    include_str!(concat!(env!("OUT_DIR"), "/schur.rs")),
];
const OPTIMIZER: [&str; 2] = [
    include_str!("../original/crates/openmvg-ba/src/kernel/two_view/optimizer.rs"),
    include_str!(concat!(env!("OUT_DIR"), "/optimizer.rs")),
];
const POINT_BLOCK: [&str; 2] = [
    include_str!("../original/crates/openmvg-ba/src/kernel/point_block.rs"),
    include_str!(concat!(env!("OUT_DIR"), "/point_block.rs")),
];

#[test]
fn only_one_declaration_is_added() {
    for [original, compiled] in [SCHUR, OPTIMIZER, POINT_BLOCK] {
        let added = compiled
            .strip_prefix(original)
            .expect("the original's bytes");
        let lines: Vec<&str> = added.trim().lines().collect();
        assert_eq!(lines.len(), 2);
        assert!(lines[0].starts_with("#[path = "));
        assert_eq!(lines[1], "pub(crate) mod reach;");
    }
}
