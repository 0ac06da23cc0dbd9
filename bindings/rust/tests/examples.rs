//! Every public constant, type, function and method has an example in its description; `cargo test` runs them.

use std::fs::read_to_string;

#[test]
fn every_public_item_has_an_example() {
    let mut seen = 0;
    for file in ["src/lib.rs", "src/matrix.rs"] {
        let text = read_to_string(format!("{}/{file}", env!("CARGO_MANIFEST_DIR"))).unwrap();
        let mut described = String::new();
        for line in text.lines().map(str::trim_start) {
            if line.starts_with("///") {
                described += line;
            } else if !line.starts_with("#[") {
                if ["pub fn ", "pub struct ", "pub enum ", "pub const "].iter().any(|item| line.starts_with(item)) {
                    assert_eq!(described.matches("/// ```").count(), 2, "{file}: {line}");
                    seen += 1;
                }
                described.clear();
            }
        }
    }
    assert!(seen > 80, "{seen}");
}
