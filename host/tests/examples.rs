//! Every public item has an example of its own, which `cargo test` runs.
use std::fs;
use std::path::Path;

const STARTS: [&str; 5] = ["pub fn ", "pub const fn ", "pub struct ", "pub enum ", "pub type "];

/// The public items of a file whose documentation has no example. A macro's call makes the item that its first line names.
fn without_example(text: &str) -> Vec<&str> {
    let (mut found, mut example, mut made) = (Vec::new(), false, false);
    for line in text.lines().map(str::trim) {
        if line.starts_with("///") {
            example |= line.contains("```");
            continue;
        }
        if line.starts_with('#') || line.starts_with("$(#") {
            continue;
        }
        let item = STARTS.iter().any(|start| line.starts_with(start)) && !line.contains('$');
        if (item || made) && !example {
            found.push(line);
        }
        made = line == "numbered! {" || line == "rows! {";
        example = false;
    }
    found
}

#[test]
fn every_public_item_has_an_example() {
    let source = Path::new(env!("CARGO_MANIFEST_DIR")).join("src");
    let mut items = 0;
    for file in fs::read_dir(source).expect("the sources are there") {
        let path = file.expect("a file").path();
        let text = fs::read_to_string(&path).expect("a source is text");
        assert_eq!(without_example(&text), [""; 0], "{}", path.display());
        items += text.matches("pub fn ").count();
    }
    assert!(items > 30, "the sources were read");
}
