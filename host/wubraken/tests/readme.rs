//! The README's Rust code is run: its first block by the crate's documentation,
//! the others there too, or, with what they show a part of, as examples.

const README: &str = include_str!("../../../README.md");
const EXAMPLES: [&str; 7] = [
    include_str!("../examples/threads.rs"),
    include_str!("../examples/batches.rs"),
    include_str!("../examples/tail.rs"),
    include_str!("../examples/equal_times.rs"),
    include_str!("../examples/echogram.rs"),
    include_str!("../examples/dealer.rs"),
    include_str!("../examples/decay.rs"),
];

/// The blocks of a text that begin with this mark.
fn blocks(text: &str, mark: &str) -> Vec<String> {
    let mut blocks = Vec::new();
    let mut lines = text.lines();
    while lines.any(|line| line == mark) {
        let block = lines.by_ref().take_while(|line| !line.ends_with("```"));
        blocks.push(block.collect::<Vec<_>>().join("\n"));
    }
    blocks
}

/// The programs in the crate's documentation.
fn documented() -> Vec<String> {
    let blocks = blocks(include_str!("../src/lib.rs"), "//! ```");
    let without_marks = |block: String| {
        let lines = block.lines().map(|line| line.strip_prefix("//!").unwrap());
        let lines = lines.map(|line| line.strip_prefix(' ').unwrap_or(line));
        lines.collect::<Vec<_>>().join("\n")
    };
    blocks.into_iter().map(without_marks).collect()
}

#[test]
fn every_rust_block_is_run() {
    let blocks = blocks(README, "```rust");
    assert!(documented().contains(&blocks[0]), "{}", blocks[0]);
    for block in &blocks[1..] {
        let is_run =
            EXAMPLES.iter().any(|example| example.contains(block)) || documented().contains(block);
        assert!(is_run, "no example has this block:\n{block}");
    }
}
