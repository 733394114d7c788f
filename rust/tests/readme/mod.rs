//! The blocks of the README: commands are indented, text and code stand between fences.

/// A block, in the README's order.
pub enum Block {
    /// Indented lines: commands.
    Commands(String),
    /// What stands between fences, and the word after the first one.
    Fenced { word: String, text: String },
}

pub fn blocks(readme: &str) -> Vec<Block> {
    let mut blocks = Vec::new();
    let mut lines = readme.lines();
    while let Some(line) = lines.next() {
        if let Some(word) = line.strip_prefix("```") {
            let text = lines.by_ref().take_while(|line| *line != "```").map(|line| format!("{line}\n")).collect();
            blocks.push(Block::Fenced { word: word.into(), text });
        } else if let Some(command) = line.strip_prefix("    ") {
            blocks.push(Block::Commands(command.into()));
        }
    }
    blocks
}
