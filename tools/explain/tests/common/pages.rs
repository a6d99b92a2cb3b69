//! Pages that show commands with what they print.

/// Words of a command, split at spaces; quotes keep words together.
pub fn words(line: &str) -> Vec<String> {
    let mut words = Vec::new();
    for (at, part) in line.split('\'').enumerate() {
        match at % 2 {
            0 => words.extend(part.split_whitespace().map(str::to_string)),
            _ => words.push(part.to_string()),
        }
    }
    words
}

/// A command that a page shows, with the heading above it and the lines that it promises.
pub struct Shown {
    pub heading: String,
    pub command: String,
    pub lines: Vec<String>,
}

/// The commands of a page that begin with a tool of `tools/bin`. A block ends where its indent does.
pub fn shown(page: &str, tool: &str) -> Vec<Shown> {
    let begins = format!("$ tools/bin/{tool} ");
    let mut shown: Vec<Shown> = Vec::new();
    let (mut heading, mut within) = (String::new(), false);
    for line in page.lines() {
        if let Some(title) = line.strip_prefix("### ") {
            heading = title.to_string();
        }
        let text = line.strip_prefix("    ");
        let command = text.and_then(|it| it.strip_prefix(&begins));
        within = command.is_some() || (within && text.is_some());
        if let Some(command) = command {
            shown.push(Shown {
                heading: heading.clone(),
                command: command.to_string(),
                lines: Vec::new(),
            });
        } else if let (true, Some(text), Some(last)) = (within, text, shown.last_mut()) {
            last.lines.push(text.to_string());
        }
    }
    shown
}
