//! As much of Markdown as the documents use: code spans, links, headings and
//! tables.

/// A code span: what stands between two backticks.
#[derive(Clone, Debug, PartialEq, Eq)]
pub struct Span {
    pub text: String,
    pub line: usize,
    /// How many round brackets are open around it.
    pub depth: usize,
    /// The text in front of it, back to the span before it or the paragraph's start.
    pub before: String,
}

impl Span {
    /// Whether nothing but blanks stands between this span and the one before.
    pub fn follows(&self) -> bool {
        !self.before.is_empty() && self.before.trim().is_empty()
    }
}

/// A line of a table, cut into its cells.
#[derive(Clone, Debug)]
pub struct Row {
    pub line: usize,
    pub cells: Vec<String>,
}

#[derive(Clone, Debug)]
pub struct Table {
    /// The heading that it stands under.
    pub heading: String,
    pub header: Row,
    pub rows: Vec<Row>,
}

/// A paragraph, a list item or a table line is a block: no span and no bracket
/// goes on behind its end. Lines of a fenced block are none.
fn blocks(text: &str) -> Vec<(usize, String)> {
    let mut blocks: Vec<(usize, String)> = Vec::new();
    let mut open = false;
    let mut fenced = false;
    for (i, line) in text.lines().enumerate() {
        let bare = line.trim_start();
        if bare.starts_with("```") {
            fenced = !fenced;
            open = false;
            continue;
        }
        if fenced || bare.is_empty() {
            open = false;
            continue;
        }
        let alone = bare.starts_with('|') || bare.starts_with('#');
        if open && !alone && !begins_item(bare) {
            let (_, block) = blocks.last_mut().expect("a block is open");
            block.push('\n');
            block.push_str(line);
        } else {
            blocks.push((i + 1, line.to_string()));
        }
        open = !alone;
    }
    blocks
}

fn begins_item(bare: &str) -> bool {
    let number = bare.trim_start_matches(|c: char| c.is_ascii_digit());
    bare.starts_with("- ")
        || bare.starts_with("* ")
        || (number.len() < bare.len() && number.starts_with(". "))
}

/// The code spans of a text.
pub fn spans(text: &str) -> Vec<Span> {
    let mut spans = Vec::new();
    for (first, block) in blocks(text) {
        spans.extend(spans_in(first, &block));
    }
    spans
}

/// The code spans of one block, whose first line has this number.
pub fn spans_in(first: usize, block: &str) -> Vec<Span> {
    let mut spans = Vec::new();
    let mut line = first;
    let mut depth: usize = 0;
    let mut before = String::new();
    let mut held: Option<(usize, String)> = None;
    for c in block.chars() {
        match (&mut held, c) {
            (None, '`') => held = Some((line, String::new())),
            (Some((at, text)), '`') => {
                spans.push(Span {
                    text: text.clone(),
                    line: *at,
                    depth,
                    before: std::mem::take(&mut before),
                });
                held = None;
            }
            (Some((_, text)), c) => text.push(if c == '\n' { ' ' } else { c }),
            (None, c) => {
                match c {
                    '(' => depth += 1,
                    ')' => depth = depth.saturating_sub(1),
                    _ => {}
                }
                before.push(c);
            }
        }
        if c == '\n' {
            line += 1;
        }
    }
    spans
}

/// Lines on which a code span is opened and not closed.
pub fn unclosed(text: &str) -> Vec<usize> {
    let odd = |(_, block): &(usize, String)| block.matches('`').count() % 2 == 1;
    blocks(text)
        .iter()
        .filter(|block| odd(block))
        .map(|(line, _)| *line)
        .collect()
}

/// The targets of links and pictures, with their lines.
pub fn links(text: &str) -> Vec<(usize, String)> {
    let mut links = Vec::new();
    let mut fenced = false;
    for (i, line) in text.lines().enumerate() {
        if line.trim_start().starts_with("```") {
            fenced = !fenced;
        }
        if fenced {
            continue;
        }
        for (opening, closing) in [("](", ')'), ("src=\"", '"')] {
            for part in line.split(opening).skip(1) {
                if let Some(end) = part.find(closing) {
                    links.push((i + 1, part[..end].to_string()));
                }
            }
        }
    }
    links
}

/// The headings, with their lines and depths.
pub fn headings(text: &str) -> Vec<(usize, usize, String)> {
    let mut headings = Vec::new();
    let mut fenced = false;
    for (i, line) in text.lines().enumerate() {
        if line.trim_start().starts_with("```") {
            fenced = !fenced;
        }
        let title = line.trim_start_matches('#');
        let depth = line.len() - title.len();
        if !fenced && depth > 0 && title.starts_with(' ') {
            headings.push((i + 1, depth, title.trim().to_string()));
        }
    }
    headings
}

pub fn tables(text: &str) -> Vec<Table> {
    let headings = headings(text);
    let mut tables: Vec<Table> = Vec::new();
    let mut inside = false;
    for (i, line) in text.lines().enumerate() {
        let Some(cells) = cells(line) else {
            inside = false;
            continue;
        };
        let row = Row { line: i + 1, cells };
        if !inside {
            let above = headings.iter().rev().find(|(at, _, _)| *at <= i + 1);
            tables.push(Table {
                heading: above.map_or(String::new(), |(_, _, title)| title.clone()),
                header: row,
                rows: Vec::new(),
            });
            inside = true;
        } else if !row.cells.iter().all(|cell| is_rule(cell)) {
            let table = tables.last_mut().expect("a table is open");
            table.rows.push(row);
        }
    }
    tables
}

fn is_rule(cell: &str) -> bool {
    !cell.is_empty() && cell.chars().all(|c| c == '-' || c == ':')
}

/// The cells of a table's line. A bar in a code span is no border.
fn cells(line: &str) -> Option<Vec<String>> {
    let inner = line.trim().strip_prefix('|')?.strip_suffix('|')?;
    let mut cells = vec![String::new()];
    let mut code = false;
    for c in inner.chars() {
        if c == '`' {
            code = !code;
        }
        if c == '|' && !code {
            cells.push(String::new());
        } else {
            cells.last_mut().expect("a cell is open").push(c);
        }
    }
    Some(cells.iter().map(|cell| cell.trim().to_string()).collect())
}

#[cfg(test)]
mod tests {
    use super::*;

    #[test]
    fn a_span_has_its_line_its_brackets_and_what_stands_before_it() {
        let text = "one `a` `b` two\n(three `c`,\n`d`)\n\n`e`";
        let spans = spans(text);
        let seen: Vec<_> = spans
            .iter()
            .map(|s| (s.text.as_str(), s.line, s.depth, s.follows()))
            .collect();
        assert_eq!(
            seen,
            [
                ("a", 1, 0, false),
                ("b", 1, 0, true),
                ("c", 2, 1, false),
                ("d", 3, 1, false),
                ("e", 5, 0, false)
            ]
        );
    }

    #[test]
    fn fenced_lines_have_no_spans() {
        assert_eq!(spans("```\n`a`\n```\n"), []);
    }

    #[test]
    fn an_unclosed_span_is_found() {
        assert_eq!(unclosed("a `b` c\n\nd `e\n\nf"), [3]);
    }

    #[test]
    fn a_table_is_cut_into_cells() {
        let text = "## Top\n\n| a | b |\n|---|--:|\n| `x|y` | z |\n";
        let tables = tables(text);
        assert_eq!(tables.len(), 1);
        assert_eq!(tables[0].heading, "Top");
        assert_eq!(tables[0].header.cells, ["a", "b"]);
        assert_eq!(tables[0].rows[0].cells, ["`x|y`", "z"]);
        assert_eq!(tables[0].rows[0].line, 5);
    }

    #[test]
    fn links_and_pictures_are_found() {
        let text = "[a](b.md) and\n<img src=\"c.png\">";
        assert_eq!(
            links(text),
            [(1, "b.md".to_string()), (2, "c.png".to_string())]
        );
    }
}
