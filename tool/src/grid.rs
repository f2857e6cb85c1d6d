//! Rows and columns of text, as they are drawn.

/// A text and how it stands in its column.
#[derive(Clone, Default)]
pub struct Entry {
    pub text: String,
    pub right: bool,
}

/// Lines of entries: heading lines, then the others after a rule.
pub struct Grid {
    pub heading: Vec<Vec<Entry>>,
    pub body: Vec<Vec<Entry>>,
}

impl Grid {
    pub fn lines(&self) -> Vec<String> {
        let widths = self.widths();
        let mut lines: Vec<String> =
            self.heading.iter().map(|entries| line(entries, &widths)).collect();
        let rule = widths.iter().map(|width| width + GAP.len()).sum::<usize>();
        lines.push("-".repeat(rule.saturating_sub(GAP.len())));
        lines.extend(self.body.iter().map(|entries| line(entries, &widths)));
        lines
    }

    fn widths(&self) -> Vec<usize> {
        let mut widths = Vec::new();
        for entries in self.heading.iter().chain(&self.body) {
            widths.resize(entries.len().max(widths.len()), 0);
            for (width, entry) in widths.iter_mut().zip(entries) {
                *width = (*width).max(entry.text.chars().count());
            }
        }
        widths
    }
}

const GAP: &str = "  ";

fn line(entries: &[Entry], widths: &[usize]) -> String {
    let shown: Vec<String> = entries
        .iter()
        .zip(widths)
        .map(|(Entry { text, right }, &width)| match right {
            true => format!("{text:>width$}"),
            false => format!("{text:<width$}"),
        })
        .collect();
    shown.join(GAP).trim_end().to_string()
}
