//! The text of a rule file, and places in it.

/// A rule file's name and text.
#[derive(Clone, Debug)]
pub struct Source {
    name: String,
    text: String,
    /// Where each line begins.
    lines: Vec<usize>,
}

/// Bytes of one of the files that are read together.
#[derive(Clone, Copy, Debug, PartialEq, Eq)]
pub struct Span {
    pub(crate) file: usize,
    pub(crate) start: usize,
    pub(crate) end: usize,
}

impl Source {
    /// A file's text, without a byte order mark.
    pub(crate) fn new(name: &str, text: &str) -> Self {
        let text = text.strip_prefix('\u{feff}').unwrap_or(text).to_owned();
        let ends = text.match_indices('\n').map(|(at, _)| at + 1);
        let lines = [0].into_iter().chain(ends).collect();
        Self {
            name: name.to_owned(),
            text,
            lines,
        }
    }

    /// The name by which the file was given.
    #[must_use]
    pub fn name(&self) -> &str {
        &self.name
    }

    pub(crate) fn text(&self) -> &str {
        &self.text
    }

    /// The line of a byte, from 1.
    pub(crate) fn line(&self, at: usize) -> usize {
        self.lines.partition_point(|&begin| begin <= at).max(1)
    }

    /// Where a line begins, and where it ends.
    pub(crate) fn line_bytes(&self, line: usize) -> (usize, usize) {
        let begin = self.lines.get(line - 1).copied();
        let end = self.lines.get(line).map(|next| next - 1);
        let end = end.unwrap_or(self.text.len());
        (begin.unwrap_or(end), end)
    }

    /// A line's text, without its end.
    fn line_text(&self, line: usize) -> &str {
        let (begin, end) = self.line_bytes(line);
        self.text[begin..end].trim_end_matches('\r')
    }

    /// The column of a byte in its line, in characters, from 1.
    fn column(&self, at: usize) -> usize {
        let (begin, _) = self.line_bytes(self.line(at));
        self.text[begin..at].chars().count() + 1
    }

    /// `FILE:LINE:COLUMN` of a byte.
    pub(crate) fn place(&self, at: usize) -> String {
        format!("{}:{}:{}", self.name, self.line(at), self.column(at))
    }

    /// The line of a byte with a caret under it, as two lines; of a long line what stands around the caret.
    pub(crate) fn caret(&self, at: usize) -> String {
        const AROUND: usize = 60;
        let before = self.column(at) - 1;
        let skipped = before.saturating_sub(AROUND);
        let plain = |c: char| if c.is_control() { ' ' } else { c };
        let line = self.line_text(self.line(at)).chars().map(plain);
        let shown: String = line.skip(skipped).take(2 * AROUND).collect();
        format!(
            "    {}\n    {:>2$}",
            shown.trim_end(),
            '^',
            before - skipped + 1
        )
    }
}
