//! What is wrong with rule files, told by their lines.

use std::error::Error;
use std::fmt;

use super::{Source, Span};

/// Something in a rule file that is wrong or worth a look: what was expected and what was found, and where.
#[derive(Clone, Debug, PartialEq, Eq)]
pub struct Problem {
    pub(crate) span: Span,
    pub(crate) said: String,
    /// It is of clingo's language, but not of the part that is read.
    pub(crate) beyond: bool,
}

impl Problem {
    pub(crate) fn new(span: Span, said: impl Into<String>) -> Self {
        Self {
            span,
            said: said.into(),
            beyond: false,
        }
    }

    /// `FILE:LINE:COLUMN: ` and what it is, without the line and the caret.
    pub(crate) fn headline(&self, sources: &[Source], kind: &str) -> String {
        let place = sources[self.span.file].place(self.span.start);
        format!("{place}: {kind}{}", self.said)
    }

    /// The headline, the line and a caret.
    pub(crate) fn shown(&self, sources: &[Source], kind: &str) -> String {
        let caret = sources[self.span.file].caret(self.span.start);
        format!("{}\n{caret}", self.headline(sources, kind))
    }
}

/// Why files are no rule files: at least one problem, in the order of the text.
#[derive(Clone, Debug)]
pub struct Problems {
    pub(crate) sources: Vec<Source>,
    pub(crate) all: Vec<Problem>,
}

impl Problems {
    /// So many are shown; the others are counted.
    pub(crate) const SHOWN: usize = 20;

    /// How many there are.
    #[must_use]
    pub fn count(&self) -> usize {
        self.all.len()
    }
}

impl fmt::Display for Problems {
    fn fmt(&self, f: &mut fmt::Formatter<'_>) -> fmt::Result {
        let shown = self.all.iter().take(Self::SHOWN);
        let shown: Vec<String> = shown.map(|one| one.shown(&self.sources, "")).collect();
        f.write_str(&shown.join("\n"))?;
        match self.all.len().saturating_sub(Self::SHOWN) {
            0 => {}
            more => write!(f, "\nand {more} more")?,
        }
        if self.all.iter().any(|problem| problem.beyond) {
            f.write_str("\nwhat gringo --output=intermediate makes of such a program is read: docs/RULES.md, aspif")?;
        }
        Ok(())
    }
}

impl Error for Problems {}
