//! What is cut from a source, and what is put in its place.

use std::ops::Range;

/// The constructs that are cut or edited. docs/develop/ERASER.md describes each.
#[derive(Clone, Copy, Debug, PartialEq, Eq)]
pub enum What {
    Ghost,
    Clauses,
    Law,
    Attribute,
    Drop,
    Model,
    External,
    Import,
    Module,
    Word,
    Path,
    Shim,
    Macro,
    Runtime,
    Blank,
}

impl What {
    pub fn name(self) -> &'static str {
        match self {
            What::Ghost => "ghost item",
            What::Clauses => "clauses",
            What::Law => "law",
            What::Attribute => "attribute",
            What::Drop => "bound by Drop",
            What::Model => "impl of Model",
            What::External => "extern",
            What::Import => "import",
            What::Module => "module",
            What::Word => "word of std",
            What::Path => "path of a crate",
            What::Shim => "import of the shim",
            What::Macro => "exported macro",
            What::Runtime => "runtime of a test",
            What::Blank => "blank lines",
        }
    }
}

/// A range of bytes of the source, and the text that is put in its place.
#[derive(Clone, Debug, PartialEq, Eq)]
pub struct Edit {
    pub range: Range<usize>,
    pub put: String,
    pub what: What,
}

impl Edit {
    pub fn new(range: Range<usize>, put: impl Into<String>, what: What) -> Edit {
        let put = put.into();
        Edit { range, put, what }
    }
}

/// Returns the edits in order, without those within others.
pub fn in_order(mut edits: Vec<Edit>) -> Vec<Edit> {
    edits.sort_by_key(|edit| (edit.range.start, usize::MAX - edit.range.end));
    let mut kept: Vec<Edit> = Vec::new();
    for edit in edits {
        let end = kept.last().map_or(0, |last| last.range.end);
        if end <= edit.range.start {
            kept.push(edit);
        } else {
            assert!(edit.range.end <= end, "two edits overlap: {edit:?}");
        }
    }
    kept
}

/// Cuts the blank lines that cut lines leave behind: of two blank lines one, and those at the start or end of a block or of
/// the file.
pub fn close_gaps(source: &str, edits: Vec<Edit>) -> Vec<Edit> {
    let mut closed: Vec<Edit> = Vec::new();
    let mut edits = edits.into_iter().peekable();
    while let Some(edit) = edits.next() {
        if !cuts_lines(source, &edit) {
            closed.push(edit);
            continue;
        }
        let mut gap = edit.range.clone();
        closed.push(edit);
        while let Some(next) = edits.next_if(|next| {
            cuts_lines(source, next) && source[gap.end..next.range.start].trim().is_empty()
        }) {
            cut_blank(&mut closed, gap.end..next.range.start);
            gap.end = next.range.end;
            closed.push(next);
        }
        close_gap(source, gap, &mut closed);
    }
    in_order(closed)
}

fn cuts_lines(source: &str, edit: &Edit) -> bool {
    let starts_line = edit.range.start == 0 || source[..edit.range.start].ends_with('\n');
    edit.put.is_empty() && starts_line && source[edit.range.clone()].ends_with('\n')
}

fn cut_blank(edits: &mut Vec<Edit>, range: Range<usize>) {
    if !range.is_empty() {
        edits.push(Edit::new(range, "", What::Blank));
    }
}

fn close_gap(source: &str, gap: Range<usize>, edits: &mut Vec<Edit>) {
    let before = source[..gap.start].trim_end();
    let after = source[gap.end..].trim_start();
    let is_blank_before = source[..gap.start].ends_with("\n\n");
    let opens = before.is_empty() || before.ends_with(['{', '(']);
    let closes = after.is_empty() || after.starts_with('}');
    // The blank line in front of what follows, up to the start of its line.
    let blank_after = source[gap.end..].len() - source[gap.end..].trim_start_matches('\n').len();
    if opens && closes && !before.is_empty() {
        cut_blank(edits, before.len()..gap.start);
        cut_blank(edits, gap.end..source.len() - after.len());
    } else if closes {
        let last_line = before.len() + usize::from(!before.is_empty());
        cut_blank(edits, last_line.min(gap.start)..gap.start);
        cut_blank(edits, gap.end..gap.end + blank_after);
    } else if opens || is_blank_before {
        cut_blank(edits, gap.end..gap.end + blank_after);
    }
}

/// What an edit leaves in the erased text: the place and length of what was put, and what was cut.
#[derive(Clone, Debug, PartialEq, Eq)]
pub struct Cut {
    pub at: usize,
    pub length: usize,
    pub cut: String,
    pub what: What,
}

/// Returns the source after the edits, which are in order, and what they have cut.
pub fn apply(source: &str, edits: &[Edit]) -> (String, Vec<Cut>) {
    let mut text = String::new();
    let mut cuts = Vec::new();
    let mut copied = 0;
    for edit in edits {
        text.push_str(&source[copied..edit.range.start]);
        cuts.push(Cut {
            at: text.len(),
            length: edit.put.len(),
            cut: source[edit.range.clone()].to_owned(),
            what: edit.what,
        });
        text.push_str(&edit.put);
        copied = edit.range.end;
    }
    text.push_str(&source[copied..]);
    (text, cuts)
}
