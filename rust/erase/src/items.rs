//! The items of a source, and the cuts of those that are no code: ghost items, laws, impls of `Model`, and the clauses of
//! functions.

use crate::edit::{Edit, What};
use crate::fault::Fault;
use crate::token::{Kind, Token, tokens};
use std::ops::Range;

/// A source with what its items are.
pub struct Parsed<'a> {
    pub source: &'a str,
    /// The tokens without comments.
    pub code: Vec<Token<'a>>,
    pub edits: Vec<Edit>,
    /// The items outside of others that aren't cut.
    pub items: Vec<Item<'a>>,
    pub calls: Vec<Call>,
}

/// An item, from its doc comment on, by the range of its bytes and of its tokens of code.
pub struct Item<'a> {
    pub range: Range<usize>,
    pub code: Range<usize>,
    pub kind: ItemKind<'a>,
}

pub enum ItemKind<'a> {
    Import {
        is_public: bool,
    },
    Module {
        name: &'a str,
        is_public: bool,
    },
    /// A macro that its crate exports.
    Macro {
        name: &'a str,
    },
    Other,
}

/// A function that C calls: its name, its parameters, each a name and a type, and the type of its result.
#[derive(Clone, Debug)]
pub struct Call {
    pub name: String,
    pub parameters: Vec<(String, String)>,
    pub result: String,
}

/// Returns the items of the source.
pub fn parse(source: &str) -> Result<Parsed<'_>, Fault> {
    let (comments, code) = tokens(source)?.into_iter().partition(Token::is_comment);
    let mut parser = Parser {
        source,
        comments,
        code,
        at: 0,
        depth: 0,
        is_of_trait: false,
        edits: Vec::new(),
        items: Vec::new(),
        calls: Vec::new(),
    };
    parser.items()?;
    if let Some(token) = parser.code.get(parser.at) {
        return Err(Fault::new(
            token.start,
            format!("`{}` without its other", token.text),
        ));
    }
    Ok(Parsed {
        source,
        code: parser.code,
        edits: parser.edits,
        items: parser.items,
        calls: parser.calls,
    })
}

struct Parser<'a> {
    source: &'a str,
    comments: Vec<Token<'a>>,
    code: Vec<Token<'a>>,
    at: usize,
    depth: usize,
    /// Within an `impl .. for`.
    is_of_trait: bool,
    edits: Vec<Edit>,
    items: Vec<Item<'a>>,
    calls: Vec<Call>,
}

impl<'a> Parser<'a> {
    /// The items to the end of the block or of the source.
    fn items(&mut self) -> Result<(), Fault> {
        while self.at < self.code.len() && !self.code[self.at].closes() {
            self.item()?;
        }
        Ok(())
    }

    fn item(&mut self) -> Result<(), Fault> {
        let first = self.at;
        if self.is(0, "#") && self.is(1, "!") {
            self.at += 2;
            return self.skip_group();
        }
        self.skip_attributes()?;
        let is_public = self.is(0, "pub");
        self.skip_visibility()?;
        let keyword = self.at;
        let edits = self.edits.len();
        let is_kept = self.item_of_keyword(first)?;
        if !is_kept {
            // What is cut within an item goes with it.
            self.edits.drain(edits..);
            let what = self.what_of(first);
            let lines = self.lines(first, self.at - 1)?;
            self.edits.push(Edit::new(lines, "", what));
        } else if self.depth == 0 {
            self.keep(first, keyword, is_public);
        }
        Ok(())
    }

    fn keep(&mut self, first: usize, keyword: usize, is_public: bool) {
        let range = self.begun(first)..self.code[self.at - 1].end();
        let kind = match self.code[keyword].text {
            "use" => ItemKind::Import { is_public },
            "mod" if self.code[self.at - 1].is(";") => ItemKind::Module {
                name: self.code[keyword + 1].text,
                is_public,
            },
            "macro_rules" if self.has_attribute(first, keyword, "macro_export") => {
                self.exported_macro(keyword)
            }
            _ => ItemKind::Other,
        };
        let code = first..self.at;
        self.items.push(Item { range, code, kind });
    }

    /// A macro with `#[macro_export]`. It gets a name that no attribute of Rust has, since `use path;` could mean either. It
    /// is imported by its own name.
    fn exported_macro(&mut self, keyword: usize) -> ItemKind<'a> {
        let name = self.code[keyword + 2];
        let end = name.end();
        self.edits.push(Edit::new(end..end, "_macro", What::Macro));
        ItemKind::Macro { name: name.text }
    }

    /// Whether an attribute of this word is in front of the keyword.
    fn has_attribute(&self, first: usize, keyword: usize, word: &str) -> bool {
        let mut pairs = self.code[first..keyword].windows(3);
        pairs.any(|three| three[0].is("[") && three[1].is(word) && three[2].is("]"))
    }

    /// Goes past the item at its keyword, and returns whether it is kept.
    fn item_of_keyword(&mut self, first: usize) -> Result<bool, Fault> {
        let keyword = self.here()?;
        match keyword.text {
            "ghost" => self.skip_past(&[";", ","]).map(|()| false),
            "const" if self.is(1, "fn") => {
                self.at += 1;
                self.function(first)
            }
            "use" | "const" | "static" | "type" => self.skip_past(&[";"]).map(|()| true),
            "mod" if self.is(2, ";") => self.skip_past(&[";"]).map(|()| true),
            "fn" => self.function(first),
            "extern" => self.external(first),
            "struct" => self.structure(),
            "enum" => self
                .skip_to_body()
                .and_then(|()| self.skip_group())
                .map(|()| true),
            "mod" | "trait" => self.block(),
            "impl" => self.implementation(),
            "macro_rules" if self.is(1, "!") => {
                self.at += 3;
                self.skip_group().map(|()| true)
            }
            _ => Err(Fault::new(
                keyword.start,
                format!("no item that the eraser knows: `{}`", keyword.text),
            )),
        }
    }

    /// A function, which is cut where it is a law, one that has clauses and no body. A method may be called, so it is none.
    fn function(&mut self, first: usize) -> Result<bool, Fault> {
        let keyword = self.at;
        while !self.is_clause() && !self.is(0, "{") && !self.is(0, ";") {
            self.skip_one()?;
        }
        let bounds = self.at;
        let head = self.code[bounds - 1].end();
        let has_result = self.code[first..self.at]
            .windows(2)
            .any(|pair| pair[0].is("-") && pair[1].is(">"));
        let is_method = self.is_of_trait
            || self.code[first..self.at]
                .iter()
                .any(|token| token.is("self"));
        let has_clauses = self.is_clause();
        while self.is_clause() {
            self.clause()?;
        }
        let body = self.here()?;
        if !body.is("{") && !body.is(";") {
            return Err(Fault::new(body.start, "neither a clause nor a body"));
        }
        if has_clauses {
            let clauses = self.clauses_to(body, head, &self.code[first..bounds]);
            self.edits.push(clauses);
        }
        if self.has_attribute(first, keyword, "test") {
            self.test(keyword, body)?;
        }
        let is_law = has_clauses && self.source[body.start..].starts_with("{}");
        self.skip_one()?;
        if is_law && has_result {
            return Err(Fault::new(body.start, "a law that returns something"));
        }
        if is_law && is_method {
            return Err(Fault::new(body.start, "a law that is a method"));
        }
        Ok(!is_law)
    }

    /// The cut of clauses between a head and a body. Behind bounds by `where` the body's brace stays on a line of its own.
    fn clauses_to(&self, body: Token<'a>, head: usize, words: &[Token<'a>]) -> Edit {
        let line = line_start(self.source, body.start);
        let is_apart = words.iter().any(|token| token.is("where"))
            && self.source[line..body.start].trim().is_empty();
        let (end, put) = match body.text {
            ";" => (body.start, ""),
            _ if is_apart => (line - 1, ""),
            _ => (body.start, " "),
        };
        Edit::new(head..end, put, What::Clauses)
    }

    /// A test takes no runtime in Rust. It makes that of its own crate.
    fn test(&mut self, keyword: usize, body: Token<'_>) -> Result<(), Fault> {
        let opens = keyword + 2;
        let closes = self.closed(opens)?;
        let [name, .., kind] = &self.code[opens + 1..closes] else {
            return Ok(());
        };
        let is_runtime = kind.is("HostRuntime") || kind.is(",");
        if !is_runtime || !self.code[opens + 3].is("HostRuntime") {
            return Err(Fault::new(name.start, "a test of more than a runtime"));
        }
        let parameter = self.code[opens].end()..self.code[closes].start;
        let made = format!("\n    let {} = crate::host::HostRuntime::new();", name.text);
        self.edits.extend([
            Edit::new(parameter, "", What::Runtime),
            Edit::new(body.end()..body.end(), made, What::Runtime),
        ]);
        Ok(())
    }

    fn is_clause(&self) -> bool {
        self.is(0, "requires") || self.is(0, "ensures")
    }

    /// `ensures { .. }`, `ensures name { .. }` or `ensures* name { .. }`.
    fn clause(&mut self) -> Result<(), Fault> {
        let word = self.here()?;
        self.at += if self.is(1, "*") { 2 } else { 1 };
        self.at += usize::from(!self.is(0, "{"));
        if !self.is(0, "{") {
            return Err(Fault::new(
                word.start,
                format!("`{}` without a clause", word.text),
            ));
        }
        self.skip_group()
    }

    /// A function that C calls is erased to a plain one. What C calls lends it pointers.
    fn external(&mut self, first: usize) -> Result<bool, Fault> {
        let start = self.here()?.start;
        let is_c = self
            .code
            .get(self.at + 1)
            .is_some_and(|abi| abi.text == "\"C\"");
        if !is_c || !self.is(2, "fn") {
            return Err(Fault::new(start, "an `extern` that is no call from C"));
        }
        self.at += 2;
        self.edits
            .push(Edit::new(start..self.here()?.start, "", What::External));
        let function = self.at;
        let is_kept = self.function(first)?;
        self.calls.push(self.call(function)?);
        Ok(is_kept)
    }

    fn call(&self, function: usize) -> Result<Call, Fault> {
        let name = self.code[function + 1];
        let opens = function + 2;
        let closes = self.closed(opens)?;
        let mut parameters = Vec::new();
        let mut start = opens + 1;
        for at in opens + 1..=closes {
            if (self.code[at].is(",") || at == closes) && start < at {
                let kind = self.code[start + 2].start..self.code[at - 1].end();
                parameters.push((
                    self.code[start].text.to_owned(),
                    self.source[kind].to_owned(),
                ));
            }
            if self.code[at].is(",") {
                start = at + 1;
            }
        }
        let result = closes + 3;
        let has_result = self.code[closes + 1].is("-") && self.code[closes + 2].is(">");
        if !self.code[opens].is("(") || !has_result {
            return Err(Fault::new(
                name.start,
                "a call from C without a result, or with type parameters",
            ));
        }
        let end = (result..self.code.len())
            .find(|at| {
                ["{", "requires", "ensures"]
                    .iter()
                    .any(|word| self.code[*at].is(word))
            })
            .ok_or_else(|| Fault::new(name.start, "a call from C without a body"))?;
        let result = self.code[result].start..self.code[end - 1].end();
        Ok(Call {
            name: name.text.to_owned(),
            parameters,
            result: self.source[result].to_owned(),
        })
    }

    fn structure(&mut self) -> Result<bool, Fault> {
        while !self.is(0, "{") && !self.is(0, ";") {
            self.skip_one_not_body()?;
        }
        if self.is(0, ";") {
            self.at += 1;
            return Ok(true);
        }
        let close = self.closed(self.at)?;
        self.at += 1;
        while self.at < close {
            self.field(close)?;
        }
        self.at = close + 1;
        Ok(true)
    }

    /// A field with the comma behind it.
    fn field(&mut self, close: usize) -> Result<(), Fault> {
        let first = self.at;
        self.skip_attributes()?;
        self.skip_visibility()?;
        let is_ghost = self.is(0, "ghost") && !self.is(1, ":");
        while self.at < close && !self.is(0, ",") {
            self.skip_one()?;
        }
        self.at = close.min(self.at + 1);
        if is_ghost {
            let lines = self.lines(first, self.at - 1)?;
            self.edits.push(Edit::new(lines, "", What::Ghost));
        }
        Ok(())
    }

    fn implementation(&mut self) -> Result<bool, Fault> {
        let start = self.at;
        self.skip_to_body()?;
        let is_model = self.code[start..self.at]
            .windows(2)
            .any(|pair| pair[0].is("Model") && pair[1].is("for"));
        if is_model {
            return self.skip_group().map(|()| false);
        }
        self.is_of_trait = self.code[start..self.at]
            .iter()
            .any(|token| token.is("for"));
        let is_kept = self.inside_block()?;
        self.is_of_trait = false;
        Ok(is_kept)
    }

    fn block(&mut self) -> Result<bool, Fault> {
        self.skip_to_body()?;
        self.inside_block()
    }

    fn inside_block(&mut self) -> Result<bool, Fault> {
        let close = self.closed(self.at)?;
        self.at += 1;
        self.depth += 1;
        self.items()?;
        self.depth -= 1;
        if self.at != close {
            return Err(Fault::new(self.here()?.start, "a bracket within items"));
        }
        self.at += 1;
        Ok(true)
    }

    fn skip_attributes(&mut self) -> Result<(), Fault> {
        while self.is(0, "#") {
            self.at += 1;
            self.skip_group()?;
        }
        Ok(())
    }

    fn skip_visibility(&mut self) -> Result<(), Fault> {
        if self.is(0, "pub") {
            self.at += 1;
            if self.is(0, "(") {
                self.skip_group()?;
            }
        }
        Ok(())
    }

    fn skip_to_body(&mut self) -> Result<(), Fault> {
        while !self.is(0, "{") {
            self.skip_one_not_body()?;
        }
        Ok(())
    }

    fn skip_one_not_body(&mut self) -> Result<(), Fault> {
        let token = self.here()?;
        if token.is(";") {
            return Err(Fault::new(token.start, "an item without a body"));
        }
        self.skip_one()
    }

    fn skip_past(&mut self, ends: &[&str]) -> Result<(), Fault> {
        while !ends.iter().any(|end| self.is(0, end)) {
            self.skip_one()?;
        }
        self.at += 1;
        Ok(())
    }

    /// Goes past a token, or past a bracket with what is in it.
    fn skip_one(&mut self) -> Result<(), Fault> {
        let token = self.here()?;
        if token.opens() {
            return self.skip_group();
        }
        if token.closes() {
            return Err(Fault::new(token.start, "an item that doesn't end"));
        }
        self.at += 1;
        Ok(())
    }

    fn skip_group(&mut self) -> Result<(), Fault> {
        self.at = self.closed(self.at)? + 1;
        Ok(())
    }

    /// The token that closes the bracket at `at`.
    fn closed(&self, at: usize) -> Result<usize, Fault> {
        closed(&self.code, at)
    }

    fn here(&self) -> Result<Token<'a>, Fault> {
        self.code
            .get(self.at)
            .copied()
            .ok_or_else(|| Fault::new(self.source.len(), "the source ends within an item"))
    }

    fn is(&self, ahead: usize, text: &str) -> bool {
        self.code
            .get(self.at + ahead)
            .is_some_and(|token| token.is(text))
    }

    fn what_of(&self, first: usize) -> What {
        let words = &self.code[first..self.at];
        let is_of = |word| {
            words
                .iter()
                .take_while(|token| !token.is("{"))
                .any(|token| token.is(word))
        };
        if is_of("ghost") {
            What::Ghost
        } else if is_of("impl") {
            What::Model
        } else {
            What::Law
        }
    }

    /// The whole lines of these tokens and of the comments right above, if nothing else is in them.
    fn lines(&self, first: usize, last: usize) -> Result<Range<usize>, Fault> {
        let start = line_start(self.source, self.begun(first));
        let end = self.code[last].end();
        let rest = self.source[end..]
            .find('\n')
            .map_or(self.source.len(), |at| end + at + 1);
        if !self.source[end..rest].trim().is_empty()
            || !self.source[start..self.begun(first)].trim().is_empty()
        {
            return Err(Fault::new(
                self.code[first].start,
                "what is cut shares a line",
            ));
        }
        Ok(start..rest)
    }

    /// Where the comments right above the token start.
    fn begun(&self, first: usize) -> usize {
        let first = self.code[first].start;
        let mut start = first;
        for comment in self
            .comments
            .iter()
            .rev()
            .skip_while(|comment| comment.start > first)
        {
            let is_own_line = self.source[line_start(self.source, comment.start)..comment.start]
                .trim()
                .is_empty();
            let between = &self.source[comment.end()..start];
            if !is_own_line
                || comment.text.starts_with("//!")
                || between.matches('\n').count() != 1
                || !between.trim().is_empty()
            {
                break;
            }
            start = comment.start;
        }
        start
    }
}

/// The token that closes the bracket at `at`.
pub fn closed(code: &[Token<'_>], at: usize) -> Result<usize, Fault> {
    let mut opened = Vec::new();
    for (place, token) in code.iter().enumerate().skip(at) {
        if token.opens() {
            opened.push(token.text);
        } else if token.closes() {
            let other = opened.pop().map(|open| match open {
                "(" => ")",
                "[" => "]",
                _ => "}",
            });
            if other != Some(token.text) {
                return Err(Fault::new(token.start, "a bracket that closes another"));
            }
        }
        if opened.is_empty() {
            return if token.kind == Kind::Mark && token.closes() {
                Ok(place)
            } else {
                Err(Fault::new(token.start, "no bracket"))
            };
        }
    }
    let opened_at = code.get(at).or(code.last()).map_or(0, |token| token.start);
    Err(Fault::new(opened_at, "a bracket that nothing closes"))
}

pub fn line_start(source: &str, at: usize) -> usize {
    source[..at].rfind('\n').map_or(0, |end| end + 1)
}
