//! One-change edits of a Rust source text, as a list says them.
//!
//! A line of the list is `FUNCTION | EDIT`, or `FUNCTION | EDIT | equivalent: REASON` for an edit
//! that changes no answer. EDIT is one of
//! - ``replace N `old` `new` ``: the N-th occurrence of `old` in the function, from 1;
//! - `omit N`: the function's N-th check is left out;
//! - `exchange N M`: two of its checks change places.
//!
//! A check is a `const_try!` statement, or an `if` or `match` block, counted in the text's order.
use std::ops::Range;

pub struct Mutant {
    /// The line of the list.
    pub name: String,
    function: String,
    edit: Edit,
}

enum Edit {
    Replace(usize, String, String),
    Omit(usize),
    Exchange(usize, usize),
}

/// The mutants of a list; `#` starts a remark.
pub fn read(list: &str) -> Result<Vec<Mutant>, String> {
    let lines = list.lines().map(str::trim).filter(|line| !line.is_empty() && !line.starts_with('#'));
    lines.map(|line| mutant(line).ok_or(format!("not understood: {line}"))).collect()
}

fn mutant(line: &str) -> Option<Mutant> {
    let (function, edit) = line.split_once(" | ")?;
    let edit = edit.split(" | ").next()?;
    let (verb, rest) = edit.split_once(' ')?;
    let number = |word: &str| word.trim().parse::<usize>().ok();
    let edit = match verb {
        "omit" => Edit::Omit(number(rest)?),
        "exchange" => {
            let (first, second) = rest.split_once(' ')?;
            Edit::Exchange(number(first)?, number(second)?)
        }
        "replace" => {
            let parts: Vec<&str> = rest.split('`').collect();
            let [count, old, _, new, ""] = parts[..] else {
                return None;
            };
            Edit::Replace(number(count)?, old.into(), new.into())
        }
        _ => return None,
    };
    Some(Mutant { name: line.into(), function: function.into(), edit })
}

impl Mutant {
    /// The text with this one change.
    pub fn apply(&self, text: &str) -> Result<String, String> {
        let wrong = || format!("{}: no such place", self.name);
        let body = function(text, &self.function).ok_or_else(wrong)?;
        let check = |number: usize| checks(text, &body).get(number - 1).cloned().ok_or_else(wrong);
        match &self.edit {
            Edit::Replace(count, old, new) => {
                let inside = &text[body.clone()];
                let (at, _) = inside.match_indices(old.as_str()).nth(count - 1).ok_or_else(wrong)?;
                let start = body.start + at;
                Ok([&text[..start], new, &text[start + old.len()..]].concat())
            }
            Edit::Omit(number) => {
                let place = check(*number)?;
                Ok([&text[..place.start], &text[place.end..]].concat())
            }
            Edit::Exchange(first, second) => {
                let (first, second) = (check(*first)?, check(*second)?);
                if first.end > second.start {
                    return Err(wrong());
                }
                let parts = [
                    &text[..first.start],
                    &text[second.clone()],
                    &text[first.end..second.start],
                    &text[first],
                    &text[second.end..],
                ];
                Ok(parts.concat())
            }
        }
    }
}

/// Where a function or macro stands: from its head to the next line that is a closing brace.
fn function(text: &str, name: &str) -> Option<Range<usize>> {
    let heads = [format!("fn {name}<"), format!("fn {name}("), format!("macro_rules! {name} ")];
    let start = heads.iter().find_map(|head| text.find(head.as_str()))?;
    let end = text[start..].find("\n}\n")?;
    Some(start..start + end)
}

/// The checks of a function, each as whole lines.
pub fn checks(text: &str, body: &Range<usize>) -> Vec<Range<usize>> {
    let mut places = Vec::new();
    let mut at = text[..body.start].rfind('\n').map_or(0, |line| line + 1);
    while at < body.end {
        let end = line_end(text, at);
        let line = &text[at..end];
        let word = line.trim_start();
        if ["const_try!(", "if ", "match "].iter().any(|start| word.starts_with(start))
            || word.contains("= const_try!(")
        {
            places.push(at..block_end(text, at, end));
        }
        at = end;
    }
    places
}

fn line_end(text: &str, at: usize) -> usize {
    text[at..].find('\n').map_or(text.len(), |line| at + line + 1)
}

/// The end of the statement whose first line is given: that line, or the line that closes it.
fn block_end(text: &str, at: usize, end: usize) -> usize {
    let line = &text[at..end];
    if line.trim_end().ends_with(';') {
        return end;
    }
    let indent = line.len() - line.trim_start().len();
    let mut next = end;
    loop {
        let after = line_end(text, next);
        let line = &text[next..after];
        let word = line.trim_start();
        if line.len() - word.len() == indent
            && word.starts_with(['}', ')'])
            && !word.trim_end().ends_with('{')
        {
            return after;
        }
        next = after;
    }
}

/// A function's checks by number, each with its first words.
pub fn listing(text: &str, name: &str) -> Vec<String> {
    let Some(body) = function(text, name) else {
        return vec![];
    };
    let words = |place: &Range<usize>| {
        let lines: Vec<&str> = text[place.clone()].lines().map(str::trim).take(5).collect();
        lines.join(" ")
    };
    checks(text, &body).iter().map(words).collect()
}
