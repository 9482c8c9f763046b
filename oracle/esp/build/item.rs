//! Finds an item by its header, with the comments and attributes that stand above it.

use std::ops::Range;

use crate::lexer;

/// Every item that begins with this header, in the file's order.
pub fn find(source: &str, header: &str) -> Vec<Range<usize>> {
    let code = lexer::code(source);
    let begins = |&(at, _): &(usize, &str)| code[at] && stands_alone(source, at, header);
    source.match_indices(header).filter(begins).map(|(at, _)| first_line(source, at)..end(source, &code, at, header)).collect()
}

/// The header begins its line and does not end inside a name.
fn stands_alone(source: &str, at: usize, header: &str) -> bool {
    let line = source[..at].rfind('\n').map_or(0, |end| end + 1);
    let next = source[at + header.len()..].chars().next();
    let last = header.chars().last();
    let word = |c: Option<char>| c.is_some_and(|c| c.is_alphanumeric() || c == '_');
    source[line..at].trim().is_empty() && !(word(last) && word(next))
}

/// The start of the topmost doc comment or attribute right above the header's line.
fn first_line(source: &str, header: usize) -> usize {
    let mut start = source[..header].rfind('\n').map_or(0, |end| end + 1);
    let mut open = false;
    loop {
        if start == 0 {
            return start;
        }
        let above = source[..start - 1].rfind('\n').map_or(0, |end| end + 1);
        let line = source[above..start].trim();
        let attribute = line.starts_with("#[");
        let belongs = attribute || line.starts_with("///") || (line.starts_with("//") && !line.starts_with("//!"));
        // The lower lines of an attribute that goes over several.
        open = !attribute && (open || (!belongs && line.ends_with(")]")));
        if !belongs && !open {
            return start;
        }
        start = above;
    }
}

/// Constants, statics and types end at a semicolon; all else at a semicolon or the brace that closes the first one.
fn end(source: &str, code: &[bool], header: usize, name: &str) -> usize {
    let bytes = source.as_bytes();
    let words: Vec<&str> = name.split_whitespace().collect();
    let value = words.iter().any(|w| matches!(*w, "const" | "static" | "type")) && !words.contains(&"fn");
    let mut depth = 0;
    for at in (header..bytes.len()).filter(|&at| code[at]) {
        match bytes[at] {
            b'(' | b'[' | b'{' => depth += 1,
            b')' | b']' | b'}' => depth -= 1,
            _ => {}
        }
        let closed = bytes[at] == b';' || (bytes[at] == b'}' && !value);
        if depth == 0 && closed {
            return at + 1;
        }
    }
    panic!("the item `{name}` has no end");
}
