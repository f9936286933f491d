//! Usage: cut FILE NAME..
//! Prints the top-level items of a Rust source file that have these names, in the file's order,
//! each with its doc comments and attributes. Fails with one line if a name is not found.
//! Items are found by matching brackets over tokens, so strings, characters, lifetimes and comments
//! hide none. Angle brackets are not matched: a `{ .. }` between them would end its item too early,
//! and rustc refuses what is cut then.

use std::process::ExitCode;

#[derive(Clone, Copy, PartialEq, Eq)]
enum Kind {
    /// An outer doc comment.
    Doc,
    /// An identifier, a keyword or a number.
    Word,
    /// A string, a character or a lifetime: nothing that an item's shape depends on.
    Opaque,
    /// One byte of punctuation.
    Symbol(u8),
}

#[derive(Clone, Copy)]
struct Token {
    kind: Kind,
    start: usize,
    end: usize,
}

/// An item's bytes, from its first doc comment or attribute to its end.
struct Item<'a> {
    name: &'a str,
    text: &'a str,
}

fn main() -> ExitCode {
    let words: Vec<String> = std::env::args().skip(1).collect();
    match run(&words) {
        Ok(items) => {
            print!("{items}");
            ExitCode::SUCCESS
        }
        Err(reason) => {
            eprintln!("cut: {reason}");
            ExitCode::FAILURE
        }
    }
}

fn run(words: &[String]) -> Result<String, String> {
    let [file, names @ ..] = words else {
        return Err("usage: cut FILE NAME..".to_string());
    };
    let text = std::fs::read_to_string(file).map_err(|error| format!("{file}: {error}"))?;
    let items = tokens(&text)
        .and_then(|tokens| items(&text, &tokens))
        .map_err(|reason| format!("{file}: {reason}"))?;
    if let Some(name) = names
        .iter()
        .find(|&name| items.iter().all(|item| item.name != name))
    {
        return Err(format!("{file} has no top-level item {name}"));
    }
    let named = items
        .iter()
        .filter(|item| names.iter().any(|name| name == item.name));
    Ok(named.map(|item| format!("{}\n\n", item.text)).collect())
}

const fn is_word_byte(byte: u8) -> bool {
    byte.is_ascii_alphanumeric() || byte == b'_' || byte >= 0x80
}

/// The tokens of `text`, without white space and plain comments.
fn tokens(text: &str) -> Result<Vec<Token>, String> {
    let bytes = text.as_bytes();
    let mut found = Vec::new();
    let mut at = 0;
    while at < bytes.len() {
        let rest = &bytes[at..];
        let (kind, length) = if rest[0].is_ascii_whitespace() {
            (None, 1)
        } else if rest.starts_with(b"//") {
            let is_doc = rest.starts_with(b"///") && !rest.starts_with(b"////");
            (is_doc.then_some(Kind::Doc), line_length(rest))
        } else if rest.starts_with(b"/*") {
            let is_doc = rest.starts_with(b"/**") && !matches!(rest.get(3), Some(b'*' | b'/'));
            (is_doc.then_some(Kind::Doc), block_comment_length(rest)?)
        } else if let Some(length) = string_length(rest)? {
            (Some(Kind::Opaque), length)
        } else if let Some(length) = quote_length(rest) {
            (Some(Kind::Opaque), length)
        } else if is_word_byte(rest[0]) {
            (Some(Kind::Word), word_length(rest))
        } else {
            (Some(Kind::Symbol(rest[0])), 1)
        };
        if let Some(kind) = kind {
            found.push(Token {
                kind,
                start: at,
                end: at + length,
            });
        }
        at += length;
    }
    Ok(found)
}

fn line_length(rest: &[u8]) -> usize {
    rest.iter()
        .position(|&byte| byte == b'\n')
        .unwrap_or(rest.len())
}

/// Block comments nest.
fn block_comment_length(rest: &[u8]) -> Result<usize, String> {
    let (mut depth, mut at) = (0, 0);
    while at < rest.len() {
        if rest[at..].starts_with(b"/*") {
            (depth, at) = (depth + 1, at + 2);
        } else if rest[at..].starts_with(b"*/") {
            (depth, at) = (depth - 1, at + 2);
            if depth == 0 {
                return Ok(at);
            }
        } else {
            at += 1;
        }
    }
    Err("a block comment has no end".to_string())
}

/// A string of any kind, as `".."`, `b".."`, `cr#".."#`; `None` if none starts here.
fn string_length(rest: &[u8]) -> Result<Option<usize>, String> {
    let prefix = rest
        .iter()
        .take(2)
        .take_while(|byte| b"bcr".contains(byte))
        .count();
    let raw = rest[..prefix].contains(&b'r');
    let hashes = if raw {
        rest[prefix..]
            .iter()
            .take_while(|&&byte| byte == b'#')
            .count()
    } else {
        0
    };
    let open = prefix + hashes;
    if rest.get(open) != Some(&b'"') {
        return Ok(None);
    }
    let mut close = vec![b'#'; hashes + 1];
    close[0] = b'"';
    let mut at = open + 1;
    while at < rest.len() {
        if !raw && rest[at] == b'\\' {
            at += 2;
        } else if rest[at..].starts_with(&close) {
            return Ok(Some(at + close.len()));
        } else {
            at += 1;
        }
    }
    Err("a string has no end".to_string())
}

/// A character, as `'x'` or `b'\''`, or a lifetime, as `'x`; `None` if none starts here.
fn quote_length(rest: &[u8]) -> Option<usize> {
    let open = usize::from(rest.starts_with(b"b'"));
    if rest[open] != b'\'' {
        return None;
    }
    let inside = &rest[open + 1..];
    if inside.first() == Some(&b'\\') {
        let close = inside.iter().skip(2).position(|&byte| byte == b'\'')?;
        return Some(open + 1 + 2 + close + 1);
    }
    // one character, of one or more bytes, and then the quote
    let width = 1 + inside
        .iter()
        .skip(1)
        .take_while(|&&byte| byte & 0xc0 == 0x80)
        .count();
    if inside.get(width) == Some(&b'\'') {
        return Some(open + 1 + width + 1);
    }
    Some(1 + word_length(inside))
}

/// The `r#` of a raw identifier belongs to its word.
fn word_length(rest: &[u8]) -> usize {
    let raw = if rest.starts_with(b"r#") { 2 } else { 0 };
    raw + rest[raw..]
        .iter()
        .take_while(|&&byte| is_word_byte(byte))
        .count()
}

fn items<'a>(text: &'a str, tokens: &[Token]) -> Result<Vec<Item<'a>>, String> {
    let mut found = Vec::new();
    let mut at = 0;
    while at < tokens.len() {
        if is_symbol(tokens, at, b'#') && is_symbol(tokens, at + 1, b'!') {
            at = group_end(tokens, at + 2)?;
            continue;
        }
        let first = at;
        while at < tokens.len() && (tokens[at].kind == Kind::Doc || is_symbol(tokens, at, b'#')) {
            at = if tokens[at].kind == Kind::Doc {
                at + 1
            } else {
                group_end(tokens, at + 1)?
            };
        }
        let head = head(text, tokens, at)?;
        at = item_end(tokens, at, &head)?;
        let text = &text[tokens[first].start..tokens[at - 1].end];
        if let [_, .., name] = head[..]
            && !head.contains(&"impl")
            && !head.contains(&"use")
        {
            found.push(Item { name, text });
        }
    }
    Ok(found)
}

fn is_symbol(tokens: &[Token], at: usize, symbol: u8) -> bool {
    tokens
        .get(at)
        .is_some_and(|token| token.kind == Kind::Symbol(symbol))
}

/// The words of an item, its visibility left out, up to the first symbol that ends its name.
fn head<'a>(text: &'a str, tokens: &[Token], mut at: usize) -> Result<Vec<&'a str>, String> {
    let mut words = Vec::new();
    while let Some(token) = tokens.get(at) {
        match (token.kind, &text[token.start..token.end]) {
            (Kind::Word, "pub") if is_symbol(tokens, at + 1, b'(') => {
                at = group_end(tokens, at + 1)?;
                continue;
            }
            (Kind::Word, "pub") => {}
            (Kind::Word, word) => words.push(word),
            (Kind::Symbol(b'(' | b'[' | b'{' | b'<' | b':' | b'=' | b';'), _) => break,
            _ => {}
        }
        at += 1;
    }
    Ok(words)
}

/// One past the token that ends the item at `at`: its `;`, or the `}` of its body.
fn item_end(tokens: &[Token], mut at: usize, head: &[&str]) -> Result<usize, String> {
    let body = head.contains(&"fn")
        || !head
            .iter()
            .any(|word| matches!(*word, "const" | "static" | "type" | "use"));
    while at < tokens.len() {
        let opens_body = body && is_symbol(tokens, at, b'{');
        if is_symbol(tokens, at, b';') {
            return Ok(at + 1);
        }
        at = group_end(tokens, at)?;
        if opens_body {
            return Ok(at);
        }
    }
    Err("the last item has no end".to_string())
}

/// One past the token at `at`, or past the bracket that closes the one there.
fn group_end(tokens: &[Token], at: usize) -> Result<usize, String> {
    let mut open = Vec::new();
    for (place, token) in tokens.iter().enumerate().skip(at) {
        match token.kind {
            Kind::Symbol(b'(') => open.push(b')'),
            Kind::Symbol(b'[') => open.push(b']'),
            Kind::Symbol(b'{') => open.push(b'}'),
            Kind::Symbol(close @ (b')' | b']' | b'}')) if open.pop() != Some(close) => {
                return Err(format!(
                    "'{}' at byte {} closes nothing",
                    char::from(close),
                    token.start
                ));
            }
            _ => {}
        }
        if open.is_empty() {
            return Ok(place + 1);
        }
    }
    Err("a bracket has no end".to_string())
}
