//! Reads sources of Rattle as far as functions, `use` lines, paths and calls go, and says what calls what. The language has no closures, function
//! pointers, macros or traits, so that a call is a path or a method. What is not known is a fault: an item that cannot be read, a call whose
//! function is not found, a call that is neither. Contracts and comments are passed over.
use std::collections::{BTreeMap, BTreeSet};

/// The one method that is the language's own.
const OWN: &str = "len";
const KEYWORDS: [&str; 12] = ["if", "else", "while", "match", "return", "in", "let", "mut", "loop", "for", "break", "as"];

/// Files: their names and texts.
pub type Sources = Vec<(String, String)>;
/// What each function calls.
pub type Calls = BTreeMap<String, BTreeSet<String>>;

/// A word or sign, and where in its file it begins.
#[derive(Clone)]
pub struct Token {
    pub text: String,
    pub at: usize,
}

/// A function: where it stands, and its body with the brackets around it.
pub struct Function {
    module: Vec<String>,
    owner: Option<String>,
    pub file: usize,
    pub body: Vec<Token>,
}

#[derive(Default)]
pub struct Read {
    pub functions: BTreeMap<String, Function>,
    /// What could not be read.
    pub faults: Vec<String>,
    /// By module: the names that its `use` lines bring, and what they stand for.
    names: BTreeMap<String, BTreeMap<String, Vec<String>>>,
}

fn is_word(c: char) -> bool {
    c.is_ascii_alphanumeric() || c == '_'
}

/// How long the literal in quotes is that a text begins with, if it does.
fn quoted(text: &str) -> Option<usize> {
    let open = [("\"", 0), ("b\"", 1), ("b'", 1)].into_iter().find(|(start, _)| text.starts_with(start))?.1;
    let (quote, mut escaped) = (text.as_bytes()[open] as char, false);
    let end = text[open + 1..].find(|c| {
        let ends = c == quote && !escaped;
        escaped = c == '\\' && !escaped;
        ends
    });
    Some(end.map_or(text.len(), |end| open + end + 2))
}

/// How long the word or sign, the comment or the blank is that a text begins with.
fn first_length(text: &str) -> usize {
    const SIGNS: [&str; 18] = ["::", "->", "=>", "==", "<=", ">=", "!=", "&&", "||", "..", "<<", ">>", "+=", "-=", "*=", "/=", "%=", "^="];
    let first = text.chars().next().unwrap();
    if text.starts_with("//") {
        text.find('\n').unwrap_or(text.len())
    } else if text.starts_with("/*") {
        text.find("*/").map_or(text.len(), |end| end + 2)
    } else if let Some(length) = quoted(text) {
        length
    } else if is_word(first) || first == '\'' {
        1 + text[1..].find(|c| !is_word(c)).unwrap_or(text.len() - 1)
    } else {
        SIGNS.iter().find(|sign| text.starts_with(**sign)).map_or(first.len_utf8(), |sign| sign.len())
    }
}

/// The words and signs of a text, without its comments; a literal in quotes is one sign.
fn tokens(text: &str) -> Vec<Token> {
    let (mut out, mut at) = (Vec::new(), 0);
    while at < text.len() {
        let rest = &text[at..];
        let length = first_length(rest);
        if !rest.starts_with(char::is_whitespace) && !rest.starts_with("//") && !rest.starts_with("/*") {
            out.push(Token { text: rest[..length].to_string(), at });
        }
        at += length;
    }
    out
}

/// A part of a file, by places of its words and signs.
#[derive(Clone, Copy)]
struct Part<'a>(&'a [Token]);

impl<'a> Part<'a> {
    fn at(self, i: usize) -> &'a str {
        self.0.get(i).map_or("", |token| token.text.as_str())
    }

    /// The place behind the bracket that closes the one at this place.
    fn closed(self, open: usize) -> usize {
        let mut depth = 0;
        for i in open..self.0.len() {
            depth += ["(", "[", "{"].contains(&self.at(i)) as usize;
            depth -= [")", "]", "}"].contains(&self.at(i)) as usize;
            if depth == 0 {
                return i + 1;
            }
        }
        self.0.len()
    }

    /// The next place, past all that stands in brackets.
    fn next(self, i: usize) -> usize {
        if ["(", "[", "{"].contains(&self.at(i)) { self.closed(i) } else { i + 1 }
    }

    /// The place of the next one of these signs outside of brackets, or the end.
    fn find(self, from: usize, signs: &[&str]) -> usize {
        let mut i = from;
        while i < self.0.len() && !signs.contains(&self.at(i)) {
            i = self.next(i);
        }
        i
    }
}

impl Read {
    /// Every file `crates/NAME/src/MODULE.rt`.
    pub fn all(sources: &Sources) -> Read {
        let mut read = Read::default();
        for (file, (path, text)) in sources.iter().enumerate() {
            let parts: Vec<&str> = path.split('/').collect();
            let (name, inside) = (parts[parts.len() - 3], parts[parts.len() - 1].trim_end_matches(".rt"));
            let module = [name, inside].into_iter().filter(|&part| part != "lib" && part != "main").map(String::from).collect::<Vec<_>>();
            read.items(file, &module, None, Part(&tokens(text)));
        }
        read
    }

    /// The items of a module or of an `impl` block.
    fn items(&mut self, file: usize, module: &[String], owner: Option<&str>, part: Part) {
        let mut i = 0;
        while i < part.0.len() {
            i = match part.at(i) {
                "pub" | "extern" | "\"C\"" => i + 1,
                "#" => part.closed(part.find(i, &["["])),
                "ghost" | "mod" | "const" | "type" => part.find(i, &[";"]) + 1,
                "use" => self.use_line(module, part, i),
                "struct" | "enum" => {
                    let open = part.find(i, &["{", "(", ";"]);
                    if part.at(open) == "{" { part.closed(open) } else { part.find(open, &[";"]) + 1 }
                }
                "impl" => {
                    let open = part.find(i, &["{"]);
                    let end = part.closed(open);
                    self.items(file, module, Some(part.at(i + 1)), Part(&part.0[open + 1..end - 1]));
                    end
                }
                "fn" => self.function(file, module, owner, part, i),
                other => {
                    self.faults.push(format!("not read: `{other}`, in {}", module.join("::")));
                    return;
                }
            }
        }
    }

    /// A `use` line, and the place behind it.
    fn use_line(&mut self, module: &[String], part: Part, i: usize) -> usize {
        let end = part.find(i, &[";"]);
        let words: Vec<&str> = (i + 1..end).map(|j| part.at(j)).filter(|&word| word != "::").collect();
        // one path, or a path and several ends in braces
        let braced = words.iter().position(|&word| word == "{").filter(|_| words.last() == Some(&"}"));
        let (start, ends) = braced.map_or((&words[..], vec![&words[..0]]), |open| {
            (&words[..open], words[open + 1..words.len() - 1].split(|&word| word == ",").filter(|end| !end.is_empty()).collect())
        });
        for rest in ends {
            let path: Vec<String> = start.iter().chain(rest).map(|word| word.to_string()).collect();
            if path.iter().any(|word| !word.chars().all(is_word)) {
                self.faults.push(format!("a `use` that is not read, in {}", module.join("::")));
            }
            let stands_for = path.iter().take_while(|word| *word != "as").cloned().collect();
            self.names.entry(module.join("::")).or_default().insert(path.last().cloned().unwrap_or_default(), stands_for);
        }
        end + 1
    }

    /// A function, its contract aside, and the place behind it.
    fn function(&mut self, file: usize, module: &[String], owner: Option<&str>, part: Part, i: usize) -> usize {
        let mut open = part.closed(part.find(i, &["("]));
        while !["{", ";", ""].contains(&part.at(open)) {
            let clause = ["requires", "ensures", "ghost"].contains(&part.at(open));
            open = if clause { part.closed(part.find(open, &["{"])) } else { part.next(open) };
        }
        let end = part.closed(open);
        let name: Vec<&str> = module.iter().map(String::as_str).chain(owner).chain([part.at(i + 1)]).collect();
        let function = Function { module: module.to_vec(), owner: owner.map(String::from), file, body: part.0[open..end].to_vec() };
        self.functions.insert(name.join("::"), function);
        end
    }

    /// The function that a path names where it is called.
    fn resolve(&self, from: &Function, path: &[String]) -> Option<String> {
        let (module, rest) = (&from.module, &path[1..]);
        let brought = self.names.get(&module.join("::")).and_then(|names| names.get(&path[0]));
        let whole = |start: &[String]| {
            let start: Vec<String> = match start.first().map(String::as_str) {
                Some("crate") => [&module[..1], &start[1..]].concat(),
                Some("self") => [module, &start[1..]].concat(),
                Some("super") => [&module[..module.len() - 1], &start[1..]].concat(),
                _ => start.to_vec(),
            };
            [&start[..], rest].concat().join("::")
        };
        let here = [module, path].concat().join("::");
        let owned = from.owner.iter().filter(|_| path[0] == "Self").map(|owner| [module, std::slice::from_ref(owner), rest].concat().join("::"));
        let tried = brought.map(|start| whole(start)).into_iter().chain(owned).chain([here, whole(&path[..1])]);
        tried.into_iter().find(|name| self.functions.contains_key(name))
    }

    /// What a function calls. A method is any one of its name; what is not found, or not read, is a fault.
    pub fn calls(&self, name: &str, faults: &mut Vec<String>) -> BTreeSet<String> {
        let function = &self.functions[name];
        let text = |i: usize| function.body[i].text.as_str();
        let mut called = BTreeSet::new();
        for i in (1..function.body.len()).filter(|&i| text(i) == "(") {
            let word = text(i - 1);
            if [")", "]"].contains(&word) {
                faults.push(format!("{name}: a call that is not read"));
            }
            if !word.starts_with(|c: char| c.is_ascii_alphabetic() || c == '_') || KEYWORDS.contains(&word) {
                continue;
            }
            let mut path = vec![word.to_string()];
            let mut start = i - 1;
            while start > 1 && text(start - 1) == "::" {
                start -= 2;
                path.insert(0, text(start).to_string());
            }
            let method = text(start - 1) == ".";
            let found: Vec<String> = if method {
                let ending = format!("::{word}");
                self.functions.iter().filter(|(f, function)| function.owner.is_some() && f.ends_with(&ending)).map(|(f, _)| f.clone()).collect()
            } else {
                self.resolve(function, &path).into_iter().collect()
            };
            // a struct or a variant that is made is named with a capital
            let made = word.starts_with(|c: char| c.is_ascii_uppercase());
            if found.is_empty() && !made && !(method && word == OWN) {
                faults.push(format!("{name}: it calls {}, which is not found", path.join("::")));
            }
            called.extend(found);
        }
        called
    }
}
