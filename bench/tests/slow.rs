//! The reader against a slow one that takes other ways: owned names, a table
//! copied for each block, and trees by a search for the root.

use rule_bench::listing;
use rule_bench::reader::NODE_WORDS;
use rule_bench::texts::Texts;
use std::collections::HashMap;
use std::fmt::Write;
use std::fs::read_to_string;

type Refusal = (u32, usize);
/// Level and side ('n', 'l', 'r') as prefix, infix, postfix.
type Roles = [Option<(u32, char)>; 3];
type Table = HashMap<String, Roles>;

struct Token {
    start: usize,
    bytes: String,
    /// 'w', '+', '0', '\'', or the delimiter.
    class: char,
}

fn class(byte: u8) -> char {
    match byte {
        b'A'..=b'Z' | b'a'..=b'z' => 'w',
        b'0'..=b'9' => '0',
        b'(' | b')' | b';' | b'\'' => byte as char,
        b'\t' | b'\n' | b'\r' | b' ' => ' ',
        _ if b"+-*/<>=!&|^~:?@#$%".contains(&byte) => '+',
        _ => '?',
    }
}

fn tokens(text: &[u8]) -> Result<Vec<Token>, Refusal> {
    if text.len() > 16384 {
        return Err((1, 16384));
    }
    let mut tokens = Vec::new();
    let mut rest = 0;
    while rest < text.len() {
        let start = rest;
        let class_here = class(text[start]);
        let run = |belongs: &dyn Fn(u8) -> bool| text[start..].iter().take_while(|b| belongs(**b)).count();
        let (len, max) = match class_here {
            ' ' => {
                rest += 1;
                continue;
            }
            'w' => (run(&|b| b == b'_' || "w0".contains(class(b))), 63),
            '+' => (run(&|b| class(b) == '+'), 63),
            '0' => (run(&|b| class(b) == '0'), 9),
            '\'' => {
                let inside = &text[start + 1..];
                let len = closing_quote(inside).ok_or((3, start))?;
                let name = &inside[..len];
                // Document 02: half of the quotes are characters.
                let characters = len - name.iter().filter(|b| **b == b'\'').count() / 2;
                let fit = (1..64).contains(&characters) && name.iter().all(|b| (32..127).contains(b));
                if !fit {
                    return Err((3, start));
                }
                (len + 2, 128)
            }
            '?' => return Err((2, start)),
            _ => (1, 1),
        };
        if len > max {
            return Err((4, start));
        }
        if tokens.len() == 1024 {
            return Err((5, start));
        }
        rest += len;
        let bytes = String::from_utf8(text[start..rest].to_vec()).unwrap();
        tokens.push(Token { start, bytes, class: class_here });
    }
    Ok(tokens)
}

/// The closing quote of a quoted name, of which the text behind the opening one
/// is given: the last of the first run of quotes that is odd in number.
fn closing_quote(inside: &[u8]) -> Option<usize> {
    let mut runs = inside.chunk_by(|a, b| a == b).scan(0, |end, run| {
        *end += run.len();
        Some((*end, run))
    });
    runs.find(|(_, run)| run[0] == b'\'' && run.len() % 2 == 1).map(|(end, _)| end - 1)
}

/// For each opener its closer; for each `let` also its `in` in the second map.
type Links = (HashMap<usize, usize>, HashMap<usize, usize>);

fn nesting(tokens: &[Token], text_len: usize) -> Result<Links, Refusal> {
    let (mut closers, mut ins) = (HashMap::new(), HashMap::new());
    let mut open: Vec<(usize, &str)> = Vec::new();
    for (at, token) in tokens.iter().enumerate() {
        let innermost = open.last().map_or("", |opener| opener.1);
        match (&token.bytes[..], innermost) {
            (";", "let") => {}
            ("in", "let") => {
                ins.insert(open.last().unwrap().0, at);
                open.last_mut().unwrap().1 = "in";
            }
            ("(" | ")" | "let" | "end", "let") | ("in" | ";", _) => return Err((6, token.start)),
            ("(" | "let", _) if open.len() == 32 => return Err((7, token.start)),
            ("(" | "let", _) => open.push((at, &token.bytes)),
            (")", "(") | ("end", "in") => drop(closers.insert(open.pop().unwrap().0, at)),
            (")" | "end", _) => return Err((6, token.start)),
            _ => {}
        }
    }
    if open.is_empty() { Ok((closers, ins)) } else { Err((6, text_len)) }
}

fn start_table() -> Table {
    let infix = |level, side| [None, Some((level, side)), None];
    let marks = [
        ("or", infix(800, 'l')),
        ("and", infix(700, 'l')),
        ("not", [Some((600, 'r')), None, None]),
        ("=", infix(500, 'n')),
        ("<", infix(500, 'n')),
        ("+", infix(400, 'l')),
        ("-", [Some((400, 'n')), Some((400, 'l')), None]),
        ("*", infix(300, 'l')),
    ];
    marks.map(|(mark, roles)| (mark.to_string(), roles)).into()
}

/// Document 02: no block declares these.
fn not_reserved(mark: &Token) -> Result<(), Refusal> {
    if ["and", "or", "not"].contains(&&mark.bytes[..]) { Err((17, mark.start)) } else { Ok(()) }
}

fn is_mark(token: &Token) -> bool {
    "w+".contains(token.class) && !["let", "in", "end"].contains(&&token.bytes[..])
}

fn declare(mut table: Table, tokens: &[Token]) -> Result<Table, Refusal> {
    let (body, mut rest) = tokens.split_last().unwrap();
    while !rest.is_empty() {
        let need = |at: usize, fit: &dyn Fn(&Token) -> bool| {
            let token = rest.get(at).unwrap_or(body);
            if fit(token) { Ok(token) } else { Err((8, token.start)) }
        };
        let one_of = |words: &'static str| move |t: &Token| words.split(' ').any(|word| word == t.bytes);
        let kind = &need(0, &one_of("prefix infix postfix plain"))?.bytes[..];
        if kind == "plain" {
            let mark = need(1, &is_mark)?;
            need(2, &one_of(";"))?;
            not_reserved(mark)?;
            table.remove(&mark.bytes);
            rest = &rest[3..];
            continue;
        }
        let (fixity, sides) = match kind {
            "prefix" => (0, "right non"),
            "infix" => (1, "left right non"),
            _ => (2, "left non"),
        };
        let side = need(1, &one_of(sides))?.bytes.chars().next().unwrap();
        let in_range = |t: &Token| t.class == '0' && (1..=1200).contains(&t.bytes.parse().unwrap_or(0));
        let level = need(2, &in_range)?.bytes.parse().unwrap();
        let mark = need(3, &is_mark)?;
        need(4, &one_of(";"))?;
        not_reserved(mark)?;
        table.entry(mark.bytes.clone()).or_insert([None; 3])[fixity] = Some((level, side));
        if table.len() > 64 {
            return Err((9, mark.start));
        }
        rest = &rest[5..];
    }
    let permitted = !table.values().any(is_both) || table.values().all(passes);
    if permitted { Ok(table) } else { Err((10, body.start)) }
}

/// Both infix and postfix.
fn is_both(roles: &Roles) -> bool {
    roles[1].is_some() && roles[2].is_some()
}

/// The four conditions.
fn passes(roles: &Roles) -> bool {
    let present: Vec<(u32, char)> = roles.iter().flatten().copied().collect();
    let sides = roles.map(|role| role.map_or(' ', |role| role.1));
    present.iter().all(|role| role.0 == present[0].0)
        && match sides {
            [prefix, 'n', postfix] => " n".contains(prefix) && " n".contains(postfix),
            [prefix, 'l', postfix] => " n".contains(prefix) && " l".contains(postfix),
            [prefix, 'r', postfix] => " r".contains(prefix) && postfix == ' ',
            _ => true,
        }
}

/// An item of a span: a token that opens or is an operand, or a mark.
#[derive(Clone, Copy)]
struct Item {
    at: usize,
    roles: Option<Roles>,
}

struct Reader {
    tokens: Vec<Token>,
    closers: HashMap<usize, usize>,
    ins: HashMap<usize, usize>,
    roles: Vec<Option<Roles>>,
    nodes: Vec<[usize; NODE_WORDS]>,
}

/// Where no mark of a span is both infix and postfix, each has one role that
/// it can have there: prefix, or, where an operand ends before it, the other
/// one. It is left without a role where it does not have that one. Where a
/// mark is both, all roles of a mark have one level.
fn in_use(items: &mut [Item]) {
    if items.iter().any(|item| item.roles.as_ref().is_some_and(is_both)) {
        return;
    }
    let mut operand = false;
    for item in items {
        let Some(roles) = &mut item.roles else {
            operand = true;
            continue;
        };
        let [prefix, infix, postfix] = *roles;
        *roles = if operand { [None, infix, postfix] } else { [prefix, None, None] };
        operand &= infix.is_none();
    }
}

/// Above every level: such a mark would be the root, and is none.
const NO_ROLE: u32 = u32::MAX;

/// Root of a tree: node number, level, right-sided.
type Root = (usize, u32, bool);

impl Reader {
    fn span(&self, from: usize, to: usize) -> Vec<Item> {
        let mut items = Vec::new();
        let mut at = from;
        while at < to {
            items.push(Item { at, roles: self.roles[at] });
            at = self.closers.get(&at).map_or(at, |&closer| closer) + 1;
        }
        in_use(&mut items);
        items
    }

    fn body(&self, opener: usize) -> Vec<Item> {
        let first = self.ins.get(&opener).map_or(opener, |&body| body) + 1;
        self.span(first, self.closers[&opener])
    }

    /// The root is a mark of the widest level: the first if it would be
    /// right-sided where it stands, else the last. Inner spans count as
    /// operands only, unless `deep`.
    fn tree(&mut self, items: &[Item], deep: bool) -> Option<Root> {
        let level_of = |item: &Item| {
            item.roles.map_or(0, |roles| roles.iter().flatten().next().map_or(NO_ROLE, |r| r.0))
        };
        let level = items.iter().map(level_of).max()?;
        if level == 0 {
            return if items.len() == 1 { Some((self.leaf(items[0].at, deep), 0, false)) } else { None };
        }
        let widest = |item: &Item| level_of(item) == level;
        let first = items.iter().position(widest).unwrap();
        let roles_first = items[first].roles.unwrap();
        let right_there = roles_first[usize::from(first > 0)].is_some_and(|role| role.1 == 'r');
        let root = if right_there { first } else { items.iter().rposition(widest).unwrap() };
        let fixity = match (root, root + 1 == items.len()) {
            (0, _) => 0,
            (_, true) => 2,
            _ => 1,
        };
        let (own_level, side) = items[root].roles.unwrap()[fixity]?;
        let mut children = [0; 2];
        if fixity != 0 {
            let (node, below, right) = self.tree(&items[..root], deep)?;
            children[0] = node;
            if below == level && (side != 'l' || right) {
                return None;
            }
        }
        if fixity != 2 {
            let (node, below, _) = self.tree(&items[root + 1..], deep)?;
            children[usize::from(fixity == 1)] = node;
            if below == level && side != 'r' {
                return None;
            }
        }
        let token = &self.tokens[items[root].at];
        // Document 02: the level of the mark's role.
        let [first, second] = children;
        self.nodes.push([3 + fixity, first, second, token.start, token.bytes.len(), own_level as usize]);
        Some((self.nodes.len() - 1, level, side == 'r'))
    }

    fn leaf(&mut self, at: usize, deep: bool) -> usize {
        let Token { start, class, ref bytes } = self.tokens[at];
        let (len, block) = (bytes.len(), bytes == "let");
        let inner = if deep && self.closers.contains_key(&at) {
            let items = self.body(at);
            self.tree(&items, true).unwrap().0
        } else {
            0
        };
        self.nodes.push(match class {
            '0' => [2, 0, 0, start, len, 0],
            '\'' => [1, 0, 0, start + 1, len - 2, 0],
            '(' => [6, inner, 0, 0, 0, 0],
            _ if block => [7, inner, 0, start, self.tokens[self.ins[&at]].start + 2 - start, 0],
            _ => [1, 0, 0, start, len, 0],
        });
        self.nodes.len() - 1
    }
}

fn slow(text: &[u8]) -> Result<Vec<[usize; NODE_WORDS]>, Refusal> {
    let tokens = tokens(text)?;
    // Document 02: a blank rule is read, without nodes.
    if tokens.is_empty() {
        return Ok(Vec::new());
    }
    let (closers, ins) = nesting(&tokens, text.len())?;
    let mut tables = vec![start_table()];
    let mut roles = vec![None; tokens.len()];
    let mut at = 0;
    while at < tokens.len() {
        match &tokens[at].bytes[..] {
            "let" => {
                let body = ins[&at];
                let outer = tables.last().unwrap().clone();
                tables.push(declare(outer, &tokens[at + 1..=body])?);
                at = body;
            }
            "end" => drop(tables.pop()),
            bytes => roles[at] = tables.last().unwrap().get(bytes).copied(),
        }
        at += 1;
    }
    let mut reader = Reader { tokens, closers, ins, roles, nodes: Vec::new() };
    let whole = reader.span(0, reader.tokens.len());
    reader.tree(&whole, false).ok_or((11, 0usize))?;
    let mut openers: Vec<usize> = reader.closers.keys().copied().collect();
    openers.sort();
    for opener in openers {
        let items = reader.body(opener);
        let place = reader.ins.get(&opener).map_or(opener, |&body| body);
        let place = reader.tokens[place].start;
        reader.tree(&items, false).ok_or((11, place))?;
    }
    reader.nodes.clear();
    reader.tree(&whole, true).unwrap();
    Ok(reader.nodes)
}

fn slow_listing(text: &[u8]) -> String {
    const KINDS: [&str; 8] = ["", "name", "number", "prefix", "infix", "postfix", "bracket", "block"];
    match slow(text) {
        Err((number, place)) => format!("refused {number} at {place}\n"),
        Ok(nodes) => {
            let mut listing = format!("read {}\n", nodes.len());
            for (i, [kind, first, second, offset, len, level]) in nodes.into_iter().enumerate() {
                writeln!(listing, "{i} {} {first} {second} {offset} {len} {level}", KINDS[kind]).unwrap();
            }
            listing
        }
    }
}

#[test]
fn same_listing() {
    let mut texts = Texts::new(11);
    for _ in 0..60_000 {
        let text = texts.next();
        assert_eq!(listing::reading(&text), slow_listing(&text), "{}", String::from_utf8_lossy(&text));
    }
}

/// The texts of programs `cases` and `documented`.
#[test]
fn same_listing_of_stored_texts() {
    for program in ["cases", "documented"] {
        let path = format!("{}/../crates/{program}/stdin", env!("CARGO_MANIFEST_DIR"));
        for line in read_to_string(&path).expect(&path).lines() {
            let text = listing::from_hex(line).expect("hexadecimal");
            assert_eq!(listing::reading(&text), slow_listing(&text), "{}", String::from_utf8_lossy(&text));
        }
    }
}
