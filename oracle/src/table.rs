// Cases, trees and answers, and the words between them (document 01, "Rows, rules and text").

pub const STR: u32 = 0;
pub const INSENS: u32 = 1;
pub const RANGE: u32 = 2;
pub const IDENT: u32 = 3;
pub const PEEK: u32 = 4;
pub const PEEK_END: u32 = 5;
pub const POS_PRED: u32 = 6;
pub const NEG_PRED: u32 = 7;
pub const SEQ: u32 = 8;
pub const CHOICE: u32 = 9;
pub const OPT: u32 = 10;
pub const REP: u32 = 11;
pub const REP_ONCE: u32 = 12;
pub const REP_EXACT: u32 = 13;
pub const REP_MIN: u32 = 14;
pub const REP_MAX: u32 = 15;
pub const REP_MIN_MAX: u32 = 16;
pub const SKIP: u32 = 17;
pub const PUSH: u32 = 18;
pub const RESTORE: u32 = 19;

pub const NORMAL: u32 = 0;
pub const SILENT: u32 = 1;
pub const ATOMIC: u32 = 2;
pub const COMPOUND: u32 = 3;
pub const NON_ATOMIC: u32 = 4;

pub const FULL_RULES: usize = 256;
pub const FULL_ROWS: usize = 4096;
pub const FULL_TEXT: usize = 65536;

/// What the program `replay` is given.
#[derive(Clone, PartialEq, Eq)]
pub struct Case {
    pub rules: Vec<u32>,
    pub rows: Vec<u32>,
    pub text: Vec<u8>,
    pub short: u32,
}

/// What it gives back.
#[derive(Clone, PartialEq, Eq)]
pub struct Answer {
    pub number: u32,
    pub rules: Vec<u32>,
    pub rows: Vec<u32>,
    pub text: Vec<u8>,
    pub report: [u32; 14],
    pub rest_unchanged: u8,
}

/// A tree of rows; L is what a literal is: a span or its bytes.
#[derive(Clone, Debug, PartialEq, Eq)]
pub enum Tree<L> {
    Lit(u32, L),
    Fixed(u32, u32, u32),
    Skip(Vec<L>),
    One(u32, u32, u32, Box<Tree<L>>),
    Two(u32, Box<Tree<L>>, Box<Tree<L>>),
}

#[derive(Clone, Debug, PartialEq, Eq)]
pub struct Rule<L> {
    pub name: L,
    pub ty: u32,
    pub tree: Tree<L>,
}

pub type Span = (u32, u32);
pub type Text = Vec<u8>;

/// The rules of a table, if types, kinds, unused words, sizes and row counts are right (refusal 3 otherwise).
pub fn decode(rules: &[u32], rows: &[u32], highest_kind: u32) -> Option<Vec<Rule<Span>>> {
    let mut all = Vec::new();
    let mut left = rows;
    for rule in rules.chunks(4) {
        let words = (rule[3] as usize).checked_mul(4)?;
        if rule[2] > 4 || words > left.len() {
            return None;
        }
        let tree = decode_tree(&left[..words], highest_kind)?;
        all.push(Rule { name: (rule[0], rule[1]), ty: rule[2], tree });
        left = &left[words..];
    }
    if left.is_empty() {
        Some(all)
    } else {
        None
    }
}

fn decode_tree(rows: &[u32], highest_kind: u32) -> Option<Tree<Span>> {
    let mut stack: Vec<(Tree<Span>, u32)> = Vec::new();
    for row in rows.chunks(4) {
        let (kind, x, y, size) = (row[0], row[1], row[2], row[3]);
        if kind > highest_kind {
            return None;
        }
        let (tree, right_size) = match kind {
            STR | INSENS | IDENT => (Tree::Lit(kind, (x, y)), 1),
            RANGE | PEEK_END => (Tree::Fixed(kind, x, y), 1),
            PEEK if y == 0 => (Tree::Fixed(kind, x, 0), 1),
            SEQ | CHOICE if x == 0 && y == 0 => {
                let (right, n) = stack.pop()?;
                let (left, m) = stack.pop()?;
                (Tree::Two(kind, Box::new(left), Box::new(right)), m + n + 1)
            }
            SKIP if y == 0 && x as usize <= stack.len() => {
                let strings = stack.split_off(stack.len() - x as usize);
                let mut list = Vec::new();
                for (string, _) in strings {
                    match string {
                        Tree::Lit(STR, span) => list.push(span),
                        _ => return None,
                    }
                }
                (Tree::Skip(list), x + 1)
            }
            POS_PRED | NEG_PRED | OPT | REP | REP_ONCE | PUSH | RESTORE if x == 0 && y == 0 => one(kind, x, y, &mut stack)?,
            REP_EXACT | REP_MIN | REP_MAX if y == 0 => one(kind, x, y, &mut stack)?,
            REP_MIN_MAX => one(kind, x, y, &mut stack)?,
            _ => return None,
        };
        if size != right_size {
            return None;
        }
        stack.push((tree, size));
    }
    if stack.len() == 1 {
        Some(stack.pop()?.0)
    } else {
        None
    }
}

fn one(kind: u32, x: u32, y: u32, stack: &mut Vec<(Tree<Span>, u32)>) -> Option<(Tree<Span>, u32)> {
    let (child, n) = stack.pop()?;
    Some((Tree::One(kind, x, y, Box::new(child)), n + 1))
}

impl<L> Tree<L> {
    pub fn rows(&self) -> usize {
        match self {
            Tree::Lit(..) | Tree::Fixed(..) => 1,
            Tree::Skip(list) => 1 + list.len(),
            Tree::One(_, _, _, e) => 1 + e.rows(),
            Tree::Two(_, l, r) => 1 + l.rows() + r.rows(),
        }
    }

    /// Every literal, in row order.
    pub fn literals<'a>(&'a self, visit: &mut dyn FnMut(u32, &'a L)) {
        match self {
            Tree::Lit(kind, l) => visit(*kind, l),
            Tree::Fixed(..) => {}
            Tree::Skip(list) => list.iter().for_each(|l| visit(STR, l)),
            Tree::One(_, _, _, e) => e.literals(visit),
            Tree::Two(_, l, r) => {
                l.literals(visit);
                r.literals(visit);
            }
        }
    }

    /// The same tree with other literals.
    pub fn map<M>(&self, f: &mut dyn FnMut(&L) -> M) -> Tree<M> {
        match self {
            Tree::Lit(kind, l) => Tree::Lit(*kind, f(l)),
            Tree::Fixed(kind, x, y) => Tree::Fixed(*kind, *x, *y),
            Tree::Skip(list) => Tree::Skip(list.iter().map(|l| f(l)).collect()),
            Tree::One(kind, x, y, e) => Tree::One(*kind, *x, *y, Box::new(e.map(f))),
            Tree::Two(kind, l, r) => {
                let left = Box::new(l.map(f));
                Tree::Two(*kind, left, Box::new(r.map(f)))
            }
        }
    }

    fn write(&self, rows: &mut Vec<u32>, place: &mut dyn FnMut(&L) -> Span) {
        let before = rows.len();
        let (kind, x, y) = match self {
            Tree::Lit(kind, l) => {
                let (offset, length) = place(l);
                (*kind, offset, length)
            }
            Tree::Fixed(kind, x, y) => (*kind, *x, *y),
            Tree::Skip(list) => {
                for l in list {
                    let (offset, length) = place(l);
                    rows.extend([STR, offset, length, 1]);
                }
                (SKIP, list.len() as u32, 0)
            }
            Tree::One(kind, x, y, e) => {
                e.write(rows, place);
                (*kind, *x, *y)
            }
            Tree::Two(kind, l, r) => {
                l.write(rows, place);
                r.write(rows, place);
                (*kind, 0, 0)
            }
        };
        let size = (rows.len() - before) / 4 + 1;
        rows.extend([kind, x, y, size as u32]);
    }
}

/// Rule words and row words; `place` says where a literal stands, asked for each name, then the rule's literals in row order.
pub fn words<L>(rules: &[Rule<L>], place: &mut dyn FnMut(&L) -> Span) -> (Vec<u32>, Vec<u32>) {
    let (mut rule_words, mut row_words) = (Vec::new(), Vec::new());
    for rule in rules {
        let (offset, length) = place(&rule.name);
        let before = row_words.len();
        rule.tree.write(&mut row_words, place);
        rule_words.extend([offset, length, rule.ty, ((row_words.len() - before) / 4) as u32]);
    }
    (rule_words, row_words)
}

/// The packed table: rule words, row words, text.
pub fn pack(rules: &[Rule<Text>]) -> (Vec<u32>, Vec<u32>, Text) {
    let mut text = Vec::new();
    let (rule_words, row_words) = words(rules, &mut |l: &Text| {
        let offset = text.len() as u32;
        text.extend_from_slice(l);
        (offset, l.len() as u32)
    });
    (rule_words, row_words, text)
}

/// Rows and packed text bytes of a table.
pub fn packed_size<L>(rules: &[Rule<L>], length: fn(&L) -> usize) -> (usize, usize) {
    let (mut rows, mut bytes) = (0, 0);
    for rule in rules {
        rows += rule.tree.rows();
        bytes += length(&rule.name);
        rule.tree.literals(&mut |_, l| bytes += length(l));
    }
    (rows, bytes)
}

pub fn span_bytes(text: &[u8], span: &Span) -> Text {
    text[span.0 as usize..span.0 as usize + span.1 as usize].to_vec()
}

/// A decoded table whose spans are known to lie in the text.
pub fn resolve(rules: &[Rule<Span>], text: &[u8]) -> Vec<Rule<Text>> {
    let mut bytes = |span: &Span| span_bytes(text, span);
    rules
        .iter()
        .map(|rule| Rule { name: span_bytes(text, &rule.name), ty: rule.ty, tree: rule.tree.map(&mut bytes) })
        .collect()
}

impl Case {
    pub fn packed(rules: &[Rule<Text>]) -> Case {
        let (rules, rows, text) = pack(rules);
        Case { rules, rows, text, short: 0 }
    }

    pub fn bytes(&self) -> Vec<u8> {
        let mut out = Vec::new();
        let head = [self.rules.len() as u32, self.rows.len() as u32, self.text.len() as u32, self.short];
        for word in head.iter().chain(&self.rules).chain(&self.rows) {
            out.extend(word.to_le_bytes());
        }
        out.extend(&self.text);
        out
    }

    /// The next case of replay's input; None at its end, and for a case that is cut off.
    pub fn read(from: &mut &[u8]) -> Option<Case> {
        let rules = read_word(from)? as usize;
        let rows = read_word(from)? as usize;
        let text = read_word(from)? as usize;
        let short = read_word(from)?;
        Some(Case { rules: read_words(from, rules)?, rows: read_words(from, rows)?, text: read_bytes(from, text)?, short })
    }
}

impl Answer {
    pub fn refused(number: u32) -> Answer {
        Answer { number, rules: Vec::new(), rows: Vec::new(), text: Vec::new(), report: [0; 14], rest_unchanged: 1 }
    }

    pub fn bytes(&self) -> Vec<u8> {
        let mut out = Vec::new();
        let head = [self.number, (self.rules.len() / 4) as u32, (self.rows.len() / 4) as u32, self.text.len() as u32];
        for word in head.iter().chain(&self.report).chain(&self.rules).chain(&self.rows) {
            out.extend(word.to_le_bytes());
        }
        out.extend(&self.text);
        out.push(self.rest_unchanged);
        out
    }

    /// The next answer of replay's output; None if it is cut off, or larger than full size.
    pub fn read(from: &mut &[u8]) -> Option<Answer> {
        let number = read_word(from)?;
        let rules = read_word(from)? as usize;
        let rows = read_word(from)? as usize;
        let text = read_word(from)? as usize;
        if rules > FULL_RULES || rows > FULL_ROWS || text > FULL_TEXT {
            return None;
        }
        let mut report = [0; 14];
        for word in &mut report {
            *word = read_word(from)?;
        }
        let rules = read_words(from, rules * 4)?;
        let rows = read_words(from, rows * 4)?;
        let text = read_bytes(from, text)?;
        let rest_unchanged = read_bytes(from, 1)?[0];
        Some(Answer { number, rules, rows, text, report, rest_unchanged })
    }
}

pub fn read_bytes(from: &mut &[u8], count: usize) -> Option<Vec<u8>> {
    if from.len() < count {
        return None;
    }
    let (head, tail) = from.split_at(count);
    *from = tail;
    Some(head.to_vec())
}

fn read_word(from: &mut &[u8]) -> Option<u32> {
    let b = read_bytes(from, 4)?;
    Some(u32::from_le_bytes([b[0], b[1], b[2], b[3]]))
}

pub fn read_words(from: &mut &[u8], count: usize) -> Option<Vec<u32>> {
    let bytes = read_bytes(from, count.checked_mul(4)?)?;
    Some(bytes.chunks(4).map(|b| u32::from_le_bytes([b[0], b[1], b[2], b[3]])).collect())
}
