//! A grammar that is put together row by row, children first: for the examples.

use crate::arvedun::Grammar;

pub const STR: u32 = 0;
pub const RANGE: u32 = 2;
pub const IDENT: u32 = 3;
pub const SEQ: u32 = 8;
pub const CHOICE: u32 = 9;
pub const OPT: u32 = 10;
pub const REP_ONCE: u32 = 12;
pub const REP_EXACT: u32 = 13;
pub const NORMAL: u32 = 0;
pub const SILENT: u32 = 1;
pub const ATOMIC: u32 = 2;

#[derive(Default)]
pub struct Builder {
    rules: Vec<u32>,
    rows: Vec<u32>,
    text: Vec<u8>,
}

impl Builder {
    pub fn put(&mut self, s: &str) -> [u32; 2] {
        let from = self.text.len() as u32;
        self.text.extend(s.as_bytes());
        [from, s.len() as u32]
    }

    /// The next rule: its rows follow.
    pub fn rule(&mut self, name: &str, ty: u32) -> &mut Self {
        let [x, y] = self.put(name);
        self.rules.extend([x, y, ty, 0]);
        self
    }

    pub fn row(&mut self, kind: u32, x: u32, y: u32, size: u32) -> &mut Self {
        self.rows.extend([kind, x, y, size]);
        *self.rules.last_mut().expect("a rule") += 1;
        self
    }

    pub fn lit(&mut self, kind: u32, s: &str) -> &mut Self {
        let [x, y] = self.put(s);
        self.row(kind, x, y, 1)
    }

    pub fn digits(&mut self) -> &mut Self {
        self.row(RANGE, b'0' as u32, b'9' as u32, 1)
    }

    /// The size of the tree whose root stands so many words before the end.
    pub fn size(&self, before: u32) -> u32 {
        self.rows[self.rows.len() - 1 - 4 * before as usize]
    }

    /// One child, which is the last row.
    pub fn one(&mut self, kind: u32, x: u32) -> &mut Self {
        self.row(kind, x, 0, 1 + self.size(0))
    }

    /// Two children, of which the right one is the last row.
    pub fn two(&mut self, kind: u32) -> &mut Self {
        let right = self.size(0);
        self.row(kind, 0, 0, 1 + self.size(right) + right)
    }

    pub fn grammar(&self) -> Grammar<'_> {
        Grammar { rules: &self.rules, rows: &self.rows, text: &self.text }
    }
}

pub fn name<'a>(g: Grammar<'a>, rule: usize) -> std::borrow::Cow<'a, str> {
    let from = g.rules[4 * rule] as usize;
    String::from_utf8_lossy(&g.text[from..from + g.rules[4 * rule + 1] as usize])
}
