//! A safe wrapper over libarvedun.a, whose C side is include/arvedun.h. Std only: take this file as a module and link the archive
//! (`-l static=arvedun`). Words, kinds and numbers are those of the header.

/// Full size, in elements: what each area below has, and the most that an input may have.
pub const RULE_WORDS: usize = 1024;
pub const ROW_WORDS: usize = 16384;
pub const TEXT_BYTES: usize = 65536;
pub const MARK_WORDS: usize = 1024;
pub const LIST_WORDS: usize = 2048;
pub const OPEN_WORDS: usize = 256;

/// The stack that a calling thread must have left (ARVEDUN_STACK_BYTES): half of what Rust's own threads have.
pub const STACK_BYTES: usize = 1 << 20;

/// The steps, in the report's order.
pub const STEPS: [&str; 7] = ["rotate", "skip", "unroll", "concatenate", "factor", "list", "restore"];

/// Why there is no answer: the header's numbers.
#[derive(Clone, Copy, Debug, PartialEq, Eq)]
#[repr(u32)]
pub enum Refusal {
    /// 1: an area is below full size; those of `Arvedun` never are
    Area = 1,
    /// 2: a word count isn't a multiple of four, or the input is above full size
    Size,
    /// 3: the words are no table of trees
    Shape,
    /// 4: a name or literal outside the text or not ASCII, or a Range word above 127
    Text,
    /// 5: two rules with equal names, or a rule named ANY, DROP or POP
    Names,
    /// 6: RepExact 0, RepMax 0, or RepMinMax with max 0
    Count,
    /// 7: a skip list meets a rule that is already being read
    Cycle,
    /// 8: packed text or rows above full size, in the input or after some step
    Full,
}

impl Refusal {
    pub fn number(self) -> u32 {
        self as u32
    }

    /// None for 0, which is no refusal.
    fn of(number: u32) -> Option<Refusal> {
        Some(match number {
            0 => return None,
            1 => Refusal::Area,
            2 => Refusal::Size,
            3 => Refusal::Shape,
            4 => Refusal::Text,
            5 => Refusal::Names,
            6 => Refusal::Count,
            7 => Refusal::Cycle,
            8 => Refusal::Full,
            other => unreachable!("arvedun gave the number {other}"),
        })
    }
}

/// A finished table, in the areas of the `Arvedun` that gave it.
#[derive(Clone, Copy, Debug, PartialEq, Eq)]
pub struct Table<'a> {
    pub rules: &'a [u32],
    pub rows: &'a [u32],
    pub text: &'a [u8],
    /// rows before and after each step
    pub report: [(u32, u32); 7],
}

/// Rules, rows and text of full size.
struct Areas {
    rules: Box<[u32]>,
    rows: Box<[u32]>,
    text: Box<[u8]>,
}

impl Areas {
    fn new() -> Areas {
        Areas {
            rules: vec![0; RULE_WORDS].into(),
            rows: vec![0; ROW_WORDS].into(),
            text: vec![0; TEXT_BYTES].into(),
        }
    }
}

/// The output and work areas that calls are lent: some 400 KiB.
pub struct Arvedun {
    out: Areas,
    a: Areas,
    b: Areas,
    marks: Box<[u32]>,
}

impl Default for Arvedun {
    fn default() -> Self {
        Self::new()
    }
}

impl Arvedun {
    pub fn new() -> Arvedun {
        Arvedun {
            out: Areas::new(),
            a: Areas::new(),
            b: Areas::new(),
            marks: vec![0; MARK_WORDS].into(),
        }
    }

    /// Rules and rows are four words each, as in the header. The thread needs `STACK_BYTES` of stack.
    #[rustfmt::skip]
    pub fn optimize(&mut self, rules: &[u32], rows: &[u32], text: &[u8]) -> Result<Table<'_>, Refusal> {
        let Arvedun { out, a, b, marks } = self;
        // SAFETY: each pointer and length is a slice's, and the borrows keep the ten areas apart from each other and from the input.
        let answer = unsafe {
            arvedun_optimize(
                rules.as_ptr(), rules.len(), rows.as_ptr(), rows.len(), text.as_ptr(), text.len(),
                out.rules.as_mut_ptr(), out.rules.len(), out.rows.as_mut_ptr(), out.rows.len(), out.text.as_mut_ptr(), out.text.len(),
                a.rules.as_mut_ptr(), a.rules.len(), a.rows.as_mut_ptr(), a.rows.len(), a.text.as_mut_ptr(), a.text.len(),
                b.rules.as_mut_ptr(), b.rules.len(), b.rows.as_mut_ptr(), b.rows.len(), b.text.as_mut_ptr(), b.text.len(),
                marks.as_mut_ptr(), marks.len(),
            )
        };
        match Refusal::of(answer.number) {
            Some(refusal) => Err(refusal),
            None => Ok(Table {
                rules: &out.rules[..4 * answer.rules as usize],
                rows: &out.rows[..4 * answer.rows as usize],
                text: &out.text[..answer.text as usize],
                report: std::array::from_fn(|i| (answer.report[2 * i], answer.report[2 * i + 1])),
            }),
        }
    }
}

/// A grammar that is lent: rules and rows of four words each, as in the header.
#[derive(Clone, Copy, Debug, PartialEq, Eq)]
pub struct Grammar<'a> {
    pub rules: &'a [u32],
    pub rows: &'a [u32],
    pub text: &'a [u8],
}

#[derive(Clone, Copy, Debug, PartialEq, Eq)]
#[repr(u32)]
pub enum Side {
    Left = 0,
    Right = 1,
}

/// How two grammars differ: rules are counted from 0, rows from the rule's first row.
#[derive(Clone, Copy, Debug, PartialEq, Eq)]
pub enum Difference {
    OnlyLeft { left: usize },
    OtherType { left: usize, right: usize },
    /// at the first row that is not the same, or at the shorter rule's number of rows, if it is a prefix of the other
    OtherTree { left: usize, right: usize, row: usize },
    OnlyRight { right: usize },
}

/// The list and the work areas that comparing is lent: 16 KiB.
pub struct Comparer {
    list: Box<[u32]>,
    left_marks: Box<[u32]>,
    right_marks: Box<[u32]>,
}

impl Default for Comparer {
    fn default() -> Self {
        Self::new()
    }
}

impl Comparer {
    pub fn new() -> Comparer {
        Comparer {
            list: vec![0; LIST_WORDS].into(),
            left_marks: vec![0; MARK_WORDS].into(),
            right_marks: vec![0; MARK_WORDS].into(),
        }
    }

    /// How the grammars differ, in the header's order; none exactly where they have the same rules. A refusal comes with its grammar's side.
    #[rustfmt::skip]
    pub fn compare(&mut self, left: Grammar, right: Grammar) -> Result<impl Iterator<Item = Difference> + '_, (Side, Refusal)> {
        let Comparer { list, left_marks, right_marks } = self;
        // SAFETY: each pointer and length is a slice's, and the borrows keep the three areas apart from each other and from the grammars.
        let answer = unsafe {
            arvedun_compare(
                left.rules.as_ptr(), left.rules.len(), left.rows.as_ptr(), left.rows.len(), left.text.as_ptr(), left.text.len(),
                right.rules.as_ptr(), right.rules.len(), right.rows.as_ptr(), right.rows.len(), right.text.as_ptr(), right.text.len(),
                list.as_mut_ptr(), list.len(), left_marks.as_mut_ptr(), left_marks.len(), right_marks.as_mut_ptr(), right_marks.len(),
            )
        };
        if let Some(refusal) = Refusal::of(answer.number) {
            return Err((if answer.side == Side::Left as u32 { Side::Left } else { Side::Right }, refusal));
        }
        Ok(list[..4 * answer.count as usize].chunks(4).map(|entry| {
            let (left, right, row) = (entry[1] as usize, entry[2] as usize, entry[3] as usize);
            match entry[0] {
                0 => Difference::OnlyLeft { left },
                1 => Difference::OtherType { left, right },
                2 => Difference::OtherTree { left, right, row },
                _ => Difference::OnlyRight { right },
            }
        }))
    }
}

/// The literal at a row of a rule of one side, as a part of that side's text. Nothing need hold of the grammars.
#[rustfmt::skip]
pub fn shown<'a>(left: Grammar<'a>, right: Grammar<'a>, side: Side, rule: usize, row: usize) -> Option<&'a [u8]> {
    // SAFETY: each pointer and length is a slice's, and nothing is written.
    let literal = unsafe {
        arvedun_shown(
            left.rules.as_ptr(), left.rules.len(), left.rows.as_ptr(), left.rows.len(), left.text.as_ptr(), left.text.len(),
            right.rules.as_ptr(), right.rules.len(), right.rows.as_ptr(), right.rows.len(), right.text.as_ptr(), right.text.len(),
            side as u32, rule as u64, row as u64,
        )
    };
    let text = match side {
        Side::Left => left.text,
        Side::Right => right.text,
    };
    let from = literal.offset as usize;
    (literal.found == 1).then(|| &text[from..from + literal.length as usize])
}

/// Why a row stays a loop, in the order in which it is asked. Rules are counted from 0, rows from the table's first.
#[derive(Clone, Copy, Debug, PartialEq, Eq)]
pub enum Explanation<'a> {
    BecomesSkip,
    NotRep,
    Regroup,
    NotAtomic,
    NotSeq,
    NotNegPred,
    NotAny,
    /// an Ident at row `at` of rule `rule` names no rule
    Unknown { rule: usize, at: usize },
    /// another expression that is no list stands there
    Other { rule: usize, at: usize },
    /// an Ident there names the rule `met`, while the rules `open` are being read, outermost first
    MetAgain { rule: usize, at: usize, met: usize, open: &'a [u32] },
}

/// The list and the work area that explaining is lent: 5 KiB.
pub struct Explainer {
    list: Box<[u32]>,
    marks: Box<[u32]>,
}

impl Default for Explainer {
    fn default() -> Self {
        Self::new()
    }
}

impl Explainer {
    pub fn new() -> Explainer {
        Explainer { list: vec![0; OPEN_WORDS].into(), marks: vec![0; MARK_WORDS].into() }
    }

    /// Why row `row`, counted from the grammar's first, stays a loop: of step 2 alone, on the grammar given.
    #[rustfmt::skip]
    pub fn explain(&mut self, grammar: Grammar, row: usize) -> Result<Explanation<'_>, Refusal> {
        let Explainer { list, marks } = self;
        // SAFETY: each pointer and length is a slice's, and the borrows keep the two areas apart from each other and from the grammar.
        let answer = unsafe {
            arvedun_explain(
                grammar.rules.as_ptr(), grammar.rules.len(), grammar.rows.as_ptr(), grammar.rows.len(), grammar.text.as_ptr(), grammar.text.len(),
                row as u64, list.as_mut_ptr(), list.len(), marks.as_mut_ptr(), marks.len(),
            )
        };
        if let Some(refusal) = Refusal::of(answer.number) {
            return Err(refusal);
        }
        let (rule, at) = (answer.rule as usize, answer.at as usize);
        Ok(match answer.answer {
            0 => Explanation::BecomesSkip,
            1 => Explanation::NotRep,
            2 => Explanation::Regroup,
            3 => Explanation::NotAtomic,
            4 => Explanation::NotSeq,
            5 => Explanation::NotNegPred,
            6 => Explanation::NotAny,
            7 => Explanation::Unknown { rule, at },
            8 => Explanation::Other { rule, at },
            _ => Explanation::MetAgain { rule, at, met: answer.met as usize, open: &list[..answer.open as usize] },
        })
    }
}

#[repr(C)]
struct ArvedunAnswer {
    number: u32,
    rules: u32,
    rows: u32,
    text: u32,
    report: [u32; 14],
}

#[repr(C)]
struct ArvedunCompared {
    number: u32,
    side: u32,
    count: u32,
}

#[repr(C)]
struct ArvedunLiteral {
    found: u32,
    offset: u32,
    length: u32,
}

#[repr(C)]
struct ArvedunExplained {
    number: u32,
    answer: u32,
    rule: u32,
    at: u32,
    met: u32,
    open: u32,
}

extern "C" {
    #[rustfmt::skip]
    fn arvedun_optimize(
        rules: *const u32, rules_len: usize, rows: *const u32, rows_len: usize, text: *const u8, text_len: usize,
        out_rules: *mut u32, out_rules_len: usize, out_rows: *mut u32, out_rows_len: usize, out_text: *mut u8, out_text_len: usize,
        a_rules: *mut u32, a_rules_len: usize, a_rows: *mut u32, a_rows_len: usize, a_text: *mut u8, a_text_len: usize,
        b_rules: *mut u32, b_rules_len: usize, b_rows: *mut u32, b_rows_len: usize, b_text: *mut u8, b_text_len: usize,
        marks: *mut u32, marks_len: usize,
    ) -> ArvedunAnswer;

    #[rustfmt::skip]
    fn arvedun_compare(
        left_rules: *const u32, left_rules_len: usize, left_rows: *const u32, left_rows_len: usize, left_text: *const u8, left_text_len: usize,
        right_rules: *const u32, right_rules_len: usize, right_rows: *const u32, right_rows_len: usize,
        right_text: *const u8, right_text_len: usize,
        list: *mut u32, list_len: usize, left_marks: *mut u32, left_marks_len: usize, right_marks: *mut u32, right_marks_len: usize,
    ) -> ArvedunCompared;

    #[rustfmt::skip]
    fn arvedun_shown(
        left_rules: *const u32, left_rules_len: usize, left_rows: *const u32, left_rows_len: usize, left_text: *const u8, left_text_len: usize,
        right_rules: *const u32, right_rules_len: usize, right_rows: *const u32, right_rows_len: usize,
        right_text: *const u8, right_text_len: usize,
        side: u32, rule: u64, row: u64,
    ) -> ArvedunLiteral;

    #[rustfmt::skip]
    fn arvedun_explain(
        rules: *const u32, rules_len: usize, rows: *const u32, rows_len: usize, text: *const u8, text_len: usize, row: u64,
        list: *mut u32, list_len: usize, marks: *mut u32, marks_len: usize,
    ) -> ArvedunExplained;
}
