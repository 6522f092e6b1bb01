// Document 01's checked examples W1 to W12, with the answers written there.

use crate::gen::*;
use crate::table::*;

pub struct Example {
    pub label: &'static str,
    pub given: Vec<Rule<Text>>,
    pub wanted: Result<Vec<Rule<Text>>, u32>,
}

/// A sole rule r and what it becomes.
fn sole(label: &'static str, ty: u32, given: T, wanted: T) -> Example {
    Example { label, given: vec![rule("r", ty, given)], wanted: Ok(vec![rule("r", ty, wanted)]) }
}

fn push(a: T) -> T {
    one(PUSH, a)
}

pub fn examples() -> Vec<Example> {
    let (a, b, c, d, e) = (|| id("a"), || id("b"), || id("c"), || id("d"), || id("e"));
    let abc = || seq(seq(s("a"), s("b")), s("c"));
    let x4 = rule("x", NORMAL, choice(choice(s("a"), s("b")), s("c")));
    let x4_rotated = rule("x", NORMAL, choice(s("a"), choice(s("b"), s("c"))));
    let r_loop = |e: T| rule("r", ATOMIC, skip_loop(e));
    let range = || Tree::Fixed(RANGE, 97, 98);
    let x5 = || rule("x", NORMAL, choice(range(), id("x")));
    let exact = |n| vec![rule("r", NORMAL, count(REP_EXACT, n, 0, s("a")))];
    let copies = (1..2048).fold(s("a"), |t, _| seq(s("a"), t));
    let letters = || vec![rule("a", ATOMIC, s("a")), rule("b", ATOMIC, s("b"))];
    let with_letters = |tree: T| [vec![rule("r", ATOMIC, tree)], letters()].concat();
    let strings = Tree::Skip(vec![b"a".to_vec(), b"b".to_vec()]);
    let restored = |a: T| one(RESTORE, a);
    vec![
        sole("W1", ATOMIC, abc(), s("abc")),
        sole("W2", COMPOUND, abc(), seq(s("a"), seq(s("b"), s("c")))),
        sole("W3", ATOMIC, skip_loop(choice(s("a"), s("b"))), strings),
        Example { label: "W4", given: vec![r_loop(id("x")), x4], wanted: Ok(vec![r_loop(id("x")), x4_rotated]) },
        Example { label: "W5 again", given: vec![r_loop(id("x")), rule("x", NORMAL, choice(s("a"), id("x")))], wanted: Err(7) },
        Example { label: "W5 none", given: vec![r_loop(id("x")), x5()], wanted: Ok(vec![r_loop(id("x")), x5()]) },
        Example { label: "W5 itself", given: vec![r_loop(id("r"))], wanted: Ok(vec![r_loop(id("r"))]) },
        sole("W6 min 0", NORMAL, count(REP_MIN, 0, 0, e()), one(REP, e())),
        sole("W6 3,2", NORMAL, count(REP_MIN_MAX, 3, 2, e()), seq(e(), e())),
        sole("W6 max 2", NORMAL, count(REP_MAX, 2, 0, e()), seq(one(OPT, e()), one(OPT, e()))),
        sole("W7 Normal", NORMAL, choice(seq(a(), b()), a()), choice(seq(a(), b()), a())),
        sole("W7 CompoundAtomic", COMPOUND, choice(seq(a(), b()), a()), seq(a(), one(OPT, b()))),
        sole("W8", NORMAL, seq(one(REP, seq(a(), b())), a()), seq(a(), one(REP, seq(b(), a())))),
        sole("W8 longer", NORMAL, seq(seq(one(REP, seq(a(), b())), a()), c()), seq(one(REP, seq(a(), b())), seq(a(), c()))),
        sole("W9", NORMAL, one(OPT, choice(push(a()), b())), one(OPT, choice(restored(push(a())), b()))),
        sole(
            "W10 unchanged",
            NORMAL,
            choice(seq(a(), b()), choice(seq(a(), c()), d())),
            choice(seq(a(), b()), choice(seq(a(), c()), d())),
        ),
        sole("W10", NORMAL, choice(d(), choice(seq(a(), b()), seq(a(), c()))), choice(d(), seq(a(), choice(b(), c())))),
        Example { label: "W11 fits", given: exact(2048), wanted: Ok(vec![rule("r", NORMAL, copies)]) },
        Example { label: "W11 above", given: exact(2049), wanted: Err(8) },
        Example {
            label: "W12",
            given: with_letters(seq(one(REP, seq(a(), b())), a())),
            wanted: Ok(with_letters(seq(a(), one(REP, seq(b(), a()))))),
        },
    ]
}

/// What the document says of an example, but for the report.
pub fn wanted(example: &Example, report: [u32; 14]) -> Answer {
    match &example.wanted {
        Err(number) => Answer::refused(*number),
        Ok(table) => {
            let (rules, rows, text) = pack(table);
            Answer { number: 0, rules, rows, text, report, rest_unchanged: 1 }
        }
    }
}

pub const W1_REPORT: [u32; 14] = [5, 5, 5, 5, 5, 5, 5, 1, 1, 1, 1, 1, 1, 1];
