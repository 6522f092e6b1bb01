// Every table of up to four rows over a small alphabet; then every filling of each step's shapes, which need more rows.

use crate::gen::*;
use crate::table::*;

/// Trees by number of rows (index 0 is empty), up to `most`.
fn trees(leaves: &[T], ones: &[(u32, u32, u32)], strings: &[&str], most: usize) -> Vec<Vec<T>> {
    let mut by_rows: Vec<Vec<T>> = vec![Vec::new(), leaves.to_vec()];
    let mut lists: Vec<Vec<Text>> = vec![Vec::new()];
    for rows in 2..=most {
        let mut all = Vec::new();
        for (kind, x, y) in ones {
            for e in &by_rows[rows - 1] {
                all.push(count(*kind, *x, *y, e.clone()));
            }
        }
        for left in 1..rows - 1 {
            for l in &by_rows[left] {
                for r in &by_rows[rows - 1 - left] {
                    all.push(seq(l.clone(), r.clone()));
                    all.push(choice(l.clone(), r.clone()));
                }
            }
        }
        let mut longer = Vec::new();
        for list in &lists {
            for string in strings {
                let mut list = list.clone();
                list.push(string.as_bytes().to_vec());
                all.push(Tree::Skip(list.clone()));
                longer.push(list);
            }
        }
        lists = longer;
        by_rows.push(all);
    }
    by_rows
}

const NAMES: [&str; 4] = ["r", "x", "y", "z"];

/// Every table of `rules` rules and at most four rows in all.
fn tables(by_rows: &[Vec<T>], rules: usize, types: &[u32], visit: &mut dyn FnMut(Case)) {
    fn go(by_rows: &[Vec<T>], rules: usize, left: usize, types: &[u32], so_far: &mut Vec<Rule<Text>>, visit: &mut dyn FnMut(Case)) {
        if so_far.len() == rules {
            visit(Case::packed(so_far));
            return;
        }
        let others = rules - so_far.len() - 1;
        for trees in &by_rows[1..=left - others] {
            for tree in trees {
                for ty in types {
                    so_far.push(rule(NAMES[so_far.len()], *ty, tree.clone()));
                    go(by_rows, rules, left - tree.rows(), types, so_far, visit);
                    so_far.pop();
                }
            }
        }
    }
    go(by_rows, rules, 4, types, &mut Vec::new(), visit);
}

pub fn all(visit: &mut dyn FnMut(Case)) {
    visit(Case::packed(&[]));
    let range = Tree::Fixed(RANGE, 97, 98);
    let every_type = [NORMAL, SILENT, ATOMIC, COMPOUND, NON_ATOMIC];
    let three_types = [NORMAL, ATOMIC, COMPOUND];

    let leaves = [
        s("a"), s("b"), s(""), lit(INSENS, "a"), range.clone(), id("r"), id("x"), id("ANY"), id("POP"), id("DROP"),
        Tree::Fixed(PEEK, 0, 0), Tree::Fixed(PEEK_END, 1, u32::MAX), Tree::Skip(Vec::new()),
    ];
    let ones = [
        (POS_PRED, 0, 0), (NEG_PRED, 0, 0), (OPT, 0, 0), (REP, 0, 0), (REP_ONCE, 0, 0), (PUSH, 0, 0), (REP_EXACT, 0, 0), (REP_EXACT, 1, 0),
        (REP_EXACT, 2, 0), (REP_MIN, 0, 0), (REP_MIN, 1, 0), (REP_MAX, 1, 0), (REP_MAX, 2, 0), (REP_MIN_MAX, 0, 1), (REP_MIN_MAX, 1, 2),
        (REP_MIN_MAX, 2, 1),
    ];
    tables(&trees(&leaves, &ones, &["a", ""], 4), 1, &every_type, visit);

    let leaves = [s("a"), s("b"), lit(INSENS, "a"), range.clone(), id("r"), id("x"), id("ANY"), id("POP"), Tree::Skip(Vec::new())];
    let ones = [
        (NEG_PRED, 0, 0), (OPT, 0, 0), (REP, 0, 0), (PUSH, 0, 0), (REP_ONCE, 0, 0), (REP_EXACT, 1, 0), (REP_EXACT, 2, 0), (REP_MIN, 0, 0),
        (REP_MAX, 1, 0), (REP_MIN_MAX, 1, 2),
    ];
    tables(&trees(&leaves, &ones, &["a"], 3), 2, &every_type, visit);

    let leaves = [s("a"), lit(INSENS, "a"), range, id("r"), id("x"), id("y"), id("ANY"), id("POP")];
    let ones = [(NEG_PRED, 0, 0), (OPT, 0, 0), (REP, 0, 0), (PUSH, 0, 0), (REP_EXACT, 2, 0)];
    tables(&trees(&leaves, &ones, &["a"], 2), 3, &three_types, visit);

    let leaves = [s("a"), id("r"), id("x"), id("y"), id("z"), id("ANY"), id("DROP")];
    tables(&trees(&leaves, &[], &[], 1), 4, &three_types, visit);

    shapes(&every_type, visit);
    loops(visit);
    stack(visit);
}

/// Shapes on which rotate, unroll, concatenate, factor and list fire or nearly fire, every hole filled in every way.
fn shapes(types: &[u32], visit: &mut dyn FnMut(Case)) {
    let fill = [
        s("a"), s("b"), lit(INSENS, "a"), id("r"), id("ANY"), one(NEG_PRED, s("a")), one(OPT, s("a")), one(REP, s("a")), one(PUSH, s("b")),
        seq(s("a"), s("b")), choice(s("a"), s("b")), count(REP_EXACT, 2, 0, s("a")), count(REP_EXACT, 1, 0, choice(s("a"), s("b"))),
    ];
    let mut give = |tree: T| {
        for ty in types {
            visit(Case::packed(&[rule("r", *ty, tree.clone())]));
        }
    };
    for a in &fill {
        for b in &fill {
            for c in &fill {
                let (a, b, c) = (a.clone(), b.clone(), c.clone());
                give(choice(seq(a.clone(), b.clone()), c.clone()));
                give(choice(a.clone(), seq(b.clone(), c.clone())));
                give(choice(choice(a.clone(), b.clone()), c.clone()));
                give(seq(seq(a.clone(), b.clone()), c.clone()));
                give(seq(a.clone(), seq(b.clone(), c.clone())));
                give(seq(one(REP, seq(a.clone(), b.clone())), c.clone()));
                give(seq(one(REP, choice(a.clone(), b.clone())), c.clone()));
                give(one(REP, seq(one(NEG_PRED, choice(a.clone(), b.clone())), c.clone())));
                give(choice(count(REP_EXACT, 1, 0, choice(a.clone(), b.clone())), c.clone()));
                give(one(OPT, choice(one(PUSH, a), one(REP, choice(b, c)))));
            }
        }
    }
    let fill = &fill[..9];
    for a in fill {
        for b in fill {
            for c in fill {
                for d in fill {
                    let (a, b, c, d) = (a.clone(), b.clone(), c.clone(), d.clone());
                    give(choice(seq(a.clone(), b.clone()), seq(c.clone(), d.clone())));
                    give(choice(a.clone(), choice(seq(b.clone(), c.clone()), d.clone())));
                    give(seq(one(REP, seq(a, b)), seq(c, d)));
                }
            }
        }
    }
}

/// (!e ~ ANY)* in an Atomic rule, with every small e and every small pair of rules that it may name.
fn loops(visit: &mut dyn FnMut(Case)) {
    let leaves = [s("a"), s("b"), id("r"), id("x"), id("y"), Tree::Fixed(RANGE, 97, 98)];
    let mut few: Vec<T> = leaves.to_vec();
    for l in &leaves {
        for r in &leaves {
            few.push(choice(l.clone(), r.clone()));
        }
    }
    few.push(seq(s("a"), s("b")));
    few.push(choice(choice(s("a"), s("b")), id("y")));
    few.push(choice(s("a"), choice(id("y"), s("b"))));
    for e in &few {
        for x in &few {
            for y in &few {
                for ty in [ATOMIC, COMPOUND] {
                    visit(Case::packed(&[rule("r", ty, skip_loop(e.clone())), rule("x", NORMAL, x.clone()), rule("y", ATOMIC, y.clone())]));
                }
            }
        }
    }
}

/// References in every direction between three rules, with stack changes, under Opt, Rep and Choice.
fn stack(visit: &mut dyn FnMut(Case)) {
    let leaves = [s("a"), id("POP"), id("r"), id("x"), id("y")];
    let mut few: Vec<T> = leaves.to_vec();
    few.push(one(PUSH, s("a")));
    for e in &leaves {
        few.push(one(OPT, e.clone()));
        few.push(one(REP, one(OPT, e.clone())));
        few.push(seq(s("a"), e.clone()));
        few.push(seq(e.clone(), one(PUSH, s("a"))));
        few.push(choice(e.clone(), id("y")));
        few.push(one(NEG_PRED, one(OPT, seq(id("x"), e.clone()))));
    }
    for a in &few {
        for b in &few {
            for c in &few {
                visit(Case::packed(&[rule("r", NORMAL, a.clone()), rule("x", ATOMIC, b.clone()), rule("y", SILENT, c.clone())]));
            }
        }
    }
}
