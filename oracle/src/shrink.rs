// Makes a case on which something differs smaller, as long as it still differs (and for a minute at most).

use crate::gen::*;
use crate::print::trees;
use crate::table::*;

pub fn shrink(case: &Case, tries: usize, differs: &mut dyn FnMut(&Case) -> bool) -> Case {
    let mut best = case.clone();
    let mut left = tries;
    let start = std::time::Instant::now();
    'again: loop {
        for smaller in candidates(&best) {
            if left == 0 || start.elapsed().as_secs() > 60 {
                return best;
            }
            left -= 1;
            if smaller != best && differs(&smaller) {
                best = smaller;
                continue 'again;
            }
        }
        return best;
    }
}

fn candidates(case: &Case) -> Vec<Case> {
    let mut all = Vec::new();
    if case.short != 0 {
        all.push(Case { short: 0, ..case.clone() });
    }
    match trees(&case.rules, &case.rows, &case.text) {
        Some(table) => tables(&table, case.short, &mut all),
        None => {}
    }
    words_less(case, &mut all);
    all
}

fn tables(table: &[Rule<Text>], short: u32, all: &mut Vec<Case>) {
    let mut give = |rules: &[Rule<Text>]| all.push(Case { short, ..Case::packed(rules) });
    for i in 0..table.len() {
        let mut fewer = table.to_vec();
        fewer.remove(i);
        give(&fewer);
    }
    for i in 0..table.len() {
        let mut other = table.to_vec();
        for tree in smaller(&table[i].tree).into_iter().take(300) {
            other[i].tree = tree;
            give(&other);
        }
        if table[i].name.len() > 1 {
            let mut other = table.to_vec();
            other[i].name = vec![b'a' + (i % 26) as u8];
            give(&other);
        }
    }
}

/// Trees with one node less, or with a simpler node.
fn smaller(tree: &T) -> Vec<T> {
    let mut all = Vec::new();
    if *tree != s("a") {
        all.push(s("a"));
    }
    match tree {
        Tree::Lit(kind, l) => {
            if l.len() > 1 {
                all.push(Tree::Lit(*kind, l[..l.len() / 2].to_vec()));
                all.push(Tree::Lit(*kind, l[1..].to_vec()));
            }
        }
        Tree::Fixed(..) => {}
        Tree::Skip(list) => {
            for i in 0..list.len().min(50) {
                let mut list = list.clone();
                list.remove(i);
                all.push(Tree::Skip(list));
            }
        }
        Tree::One(kind, x, y, e) => {
            all.push((**e).clone());
            if *x > 1 {
                all.push(count(*kind, x / 2, *y, (**e).clone()));
                all.push(count(*kind, x - 1, *y, (**e).clone()));
            }
            if *y > 1 {
                all.push(count(*kind, *x, y / 2, (**e).clone()));
                all.push(count(*kind, *x, y - 1, (**e).clone()));
            }
            all.extend(smaller(e).into_iter().take(300).map(|e| count(*kind, *x, *y, e)));
        }
        Tree::Two(kind, l, r) => {
            all.push((**l).clone());
            all.push((**r).clone());
            all.extend(smaller(l).into_iter().take(150).map(|l| two(*kind, l, (**r).clone())));
            all.extend(smaller(r).into_iter().take(150).map(|r| two(*kind, (**l).clone(), r)));
        }
    }
    all
}

fn words_less(case: &Case, all: &mut Vec<Case>) {
    for i in (0..case.rules.len()).step_by(4).take(64) {
        let mut c = case.clone();
        c.rules.drain(i..(i + 4).min(c.rules.len()));
        all.push(c);
    }
    for i in (0..case.rows.len()).step_by(4).take(256) {
        let mut c = case.clone();
        c.rows.drain(i..(i + 4).min(c.rows.len()));
        all.push(c);
    }
    for length in [0, case.text.len() / 2, case.text.len().saturating_sub(1)] {
        let mut c = case.clone();
        c.text.truncate(length);
        all.push(c);
    }
}
