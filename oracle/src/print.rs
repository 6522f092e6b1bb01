// Cases and answers for people.

use crate::table::*;

fn literal(bytes: &[u8]) -> String {
    let all: String = bytes.iter().take(60).flat_map(|b| std::ascii::escape_default(*b)).map(char::from).collect();
    if bytes.len() > 60 {
        format!("\"{all}..{}\"", bytes.len())
    } else {
        format!("\"{all}\"")
    }
}

pub fn tree(t: &Tree<Text>) -> String {
    let name = |l: &Text| String::from_utf8_lossy(l).into_owned();
    match t {
        Tree::Lit(STR, l) => literal(l),
        Tree::Lit(INSENS, l) => format!("^{}", literal(l)),
        Tree::Lit(_, l) if l.len() > 60 => format!("name of {} bytes", l.len()),
        Tree::Lit(_, l) if l.is_empty() => "<empty name>".to_string(),
        Tree::Lit(_, l) => name(l),
        Tree::Fixed(RANGE, x, y) => format!("{x}..{y}"),
        Tree::Fixed(PEEK, x, _) => format!("PEEK[{}..]", *x as i32),
        Tree::Fixed(_, x, y) => format!("PEEK[{}..{}]", *x as i32, *y as i32),
        Tree::Skip(list) => format!("SKIP[{}]", list.iter().map(|l| literal(l)).collect::<Vec<_>>().join(" ")),
        Tree::Two(SEQ, l, r) => format!("({} ~ {})", tree(l), tree(r)),
        Tree::Two(_, l, r) => format!("({} | {})", tree(l), tree(r)),
        Tree::One(kind, x, y, e) => {
            let e = tree(e);
            match *kind {
                POS_PRED => format!("&{e}"),
                NEG_PRED => format!("!{e}"),
                OPT => format!("{e}?"),
                REP => format!("{e}*"),
                REP_ONCE => format!("{e}+"),
                REP_EXACT => format!("{e}{{{x}}}"),
                REP_MIN => format!("{e}{{{x},}}"),
                REP_MAX => format!("{e}{{,{x}}}"),
                REP_MIN_MAX => format!("{e}{{{x},{y}}}"),
                PUSH => format!("PUSH({e})"),
                _ => format!("RESTORE({e})"),
            }
        }
    }
}

/// The rules as text, if the words are a table whose spans lie in the text.
pub fn readable(rules: &[u32], rows: &[u32], text: &[u8]) -> Option<String> {
    let table = trees(rules, rows, text)?;
    let types = ["", "_", "@", "$", "!"];
    Some(table.iter().map(|r| format!("  {} = {}{{ {} }}\n", literal(&r.name), types[r.ty as usize], tree(&r.tree))).collect())
}

pub fn trees(rules: &[u32], rows: &[u32], text: &[u8]) -> Option<Vec<Rule<Text>>> {
    if rules.len() % 4 != 0 || rows.len() % 4 != 0 {
        return None;
    }
    let table = decode(rules, rows, RESTORE)?;
    let inside = |span: &Span| span.0 as u64 + span.1 as u64 <= text.len() as u64;
    for rule in &table {
        let mut good = inside(&rule.name);
        rule.tree.literals(&mut |_, span| good = good && inside(span));
        if !good {
            return None;
        }
    }
    Some(resolve(&table, text))
}

fn cut<T: std::fmt::Debug>(all: &[T]) -> String {
    if all.len() > 400 {
        return format!("{:?} .. {} in all", &all[..400], all.len());
    }
    format!("{all:?}")
}

pub fn case(c: &Case) -> String {
    let mut out = readable(&c.rules, &c.rows, &c.text).unwrap_or_else(|| "  (not a table)\n".to_string());
    out += &format!("  short {}\n  rules {}\n  rows {}\n  text {}\n", c.short, cut(&c.rules), cut(&c.rows), cut(&c.text));
    out
}

pub fn answer(a: &Answer) -> String {
    if a.number != 0 && a.rules.is_empty() && a.rows.is_empty() && a.text.is_empty() && a.report == [0; 14] && a.rest_unchanged == 1 {
        return format!("  refusal {}\n", a.number);
    }
    let mut out = readable(&a.rules, &a.rows, &a.text).unwrap_or_else(|| "  (not a table)\n".to_string());
    out += &format!("  number {}, report {:?}, rest unchanged {}\n", a.number, a.report, a.rest_unchanged);
    out += &format!("  rules {}\n  rows {}\n  text {}\n", cut(&a.rules), cut(&a.rows), cut(&a.text));
    out
}
