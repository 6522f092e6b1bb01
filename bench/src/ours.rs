// Calls the static library's entry. Built without the library (no --cfg ours), every call ends the program.

use crate::table::{Answer, Case};

#[repr(C)]
pub struct ArvedunAnswer {
    number: u32,
    rules: u32,
    rows: u32,
    text: u32,
    report: [u32; 14],
}

#[cfg(ours)]
extern "C" {
    // arvedun.h
    #[rustfmt::skip]
    fn arvedun_optimize(
        rules: *const u32, rules_len: usize, rows: *const u32, rows_len: usize, text: *const u8, text_len: usize,
        out_rules: *mut u32, out_rules_len: usize, out_rows: *mut u32, out_rows_len: usize, out_text: *mut u8, out_text_len: usize,
        a_rules: *mut u32, a_rules_len: usize, a_rows: *mut u32, a_rows_len: usize, a_text: *mut u8, a_text_len: usize,
        b_rules: *mut u32, b_rules_len: usize, b_rows: *mut u32, b_rows_len: usize, b_text: *mut u8, b_text_len: usize,
        marks: *mut u32, marks_len: usize,
    ) -> ArvedunAnswer;
}

/// Rules, rows and text of full size.
struct Area {
    rules: Vec<u32>,
    rows: Vec<u32>,
    text: Vec<u8>,
}

impl Area {
    fn new() -> Area {
        Area { rules: vec![0; 1024], rows: vec![0; 16384], text: vec![0; 65536] }
    }
}

pub struct Areas {
    out: Area,
    a: Area,
    b: Area,
    marks: Vec<u32>,
}

impl Areas {
    /// Everything that is lent, cleared.
    pub fn new() -> Areas {
        Areas { out: Area::new(), a: Area::new(), b: Area::new(), marks: vec![0; 1024] }
    }

    #[cfg(ours)]
    #[rustfmt::skip]
    pub fn call(&mut self, case: &Case) -> ArvedunAnswer {
        let (out, a, b) = (&mut self.out, &mut self.a, &mut self.b);
        unsafe {
            arvedun_optimize(
                case.rules.as_ptr(), case.rules.len(), case.rows.as_ptr(), case.rows.len(), case.text.as_ptr(), case.text.len(),
                out.rules.as_mut_ptr(), out.rules.len(), out.rows.as_mut_ptr(), out.rows.len(), out.text.as_mut_ptr(), out.text.len(),
                a.rules.as_mut_ptr(), a.rules.len(), a.rows.as_mut_ptr(), a.rows.len(), a.text.as_mut_ptr(), a.text.len(),
                b.rules.as_mut_ptr(), b.rules.len(), b.rows.as_mut_ptr(), b.rows.len(), b.text.as_mut_ptr(), b.text.len(),
                self.marks.as_mut_ptr(), self.marks.len(),
            )
        }
    }

    #[cfg(not(ours))]
    pub fn call(&mut self, _case: &Case) -> ArvedunAnswer {
        let _ = (&self.a, &self.b, &self.marks);
        eprintln!("built without the library");
        std::process::exit(4)
    }

    /// The call, and its answer as a value (for `check`).
    pub fn optimize(&mut self, case: &Case) -> Answer {
        let answer = self.call(case);
        Answer {
            number: answer.number,
            rules: self.out.rules[..4 * answer.rules as usize].to_vec(),
            rows: self.out.rows[..4 * answer.rows as usize].to_vec(),
            text: self.out.text[..answer.text as usize].to_vec(),
            report: answer.report,
            rest_unchanged: 1,
        }
    }
}
