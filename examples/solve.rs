// 3*x1 + 5*x2 - 7 = 0 with x1 >= 0 and x2 >= 0, solved from Rust.

// A slice of the library is a pointer and a length; include/plassobine.h says what each array holds.
extern "C" {
    fn plassobine_solve(
        n: usize,
        m: usize,
        k: usize,
        equations: *const i64,
        equations_length: usize,
        inequalities: *const i64,
        inequalities_length: usize,
        substitution: *mut i64,
        substitution_length: usize,
        marks: *mut u8,
        marks_length: usize,
        back: *mut i64,
        back_length: usize,
        reasons: *mut i64,
        reasons_length: usize,
        conflict: *mut i64,
        conflict_length: usize,
        tightened: *mut i64,
        tightened_length: usize,
        used: *mut u64,
        used_length: usize,
        outcome: *mut u64,
        outcome_length: usize,
    ) -> u32;
}

/// What a call leaves behind, beside the outcome.
struct Results {
    substitution: Vec<i64>,
    marks: Vec<u8>,
    back: Vec<i64>,
    reasons: Vec<i64>,
    conflict: Vec<i64>,
    tightened: Vec<i64>,
    used: Vec<u64>,
}

impl Results {
    fn new(n: usize, m: usize, k: usize) -> Results {
        Results {
            substitution: vec![0; n * (n + 1)],
            marks: vec![0; n],
            back: vec![0; n * (n + 1)],
            reasons: vec![0; n * (m + 1)],
            conflict: vec![0; m + 1],
            tightened: vec![0; k * (n + 1)],
            used: vec![0; k],
        }
    }
}

/// Safe for all arguments: the library asks nothing of the numbers or of the lengths.
fn solve(n: usize, m: usize, k: usize, equations: &[i64], inequalities: &[i64], results: &mut Results) -> [u64; 5] {
    let mut outcome = [0; 5];
    let answered = unsafe {
        plassobine_solve(
            n,
            m,
            k,
            equations.as_ptr(),
            equations.len(),
            inequalities.as_ptr(),
            inequalities.len(),
            results.substitution.as_mut_ptr(),
            results.substitution.len(),
            results.marks.as_mut_ptr(),
            results.marks.len(),
            results.back.as_mut_ptr(),
            results.back.len(),
            results.reasons.as_mut_ptr(),
            results.reasons.len(),
            results.conflict.as_mut_ptr(),
            results.conflict.len(),
            results.tightened.as_mut_ptr(),
            results.tightened.len(),
            results.used.as_mut_ptr(),
            results.used.len(),
            outcome.as_mut_ptr(),
            outcome.len(),
        )
    };
    assert_eq!(answered, 1);
    outcome
}

/// The equations that an inequality used: bit j - 1 stands for equation j.
fn print_used(i: u64, m: usize, used: u64) {
    print!("inequality {i} used equations");
    for j in 1..=m {
        if used >> (j - 1) & 1 == 1 {
            print!(" {j}");
        }
    }
    println!();
}

fn main() {
    let (n, m, k) = (2, 1, 2);
    // An inequality says sum + constant <= 0, so x1 >= 0 is -x1 <= 0.
    let equations = [3, 5, -7];
    let inequalities = [-1, 0, 0, 0, -1, 0];
    let mut results = Results::new(n, m, k);
    let outcome = solve(n, m, k, &equations, &inequalities, &mut results);

    let numbers: Vec<String> = outcome.iter().map(|number| number.to_string()).collect();
    println!("outcome {}", numbers.join(" "));
    if outcome[0] == 3 {
        for i in [outcome[1], outcome[2]] {
            print_used(i, m, results.used[i as usize - 1]);
        }
    }
}
