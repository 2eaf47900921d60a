//! Calls costing_meets on the cases of a file: the answer that is expected, an equation line and a plan line.
use std::process::ExitCode;

unsafe extern "C" {
    fn costing_meets(equation: *const u8, equation_len: usize, plan: *const u8, plan_len: usize) -> i32;
}

/// The call on two slices, which are what its pointers and lengths have to be.
fn meets(equation: &[u8], plan: &[u8]) -> i32 {
    unsafe { costing_meets(equation.as_ptr(), equation.len(), plan.as_ptr(), plan.len()) }
}

fn main() -> ExitCode {
    let path = std::env::args().nth(1).expect("the file of cases");
    let cases = std::fs::read_to_string(path).expect("a file that can be read");
    let (mut made, mut wrong) = (0, 0);
    for case in cases.lines() {
        let words: Vec<&str> = case.split(' ').collect();
        let &[expected, equation, plan] = &words[..] else {
            continue;
        };
        let answer = meets(equation.as_bytes(), plan.as_bytes());
        println!("Rust: {answer} for {equation} and {plan}");
        made += 1;
        wrong += usize::from(answer.to_string() != expected);
    }
    wrong += usize::from(meets(b"", b"") != 3);
    println!("Rust: {} calls, {wrong} wrong", made + 1);
    ExitCode::from(u8::from(wrong != 0 || made == 0))
}
