//! Judges a delivery by a rule text: judge MODEL DELIVERY RULES. Its output and status are those of `ocl_check judge --text`.
use std::io::Write;
use std::process::ExitCode;
use std::{env, fs, io};

unsafe extern "C" {
    fn ocl_check_judge(
        model: *const u8, model_length: usize,
        delivery: *const u8, delivery_length: usize,
        rules: *const u8, rules_length: usize,
        is_text: bool, budget: u64,
        out: *mut u8, out_length: usize, wants: *mut usize,
    ) -> u8;
}

const MAX_BUDGET: u64 = i64::MAX as u64;

/// The report on a delivery, or the line of a refusal, with its status.
fn judge(model: &[u8], delivery: &[u8], rules: &[u8]) -> (Vec<u8>, u8) {
    let mut out = vec![0; 4096];
    loop {
        let mut wants = 0;
        // (the pointer of an empty slice isn't null)
        let status = unsafe {
            ocl_check_judge(
                model.as_ptr(), model.len(), delivery.as_ptr(), delivery.len(), rules.as_ptr(), rules.len(),
                true, MAX_BUDGET, out.as_mut_ptr(), out.len(), &mut wants,
            )
        };
        if wants <= out.len() {
            out.truncate(wants);
            return (out, status);
        }
        out.resize(wants, 0);
    }
}

fn main() -> io::Result<ExitCode> {
    let paths: Vec<String> = env::args().skip(1).collect();
    let [model, delivery, rules] = paths.as_slice() else {
        eprintln!("usage: judge MODEL DELIVERY RULES");
        return Ok(ExitCode::from(2));
    };
    let (report, status) = judge(&fs::read(model)?, &fs::read(delivery)?, &fs::read(rules)?);
    io::stdout().write_all(&report)?;
    Ok(ExitCode::from(status))
}
