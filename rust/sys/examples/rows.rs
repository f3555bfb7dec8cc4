//! Prints the rows of a fax as `faxpages rows` does, by the proved library itself: rows FILE.
use faxpages_sys::{faxpages_fault_name, faxpages_runs_from, FaxFault, FaxPlace, FaxRow, FaxTold};
use std::process::ExitCode;

const DONE: u32 = 0;
const END: u32 = 1;
const FAULT: u32 = 2;
const NO_ROOM: u32 = 5;
/// The most runs of a row.
const RUNS: usize = 65_536;

fn print_row(row: &FaxRow, runs: &[u32]) {
    let runs: Vec<String> = runs.iter().map(u32::to_string).collect();
    println!("row {} {} {}", row.page, row.row, runs.join(" "));
}

fn say(fault: &FaxFault) {
    let mut name = [0; 16];
    let len = faxpages_fault_name(fault.number, &mut name);
    let tag = if fault.tag == 0 { String::new() } else { format!(" {}", fault.tag) };
    eprintln!("fault page {} row {}: {}{tag}", fault.page, fault.row, String::from_utf8_lossy(&name[..len]));
}

fn main() -> ExitCode {
    let file = std::env::args_os().nth(1).map(std::fs::read);
    let Some(Ok(file)) = file else {
        eprintln!("usage: rows FILE");
        return ExitCode::from(2);
    };
    let (mut place, mut before, mut rows) = (FaxPlace::default(), vec![0; RUNS], [FaxRow::default(); 100]);
    let (mut out, mut told) = (vec![0; 4 * RUNS], FaxTold::default());
    loop {
        let status = faxpages_runs_from(&file, &mut place, &mut before, &mut rows, &mut out, &mut told);
        for row in &rows[..told.count] {
            print_row(row, &out[row.at..][..row.len as usize]);
        }
        match status {
            DONE | NO_ROOM => {}
            END => {
                println!("end");
                return ExitCode::SUCCESS;
            }
            FAULT => {
                println!("next 1:{}:{}", told.page, told.row);
                say(&told.fault);
                return ExitCode::FAILURE;
            }
            status => {
                eprintln!("status {status}");
                return ExitCode::from(3);
            }
        }
    }
}
