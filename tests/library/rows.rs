//! Prints a file's rows as `faxpages rows` does, through libfaxpages: rows FILE.
use std::process::exit;

#[repr(C)]
#[derive(Clone, Copy, Default)]
struct Fault {
    number: u32,
    tag: u32,
    page: u32,
    row: u32,
}

#[repr(C)]
#[derive(Clone, Copy, Default)]
struct Told {
    count: usize,
    used: usize,
    page: u32,
    row: u32,
    fault: Fault,
}

#[repr(C)]
#[derive(Clone, Copy, Default)]
struct Row {
    at: usize,
    len: u32,
    page: u32,
    row: u32,
    width: u32,
}

#[link(name = "faxpages", kind = "static")]
extern "C" {
    fn faxpages_changes(
        file: *const u8,
        len: usize,
        page: u32,
        row: u32,
        rows: *mut Row,
        rows_room: usize,
        out: *mut u32,
        out_room: usize,
        told: *mut Told,
    ) -> u32;
    fn faxpages_fault_name(number: u32, name: *mut u8, room: usize) -> usize;
}

fn name_of(number: u32) -> String {
    let mut name = [0; 16];
    let len = unsafe { faxpages_fault_name(number, name.as_mut_ptr(), name.len()) };
    String::from_utf8_lossy(&name[..len]).into_owned()
}

fn print_row(row: &Row, changes: &[u32]) {
    let mut line = format!("row {} {}", row.page, row.row);
    let mut at = 0;
    for change in changes.iter().chain([&row.width]) {
        line.push_str(&format!(" {}", change - at));
        at = *change;
    }
    println!("{line}");
}

fn main() {
    let file = std::fs::read(std::env::args().nth(1).unwrap()).unwrap();
    let (mut rows, mut out, mut told) = (vec![Row::default(); 100], vec![0; 1 << 18], Told::default());
    let status = loop {
        let status = unsafe {
            faxpages_changes(
                file.as_ptr(),
                file.len(),
                told.page,
                told.row,
                rows.as_mut_ptr(),
                rows.len(),
                out.as_mut_ptr(),
                out.len(),
                &mut told,
            )
        };
        for row in &rows[..told.count] {
            print_row(row, &out[row.at..][..row.len as usize]);
        }
        if status != 0 && status != 5 {
            break status;
        }
    };
    match status {
        1 => println!("end"),
        2 => {
            let fault = told.fault;
            println!("next 1:{}:{}", told.page, told.row);
            let tag = if fault.tag == 0 { String::new() } else { format!(" {}", fault.tag) };
            eprintln!("fault page {} row {}: {}{tag}", fault.page, fault.row, name_of(fault.number));
            exit(1);
        }
        status => {
            eprintln!("status {status}");
            exit(3);
        }
    }
}
