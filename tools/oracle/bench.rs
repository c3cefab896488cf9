//! Times the Rust, the proved compiler and its image on the same sheets, in one
//! process.
//!
//!   bench RUNS SHEET..
//!
//! Of each sheet it prints its path and the medians of so many runs of each,
//! in nanoseconds of the processor's time: sheet to syntax tree to listing in
//! the Rust (driver.rs), sheet to listing, and sheet to listing, image and
//! area. The listings of all three must be the same.
#![allow(dead_code, unused)]

mod ast;
mod codegen;
mod symtab;
mod token;

use std::hint::black_box;

const ROOM: usize = 65536;

/// Linux on x86-64.
const CLOCK_THREAD_CPUTIME_ID: i32 = 3;

#[repr(C)]
struct Timespec {
    seconds: i64,
    nanoseconds: i64,
}

unsafe extern "C" {
    fn clock_gettime(clock: i32, time: *mut Timespec) -> i32;

    // A slice is a pointer and a length.
    fn limbo_sheet_compile(
        sheet: *const u8,
        sheet_bytes: usize,
        listing: *mut u8,
        listing_bytes: usize,
        work: *mut u8,
        work_bytes: usize,
    ) -> Compiled;

    fn limbo_sheet_image(
        sheet: *const u8,
        sheet_bytes: usize,
        listing: *mut u8,
        listing_bytes: usize,
        image: *mut u8,
        image_bytes: usize,
        area: *mut u8,
        area_bytes: usize,
        work: *mut u8,
        work_bytes: usize,
    ) -> Laid;
}

/// As bindings/c/limbo_sheet.h has it.
#[repr(C)]
struct Compiled {
    number: u8,
    line: usize,
    listing: usize,
}

#[repr(C)]
struct Laid {
    number: u8,
    line: usize,
    listing: usize,
    image: usize,
    area: usize,
}

fn proved<'a>(sheet: &[u8], listing: &'a mut [u8], work: &mut [u8]) -> &'a [u8] {
    let answer = unsafe {
        limbo_sheet_compile(
            sheet.as_ptr(),
            sheet.len(),
            listing.as_mut_ptr(),
            listing.len(),
            work.as_mut_ptr(),
            work.len(),
        )
    };
    assert_eq!(answer.number, 0, "refused at line {}", answer.line);
    &listing[..answer.listing]
}

/// The listing, with the image and the area made too.
fn laid<'a>(sheet: &[u8], listing: &'a mut [u8], data: &mut [[u8; ROOM]; 2], work: &mut [u8]) -> &'a [u8] {
    let [image, area] = data;
    let answer = unsafe {
        limbo_sheet_image(
            sheet.as_ptr(),
            sheet.len(),
            listing.as_mut_ptr(),
            listing.len(),
            image.as_mut_ptr(),
            image.len(),
            area.as_mut_ptr(),
            area.len(),
            work.as_mut_ptr(),
            work.len(),
        )
    };
    assert_eq!(answer.number, 0, "refused at line {}", answer.line);
    &listing[..answer.listing]
}

/// The time that this thread has had so far.
fn now() -> i64 {
    let mut time = Timespec { seconds: 0, nanoseconds: 0 };
    assert_eq!(unsafe { clock_gettime(CLOCK_THREAD_CPUTIME_ID, &mut time) }, 0);
    time.seconds * 1_000_000_000 + time.nanoseconds
}

fn median(mut times: Vec<i64>) -> i64 {
    times.sort();
    times[times.len() / 2]
}

fn main() {
    let mut args = std::env::args().skip(1);
    let runs: usize = args.next().expect("RUNS").parse().expect("RUNS");
    for path in args {
        let sheet = std::fs::read(&path).expect("a sheet");
        let (mut listing, mut work) = (vec![0; ROOM], vec![0; ROOM]);
        let mut data = Box::new([[0; ROOM]; 2]);
        let rust = codegen::driver::answer(&sheet, "ref", false);
        assert_eq!(rust.as_bytes(), proved(&sheet, &mut listing, &mut work), "{path}");
        assert_eq!(rust.as_bytes(), laid(&sheet, &mut listing, &mut data, &mut work), "{path}");
        let (mut of_rust, mut of_proved, mut of_image) = (Vec::new(), Vec::new(), Vec::new());
        for _ in 0..runs {
            let start = now();
            black_box(codegen::driver::answer(black_box(&sheet), "ref", false));
            let middle = now();
            black_box(proved(black_box(&sheet), &mut listing, &mut work));
            let end = now();
            black_box(laid(black_box(&sheet), &mut listing, &mut data, &mut work));
            of_image.push(now() - end);
            of_rust.push(middle - start);
            of_proved.push(end - middle);
        }
        println!("{path} {} {} {}", median(of_rust), median(of_proved), median(of_image));
    }
}
