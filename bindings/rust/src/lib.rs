//! A sheet of Limbo declarations to its listing, and to the image of its data: safe functions over `libexport.a`, whose code is
//! proved. A slice is a valid buffer and `&mut` slices overlap nothing, so what the library asks of a caller in C holds here by
//! the types. What it answers is proved too; `within` looks at it once more, since nothing proves that the archive which was
//! linked is that library.
#![deny(missing_docs)]

use std::error::Error;
use std::fmt;

#[cfg(not(all(
    target_arch = "x86_64",
    target_os = "linux",
    target_pointer_width = "64"
)))]
compile_error!("libexport.a has code for x86-64 Linux only");

/// The bytes that a sheet may have; a longer one is refused by 1.
pub const LONGEST_SHEET: usize = 65_535;

/// The bytes that the working space must have; a smaller one is refused by 2.
pub const WORK: usize = 65_536;

/// The bytes that `listing` and `image` lend to each buffer; what outgrows them is refused by 13.
pub const LENT: usize = 65_536;

/// The declarations of bindings/c/limbo_sheet.h. A slice goes as its pointer, which is never null, and its length.
mod c {
    #[repr(C)]
    pub struct Compiled {
        pub number: u8,
        pub line: usize,
        pub listing: usize,
    }

    #[repr(C)]
    pub struct Laid {
        pub number: u8,
        pub line: usize,
        pub listing: usize,
        pub image: usize,
        pub area: usize,
    }

    #[repr(C)]
    pub struct Part {
        pub start: usize,
        pub length: usize,
    }

    extern "C" {
        pub fn limbo_sheet_compile(
            sheet: *const u8,
            sheet_length: usize,
            listing: *mut u8,
            listing_length: usize,
            work: *mut u8,
            work_length: usize,
        ) -> Compiled;

        pub fn limbo_sheet_image(
            sheet: *const u8,
            sheet_length: usize,
            listing: *mut u8,
            listing_length: usize,
            image: *mut u8,
            image_length: usize,
            area: *mut u8,
            area_length: usize,
            work: *mut u8,
            work_length: usize,
        ) -> Laid;

        pub fn limbo_sheet_field(
            sheet: *const u8,
            sheet_length: usize,
            line: usize,
            i: usize,
        ) -> Part;
    }
}

/// Why a sheet has no listing or no image.
#[derive(Clone, Copy, Debug, PartialEq, Eq)]
pub struct Refusal {
    /// 1 to 13.
    pub number: u8,
    /// The refused line, from 1; 0 for the numbers 1, 2 and 13.
    pub line: usize,
}

impl Refusal {
    /// What is refused, as a sentence.
    pub fn sentence(self) -> &'static str {
        match self.number {
            1 => "The sheet passes 65,535 bytes.",
            2 => "Working space is under 65,536 bytes.",
            3 => "A line has no form, passes 255 bytes (LF not counted) or lacks LF, or is line 1,025.",
            4 => "A reference has the wrong kind, is 0 where a line is needed, or is not earlier or not first.",
            5 => "References nest over 32 lines, the line itself counted.",
            6 => "`mod` stands in `mod`, `end` outside, or the last line leaves `mod` open.",
            7 => "`con`, `need` or `frame` lines pass 128 each, records plus tags (at their `pick` line) 128, or `var` names 256.",
            8 => "A fold builds a string over 256 bytes.",
            9 => "An `alloc` length passes 2,147,483,647 or is below -2,147,483,648.",
            10 => "An `alloc` length is otherwise negative.",
            11 => "A literal, not pending, places an index outside its size.",
            12 => "A literal's length otherwise passes 1,024.",
            13 => "Listing, image or area outgrows its buffer.",
            _ => "There is no such refusal.",
        }
    }

    /// The refusal that an answer tells, if it tells one.
    fn told(number: u8, line: usize) -> Result<(), Refusal> {
        assert!(number <= 13, "a refusal of the number {number}: the archive is not the library that this crate is written for");
        if number == 0 {
            Ok(())
        } else {
            Err(Refusal { number, line })
        }
    }
}

impl fmt::Display for Refusal {
    fn fmt(&self, f: &mut fmt::Formatter<'_>) -> fmt::Result {
        write!(f, "refusal {}", self.number)?;
        if self.line != 0 {
            write!(f, " at line {}", self.line)?;
        }
        write!(f, ": {}", self.sentence())
    }
}

impl Error for Refusal {}

/// How many bytes of each buffer `image_into` filled.
#[derive(Clone, Copy, Debug, Default, PartialEq, Eq)]
pub struct Lengths {
    /// Of the listing.
    pub listing: usize,
    /// Of the image.
    pub image: usize,
    /// Of the area.
    pub area: usize,
}

/// What `image` makes of a sheet.
#[derive(Clone, Debug, PartialEq, Eq)]
pub struct Image {
    /// The listing.
    pub listing: Vec<u8>,
    /// The image of the sheet's data.
    pub image: Vec<u8>,
    /// The area of its arrays.
    pub area: Vec<u8>,
}

/// A length that was told of a buffer.
fn within(length: usize, buffer: &[u8]) -> usize {
    assert!(
        length <= buffer.len(),
        "{length} bytes told of {}: the archive is not the library that this crate is written for",
        buffer.len()
    );
    length
}

/// Field `i`, from 0, of a line, from 1, of any bytes; where either is not there, the empty part at the sheet's end.
pub fn field(sheet: &[u8], line: usize, i: usize) -> &[u8] {
    // SAFETY: the slice is valid for the call, which only reads it.
    let part = unsafe { c::limbo_sheet_field(sheet.as_ptr(), sheet.len(), line, i) };
    &sheet[within(part.start, sheet)..][..part.length]
}

/// The listing of a sheet, in the caller's buffers; its length. Both buffers are written whole: text and then zeros, zeros only
/// after a refusal, and the working space zeros in any case.
pub fn listing_into(sheet: &[u8], listing: &mut [u8], work: &mut [u8]) -> Result<usize, Refusal> {
    // SAFETY: each slice is valid for the call, and those that it writes are `&mut`, so no two overlap.
    let r = unsafe {
        c::limbo_sheet_compile(
            sheet.as_ptr(),
            sheet.len(),
            listing.as_mut_ptr(),
            listing.len(),
            work.as_mut_ptr(),
            work.len(),
        )
    };
    Refusal::told(r.number, r.line)?;
    Ok(within(r.listing, listing))
}

/// The listing of a sheet, the image of its data and the area of its arrays, in the caller's buffers, which are written whole as
/// by `listing_into`.
pub fn image_into(
    sheet: &[u8],
    listing: &mut [u8],
    image: &mut [u8],
    area: &mut [u8],
    work: &mut [u8],
) -> Result<Lengths, Refusal> {
    // SAFETY: each slice is valid for the call, and those that it writes are `&mut`, so no two overlap.
    let r = unsafe {
        c::limbo_sheet_image(
            sheet.as_ptr(),
            sheet.len(),
            listing.as_mut_ptr(),
            listing.len(),
            image.as_mut_ptr(),
            image.len(),
            area.as_mut_ptr(),
            area.len(),
            work.as_mut_ptr(),
            work.len(),
        )
    };
    Refusal::told(r.number, r.line)?;
    Ok(Lengths {
        listing: within(r.listing, listing),
        image: within(r.image, image),
        area: within(r.area, area),
    })
}

/// The listing of a sheet.
pub fn listing(sheet: &[u8]) -> Result<Vec<u8>, Refusal> {
    let mut listing = vec![0; LENT];
    let length = listing_into(sheet, &mut listing, &mut vec![0; WORK])?;
    listing.truncate(length);
    Ok(listing)
}

/// The listing of a sheet, the image of its data and the area of its arrays.
pub fn image(sheet: &[u8]) -> Result<Image, Refusal> {
    let (mut listing, mut image, mut area) = (vec![0; LENT], vec![0; LENT], vec![0; LENT]);
    let lengths = image_into(
        sheet,
        &mut listing,
        &mut image,
        &mut area,
        &mut vec![0; WORK],
    )?;
    listing.truncate(lengths.listing);
    image.truncate(lengths.image);
    area.truncate(lengths.area);
    Ok(Image {
        listing,
        image,
        area,
    })
}
