//! What crosses the boundary: bytes, lengths, refusals, and what the lent buffers hold afterwards.
use limbo_sheet::{
    field, image, image_into, listing, listing_into, Image, Refusal, LENT, LONGEST_SHEET, WORK,
};

const SHEET: &[u8] = include_bytes!("../../../cases/round.sheet");
const PRINTED: &str = include_str!("../../../cases/round.out");
const EMPTY: &[u8] = b"typ,0,48,12,FFF0\ntyp,1,48,12,FFF0\n";
const IMAGE: &[u8] = &[0, 0, 0, 1];
const AREA: &[u8] = &[0, 0, 0, 7, 0, 0, 0, 0, 0, 0, 0, 0];

/// The listing alone: the example prints the image and the area behind it.
fn round_listing() -> &'static [u8] {
    &PRINTED.as_bytes()[..PRINTED.find("image,").unwrap()]
}

const DIRT: u8 = 0xAA;

fn dirty(length: usize) -> Vec<u8> {
    vec![DIRT; length]
}

fn zeros(buffer: &[u8]) -> bool {
    buffer.iter().all(|b| *b == 0)
}

fn refusal(number: u8, line: usize) -> Refusal {
    Refusal { number, line }
}

fn made(listing: &[u8], image: &[u8], area: &[u8]) -> Image {
    Image {
        listing: listing.to_vec(),
        image: image.to_vec(),
        area: area.to_vec(),
    }
}

/// Lends the front of `rest`, and keeps back a byte behind it.
fn lend<'a>(rest: &mut &'a mut [u8], length: usize) -> (&'a mut [u8], &'a u8) {
    let (buffer, behind) = std::mem::take(rest).split_at_mut(length);
    let (kept, behind) = behind.split_first_mut().unwrap();
    *rest = behind;
    (buffer, kept)
}

/// Compiles into buffers of these lengths that lie side by side and do not hold zeros.
fn compiled(sheet: &[u8], listing: usize, work: usize) -> Result<Vec<u8>, Refusal> {
    let mut all = dirty(listing + work + 2);
    let mut rest = &mut all[..];
    let ((listing, a), (work, b)) = (lend(&mut rest, listing), lend(&mut rest, work));
    let r = listing_into(sheet, listing, work);
    assert_eq!([a, b], [&DIRT; 2]);
    assert!(zeros(work) && zeros(&listing[r.unwrap_or(0)..]));
    r.map(|n| listing[..n].to_vec())
}

/// The same with listing, image, area and working space.
fn laid(sheet: &[u8], lent: [usize; 4]) -> Result<[Vec<u8>; 3], Refusal> {
    let mut all = dirty(lent.iter().sum::<usize>() + 4);
    let mut rest = &mut all[..];
    let [(listing, a), (image, b), (area, c), (work, d)] = lent.map(|n| lend(&mut rest, n));
    let r = image_into(sheet, listing, image, area, work);
    assert_eq!([a, b, c, d], [&DIRT; 4]);
    let n = r.unwrap_or_default();
    let rests = [
        &listing[n.listing..],
        &image[n.image..],
        &area[n.area..],
        work,
    ];
    assert!(rests.into_iter().all(zeros));
    r.map(|n| {
        [
            listing[..n.listing].to_vec(),
            image[..n.image].to_vec(),
            area[..n.area].to_vec(),
        ]
    })
}

#[test]
fn round_sheet() {
    assert_eq!(listing(SHEET).unwrap(), round_listing());
    assert_eq!(image(SHEET).unwrap(), made(round_listing(), IMAGE, AREA));
    assert_eq!(compiled(SHEET, LENT, WORK).unwrap(), round_listing());
    assert_eq!(
        laid(SHEET, [LENT, LENT, LENT, WORK]).unwrap(),
        [round_listing(), IMAGE, AREA]
    );
}

#[test]
fn empty_sheet() {
    assert_eq!(listing(b"").unwrap(), EMPTY);
    assert_eq!(image(b"").unwrap(), made(EMPTY, b"", b""));
    assert_eq!(
        laid(b"", [EMPTY.len(), 0, 0, WORK]).unwrap(),
        [EMPTY, b"", b""]
    );
}

#[test]
fn buffers_that_just_fit_and_larger_ones() {
    let n = round_listing().len();
    assert_eq!(compiled(SHEET, n, WORK).unwrap(), round_listing());
    assert_eq!(
        compiled(SHEET, 3 * LENT, WORK + 1).unwrap(),
        round_listing()
    );
    assert_eq!(
        laid(SHEET, [n, IMAGE.len(), AREA.len(), WORK]).unwrap(),
        [round_listing(), IMAGE, AREA]
    );
}

#[test]
fn long_sheet() {
    let long = vec![b'z'; LONGEST_SHEET + 1];
    assert_eq!(compiled(&long, LENT, WORK), Err(refusal(1, 0)));
    assert_eq!(laid(&long, [LENT, LENT, LENT, WORK]), Err(refusal(1, 0)));
    assert_eq!(compiled(&long[1..], LENT, WORK), Err(refusal(3, 1)));
    assert_eq!(compiled(&long, 0, 0), Err(refusal(1, 0)));
}

#[test]
fn line_1025() {
    let lines = b"ty,int\n".repeat(1025);
    assert_eq!(compiled(&lines, LENT, WORK), Err(refusal(3, 1025)));
    assert_eq!(compiled(&lines[7..], LENT, WORK).unwrap(), EMPTY);
}

#[test]
fn any_bytes() {
    for b in 0..=u8::MAX {
        for sheet in [&[b][..], &[b, b'\n'], &[b, b',', b, b'\n']] {
            assert_eq!(compiled(sheet, LENT, WORK), Err(refusal(3, 1)));
            assert_eq!(laid(sheet, [LENT, LENT, LENT, WORK]), Err(refusal(3, 1)));
        }
        let field_of = if b == b'\n' || b == b',' {
            &[][..]
        } else {
            &[b]
        };
        assert_eq!(field(&[b, b',', b], 1, 0), field_of);
    }
}

#[test]
fn empty_slices() {
    let (mut listing, mut work) = (dirty(LENT), dirty(WORK));
    let lengths = image_into(b"", &mut listing, &mut [], &mut [], &mut work).unwrap();
    assert_eq!((lengths.image, lengths.area), (0, 0));
    assert_eq!(&listing[..lengths.listing], EMPTY);
    assert_eq!(
        image_into(SHEET, &mut listing, &mut [], &mut [], &mut work),
        Err(refusal(13, 0))
    );
    assert_eq!(listing_into(SHEET, &mut [], &mut work), Err(refusal(13, 0)));
    assert_eq!(listing_into(b"", &mut [], &mut []), Err(refusal(2, 0)));
    assert!(zeros(&listing) && zeros(&work));
}

/// 128 frames and 128 needs of 4,096 bytes, whose listing passes 65,536 bytes: need i has its one pointer in word i.
fn long_listing() -> (String, String) {
    let (mut sheet, mut types, mut uses) = (String::new(), String::new(), String::new());
    for i in 0..128 {
        sheet += "frame,4096,0\n";
        types += &format!("typ,{},4096,0,{}\n", 2 + i, "00".repeat(128));
    }
    for i in 0..128 {
        sheet += &format!("need,block,4096,1,{}\n", 4 * i);
        let (before, byte) = (i / 8, 128 >> (i % 8));
        let (front, back) = ("00".repeat(before), "00".repeat(127 - before));
        types += &format!("typ,{},4096,1,{front}{byte:02X}{back}\n", 130 + i);
        uses += &format!("use,{}\n", 130 + i);
    }
    let empty = String::from_utf8(EMPTY.to_vec()).unwrap();
    (sheet, empty + &types + &uses)
}

#[test]
fn listing_over_what_is_lent() {
    let (sheet, long) = long_listing();
    let (sheet, n) = (sheet.as_bytes(), long.len());
    assert!(n > LENT);
    assert_eq!(listing(sheet), Err(refusal(13, 0)));
    assert_eq!(image(sheet), Err(refusal(13, 0)));
    assert_eq!(compiled(sheet, n - 1, WORK), Err(refusal(13, 0)));
    for room in [n, n + 1, 3 * LENT] {
        assert_eq!(compiled(sheet, room, WORK).unwrap(), long.as_bytes());
        assert_eq!(
            laid(sheet, [room, 0, 0, WORK]).unwrap(),
            [long.as_bytes(), b"", b""]
        );
    }
}

#[test]
fn small_space() {
    for work in [0, 1, WORK - 1] {
        assert_eq!(compiled(SHEET, LENT, work), Err(refusal(2, 0)));
        assert_eq!(laid(SHEET, [LENT, LENT, LENT, work]), Err(refusal(2, 0)));
    }
}

#[test]
fn small_listing() {
    for n in [0, 1, round_listing().len() - 1] {
        assert_eq!(compiled(SHEET, n, WORK), Err(refusal(13, 0)));
        assert_eq!(laid(SHEET, [n, LENT, LENT, WORK]), Err(refusal(13, 0)));
    }
}

#[test]
fn small_image_and_small_area() {
    for n in 0..IMAGE.len() {
        assert_eq!(laid(SHEET, [LENT, n, LENT, WORK]), Err(refusal(13, 0)));
    }
    for n in 0..AREA.len() {
        assert_eq!(laid(SHEET, [LENT, LENT, n, WORK]), Err(refusal(13, 0)));
    }
}

#[test]
fn refused_lines() {
    let alloc = b"ex,int,-1\nty,int\nex,alloc,1,2\nty,ptr\nvar,4,3,1,x\n";
    let cases: [(&[u8], u8, usize); 4] = [
        (b"ty,int\nzz\n", 3, 2),
        (b"ty,int\nty,array,2\n", 4, 2),
        (b"mod,A\nty,int\n", 6, 2),
        (alloc, 10, 5),
    ];
    for (sheet, number, line) in cases {
        assert_eq!(compiled(sheet, LENT, WORK), Err(refusal(number, line)));
        assert_eq!(
            laid(sheet, [LENT, LENT, LENT, WORK]),
            Err(refusal(number, line))
        );
    }
}

#[test]
fn fields_are_parts_of_the_sheet() {
    assert_eq!(field(SHEET, 6, 1), b"Scan");
    assert_eq!(field(SHEET, 1, 0).as_ptr(), SHEET.as_ptr());
    let end = SHEET.as_ptr_range().end;
    for (line, i) in [(0, 0), (6, 5), (19, 0), (usize::MAX, 0), (1, usize::MAX)] {
        let part = field(SHEET, line, i);
        assert!(part.is_empty() && part.as_ptr() == end, "{line}, {i}");
    }
    assert_eq!(field(b"", 1, 0), b"");
    assert_eq!(field(b"a,b", 1, 1), b"b");
    let long = [b"\n".repeat(LONGEST_SHEET), b"x,y".to_vec()].concat();
    assert_eq!(field(&long, LONGEST_SHEET + 1, 1), b"y");
}

#[test]
fn refusals_say_what_they_are() {
    assert_eq!(refusal(6, 3).to_string(), "refusal 6 at line 3: `mod` stands in `mod`, `end` outside, or the last line leaves `mod` open.");
    assert_eq!(
        refusal(13, 0).to_string(),
        "refusal 13: Listing, image or area outgrows its buffer."
    );
    let all: std::collections::HashSet<_> = (1..=13).map(|n| refusal(n, 0).sentence()).collect();
    assert_eq!(all.len(), 13);
}

/// Each thread has a sheet of its own, and none meets what another one leaves.
#[test]
fn calls_at_once() {
    let (long, _) = long_listing();
    let cases: [(&[u8], Result<Image, Refusal>); 4] = [
        (SHEET, Ok(made(round_listing(), IMAGE, AREA))),
        (b"", Ok(made(EMPTY, b"", b""))),
        (b"ty,int\nzz\n", Err(refusal(3, 2))),
        (long.as_bytes(), Err(refusal(13, 0))),
    ];
    std::thread::scope(|s| {
        for (sheet, answer) in &cases {
            s.spawn(move || {
                for _ in 0..200 {
                    assert_eq!(&image(sheet), answer);
                }
            });
        }
    });
}
