//! "Reads".

use sticks::contents::{Contents, Extent, Stream, COMPRESSED};
use sticks::make;

use super::stick::{at_block, contents, file, image, plan, sized, stored, BLOCK, FILE, ROOT};
use super::Said::{Answered, Bytes, Refused, Text};
use super::{group, Group, Said, Stated};
use crate::calls::call::Call;

fn read(offset: u64, length: usize, said: Said) -> Stated {
    Stated::call(Call::Read { id: FILE, offset, length }, said)
}

fn nothing(offset: u64, length: usize) -> Stated {
    read(offset, length, Bytes(Vec::new()))
}

/// A file of `size` bytes, and calls on it.
fn of(size: u64, extents: Vec<Extent>, cases: Vec<Stated>) -> (Vec<u8>, Vec<Stated>) {
    (image(sized(size, extents)), cases)
}

fn repeated(x: u8, n: usize) -> Vec<u8> {
    vec![x; n]
}

pub fn groups() -> Vec<Group> {
    vec![sizes(), holes(), choice(), descending(), outside(), overflows(), packed(), lists()]
}

fn sizes() -> Group {
    let of_ten = vec![
        read(0, 10, Bytes(b"0123456789".into())),
        read(0, 20, Bytes(b"0123456789".into())),
        read(0, 4, Bytes(b"0123".into())),
        read(9, 5, Bytes(b"9".into())),
        nothing(10, 5),
        nothing(11, 5),
        nothing(u64::MAX, 5),
        nothing(0, 0),
    ];
    let none = vec![nothing(0, 5), Stated::call(Call::Read { id: 77, offset: 0, length: 5 }, Refused(4))];
    let mut private = sized(3, Vec::new());
    private.files[1].inode.private = 555;
    private.streams.push(Stream { id: 555, extents: vec![stored(0, b"abc")] });
    let first = Stated::call(Call::Extent { id: FILE, place: 0 }, Answered);
    let cases = vec![
        (image(private), vec![read(0, 9, Bytes(b"abc".into())), first]),
        of(10, vec![stored(0, b"0123456789abc")], of_ten),
        of(0, vec![stored(0, b"0123456789abc")], vec![nothing(0, 5)]),
        (image(contents(vec![file(ROOT), file(FILE)])), none),
    ];
    group("reads at and past the end, by the private id", cases)
}

fn holes() -> Group {
    let extents = || vec![stored(0, &[1; BLOCK]), at_block(4096, 4096, 0), stored(12_288, &[2; 10])];
    let over = [repeated(1, 6), repeated(0, 8192), repeated(2, 10), repeated(0, 5)].concat();
    let cases = vec![
        read(4096, 100, Bytes(repeated(0, 100))),
        read(4090, 9000, Bytes(over)),
        read(8192, 50, Bytes(repeated(0, 50))),
        read(12_290, 50, Bytes([repeated(2, 8), repeated(0, 5)].concat())),
    ];
    group("holes, gaps and what lies behind the last extent", vec![of(12_303, extents(), cases)])
}

/// The last extent at or before the offset is the first that is copied, whatever its length.
fn choice() -> Group {
    let empty = vec![stored(0, &[1; 2 * BLOCK]), at_block(4096, 0, 1)];
    let twice = vec![stored(0, &[1; BLOCK]), stored(0, &[2; 100])];
    let cases = vec![
        of(8192, empty, vec![read(4096, 10, Bytes(repeated(0, 10))), read(4090, 10, Bytes(repeated(1, 10)))]),
        of(4096, twice, vec![read(0, 5, Bytes(repeated(2, 5))), read(200, 5, Bytes(repeated(0, 5)))]),
    ];
    group("which extent is the first, one of no length", cases)
}

fn descending() -> Group {
    let down = || vec![stored(4096, &[1; BLOCK]), stored(0, &[2; BLOCK])];
    let lap = vec![stored(0, &[1; BLOCK]), stored(100, &[2; 10])];
    // Of the first extent no more is copied than stands before the second.
    let lapped = [repeated(1, 100), repeated(2, 10), repeated(1, 90)].concat();
    let by_place = |place: u64| Stated::call(Call::Extent { id: FILE, place }, Answered);
    let cases =
        vec![read(0, 5, Refused(2)), read(9000, 5, Refused(2)), read(0, 0, Refused(2)), by_place(0), by_place(1)];
    group(
        "extents that descend, and that overlap in order",
        vec![of(8192, down(), cases), of(200, lap, vec![read(0, 200, Bytes(lapped))])],
    )
}

fn outside() -> Group {
    let far = |block: u64| vec![stored(0, &[1; BLOCK]), at_block(4096, 4096, block)];
    // Counted blocks that are not in the image.
    let mut counted = plan(sized(8192, far(100)));
    (counted.spare, counted.counted_blocks_present) = (1000, false);
    // Of the last block all bytes but one.
    let blocks = (image(sized(8192, far(100))).len() / BLOCK) as u64;
    let [cut, whole] = [BLOCK - 1, BLOCK].map(|tail| {
        let mut plan = plan(sized(8192, far(blocks)));
        (plan.spare, plan.counted_blocks_present, plan.tail) = (1000, false, tail);
        make(plan).image
    });
    let both = |number: u64| vec![read(0, 4096, Bytes(repeated(1, 4096))), read(4000, 200, Refused(number))];
    let cases = vec![
        of(8192, far(1 << 30), both(2)),
        of(9000, vec![at_block(0, 10, 1 << 30)], vec![read(20, 5, Bytes(repeated(0, 5))), read(9, 1, Refused(2))]),
        of(8192, far(1 << 30), vec![read(4096, 0, Bytes(Vec::new())), nothing(8192, 1)]),
        (make(counted).image, both(1)),
        (cut, vec![read(4096, 1, Refused(1))]),
        (whole, vec![read(4096, 1, Answered)]),
    ];
    group("extents past the block count, and past the image", cases)
}

fn overflows() -> Group {
    let end = vec![stored(0, &[1; 10]), at_block(u64::MAX - 10, 20, 0)];
    let block = vec![at_block(0, 4096, u64::MAX)];
    let cases = vec![
        of(u64::MAX, end, vec![read(0, 10, Bytes(repeated(1, 10))), read(u64::MAX - 5, 3, Refused(8))]),
        of(10, block, vec![read(0, 10, Refused(8)), nothing(10, 10)]),
    ];
    group("sums past 2^64 - 1", cases)
}

fn packed() -> Group {
    let pack = |mut c: Contents| {
        c.files[1].inode.bsd = COMPRESSED;
        image(c)
    };
    let refused = || {
        vec![
            read(0, 5, Refused(3)),
            read(99, 5, Refused(3)),
            Stated::call(Call::Extent { id: FILE, place: 0 }, Refused(3)),
        ]
    };
    let down = sized(10, vec![stored(4096, b"b"), stored(0, b"a")]);
    let cases = vec![(pack(sized(10, vec![stored(0, b"abc")])), refused()), (pack(down), refused())];
    group("compressed files", cases)
}

fn lists() -> Group {
    let at = |place: u64, said: Said| Stated::call(Call::Extent { id: FILE, place }, said);
    let hole = "(extent 0 4096 0)\n";
    let cases = vec![
        at(0, Text(hole.into())),
        at(0, Text(hole.into())).into_room(hole.len()),
        at(0, Refused(6)).into_room(hole.len() - 1),
        at(1, Text("(extent 4096 0 7)\n".into())),
        at(2, Text("(extent 4096 5 0)\n".into())),
        at(3, Text(String::new())),
        at(u64::MAX, Text(String::new())),
    ];
    // A length has 56 bits, and flags above them.
    let extents = vec![at_block(0, 4096, 0), at_block(4096, 0, 7), at_block(4096, 0xff << 56 | 5, 0)];
    group("extents by place", vec![of(0, extents, cases)])
}
