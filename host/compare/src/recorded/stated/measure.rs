//! Request 09: how long a listing will be, and how deep.

use sticks::block::put16;
use sticks::contents::{Contents, Key, Stream, COMPRESSED};
use sticks::make;
use sticks::plan::Save;
use sticks::volume::Volume;

use super::listing::{chain, chain_text};
use super::stick::{
    at_block, changed, contents, directory, embedded, empty, entry, file, image, plan, sized, stored, streamed, FILE,
    ROOT, TREE_ROOT,
};
use super::Said::{Refused, Text};
use super::{group, Group, Said, Stated};
use crate::list::long;
use crate::list::measure::Measured;

/// Document 01's example with request 08's line.
const EXAMPLE: &str = "(measure 83 0)\n";
const LONG: usize = 65_536;
const LATEST: u64 = 100_000;

pub fn groups() -> Vec<Group> {
    vec![lengths(), depths(), buffers(), faults(), reserved(), saved(), bound()]
}

fn told(length: usize, depth: u64) -> Said {
    Text(format!("(measure {length} {depth})\n"))
}

fn measured(c: Contents, said: Said) -> (Vec<u8>, Vec<Stated>) {
    (image(c), vec![Stated::measure(said)])
}

/// A text of the root's line and this, its totals and brackets.
fn length(root: &str, totals: &str) -> usize {
    format!("(volume 1 0 x41\n{}{root})\n(total {totals})\n)\n", super::stick::ROOT_LINE).len()
}

/// An entry of one letter, and its node.
fn below(stream: &str, forms: &str) -> String {
    format!("(entry 100 3 8 x61\n(node 100 2 100 0 0 0 0 0 0 0 0 0 16877 - {stream}\n{forms})\n)\n")
}

fn named(names: &[&str]) -> Contents {
    let mut c = sized(3, vec![stored(0, b"abc")]);
    c.files[0] = directory(ROOT, &names.iter().map(|name| (*name, FILE)).collect::<Vec<_>>());
    c
}

fn lengths() -> Group {
    let one = below("3,9000", "(data x616263)\n");
    let mut packed = named(&["a"]);
    packed.files[1].inode.bsd = COMPRESSED;
    let shut = below("3,9000", "(packed)\n").replace(" 0 0 0 16877", " 32 0 0 16877");
    let mut attributes = named(&["a"]);
    attributes.files[1].attributes = vec![embedded("n", b"vw"), streamed("s", 300, 2)];
    attributes.streams.push(Stream { id: 300, extents: vec![stored(0, b"xyz")] });
    let shown = below("3,9000", "(attr 2 x6e e x7677)\n(attr 1 x73 s 300 x7879)\n(data x616263)\n");
    let mut gap = named(&["a"]);
    gap.files[1] = sized(20, Vec::new()).files.remove(1);
    let zeros = below("20,9000", &format!("(data x6162630{})\n", "0".repeat(33)));
    let cases = vec![
        (empty(), vec![Stated::measure(Text(EXAMPLE.into()))]),
        measured(named(&["a"]), told(length(&format!("(data x)\n{one}"), "2 3 0"), 1)),
        measured(named(&["a", "b"]), told(length(&format!("(data x)\n{one}{one}"), "3 6 0"), 1)),
        measured(named(&["a", "a", "b"]), told(length(&format!("(data x)\n{one}{one}{one}"), "4 9 0"), 1)),
        measured(packed, told(length(&format!("(data x)\n{shut}"), "2 0 0"), 1)),
        measured(attributes, told(length(&format!("(data x)\n{shown}"), "2 3 2"), 1)),
        measured(gap, told(length(&format!("(data x)\n{zeros}"), "2 20 0"), 1)),
    ];
    group("measures: lengths", cases)
}

/// A directory in which another is, and beside it a file, before or after.
fn forked(names: &[(&str, u64)]) -> Contents {
    contents(vec![directory(ROOT, names), directory(20, &[("b", 21)]), file(21), file(22)])
}

fn depths() -> Group {
    let node = |id: u64| format!("(node {id} 2 {id} 0 0 0 0 0 0 0 0 0 16877 - -\n(data x)\n");
    let deep = format!("(entry 20 3 8 x61\n{}(entry 21 3 8 x62\n{})\n)\n)\n)\n", node(20), node(21));
    let n = length(&format!("(data x)\n{deep}(entry 22 3 8 x63\n{})\n)\n", node(22)), "4 0 0");
    let towers = [1, 2, 63, 64].map(|depth| measured(chain(depth), told(chain_text(depth).len(), depth)));
    let mut cases: Vec<_> = towers.into();
    let mut astray = chain(65);
    astray.files.pop();
    cases.extend([
        measured(chain(65), Refused(10)),
        measured(chain(66), Refused(10)),
        measured(astray, Refused(10)),
        measured(forked(&[("a", 20), ("c", 22)]), told(n, 2)),
        measured(forked(&[("c", 22), ("a", 20)]), told(n, 2)),
    ]);
    group("measures: depths", cases)
}

/// Its own line is all that a buffer is too short for, and then it is as it was.
fn buffers() -> Group {
    let n = EXAMPLE.len();
    let text = |room: usize| Stated::measure(Text(EXAMPLE.into())).into_room(room);
    let short = |room: usize| Stated::measure(Refused(6)).into_room(room);
    let cases = vec![text(n), text(n + 1), text(n + 40), short(n - 1), short(n - 5), short(1), short(0)];
    group("measures into buffers", vec![(empty(), cases)])
}

/// Of opening, of the volume and of the listing, whatever the buffer.
fn faults() -> Group {
    let both = |n: u64| vec![Stated::measure(Refused(n)), Stated::measure(Refused(n)).into_room(0)];
    let of_volume = |v: u64| both(4).into_iter().map(|s| s.of_volume(v)).collect::<Vec<_>>();
    let of = |c: Contents, n: u64| (image(c), both(n));
    let no_root = changed(&empty(), TREE_ROOT, |b| put16(b, 60, 0xffff));
    let sealed = Contents { sealed: true, ..contents(vec![file(ROOT)]) };
    let mut key = contents(vec![file(ROOT)]);
    key.files[0].entries = vec![entry(Key::Wrong, "a", 20)];
    let mut stream = contents(vec![file(ROOT)]);
    stream.files[0].attributes = vec![streamed("s", 300, 5000)];
    stream.streams.push(Stream { id: 300, extents: vec![at_block(0, 5000, 1 << 30)] });
    let astray = contents(vec![directory(ROOT, &[("a", 20), ("b", 21)]), file(20)]);
    let cases = vec![
        (Vec::new(), both(1)),
        (vec![0; 8192], both(11)),
        (empty(), of_volume(1)),
        (empty(), of_volume(u64::MAX)),
        (no_root, both(4)),
        of(sealed, 3),
        of(key, 2),
        of(stream, 2),
        of(astray, 4),
        of(sized(8192, vec![at_block(0, 4096, 0), at_block(4095, 10, 0)]), 2),
        of(sized(u64::MAX, vec![at_block(u64::MAX - 10, 20, 0)]), 8),
        of(chain(65), 10),
    ];
    group("measures refused", cases)
}

/// A buffer of that length or more then gets the listing; a shorter one gets 6.
fn reserved() -> Group {
    let of = |depth: u64| {
        let n = chain_text(depth).len();
        let text = || Text(chain_text(depth));
        let cases = vec![
            Stated::measure(told(n, depth)),
            Stated::list(n, text()),
            Stated::list(n + 1, text()),
            Stated::list(LONG, text()),
            Stated::list(n - 1, Refused(6)),
            Stated::list(0, Refused(6)),
        ];
        (image(chain(depth)), cases)
    };
    group("listings in the room that is measured", [0, 1, 2, 64].map(of).into())
}

/// At the number before the latest an empty root, and "data" since.
fn saved() -> Group {
    let mut plan = plan(sized(3, vec![stored(0, b"abc")]));
    let before = Volume { contents: contents(vec![directory(ROOT, &[])]), ..plan.volumes[0].clone() };
    plan.saves = vec![Save { xid: LATEST - 1, volumes: vec![before] }];
    plan.ring.checkpoints[2..].iter_mut().for_each(|c| c.current = true);
    let entry = below("3,9000", "(data x616263)\n").replace("x61\n", "x64617461\n");
    let now = || told(length(&format!("(data x)\n{entry}"), "2 3 0"), 1);
    let then = || Stated::measure(Text(EXAMPLE.into())).at(LATEST - 1);
    let short = |room: usize| Stated::measure(Refused(6)).into_room(room).at(LATEST - 1);
    let absent = || Stated::measure(Refused(13)).at(LATEST + 1);
    let cases = vec![
        Stated::measure(now()),
        Stated::measure(now()).at(LATEST),
        then(),
        then().into_room(EXAMPLE.len()),
        short(EXAMPLE.len() - 1),
        short(0),
        absent(),
        absent().into_room(0),
        Stated::measure(Refused(4)).of_volume(1).at(LATEST - 1),
    ];
    group("measures at an earlier checkpoint", vec![(make(plan).image, cases)])
}

/// Of texts about 4,294,967,295 bytes long.
fn bound() -> Group {
    let case = |stick: long::Long| {
        let said = match stick.measured {
            Measured::Got(m) => Text(m.to_string()),
            Measured::Refused(n) => Refused(n),
            other => unreachable!("{}: {other:?}", stick.what),
        };
        (stick.image, vec![Stated::measure(said)])
    };
    group("measures about 4,294,967,295 bytes", long::sticks().into_iter().map(case).collect())
}
