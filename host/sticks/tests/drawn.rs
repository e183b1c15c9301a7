//! What the seed decides, and that every kind of thing is drawn.

use sticks::checkpoint::Fault;
use sticks::contents::{text, Contents, Data, Entry, Extent, Field, Key, Source, LINK_ATTRIBUTE, NAME_FIELD};
use sticks::sums::{checksum, name_hash};
use sticks::volume::{Lost, Volume};
use sticks::{damage, damage_at, make, Aim, Plan, Stick};

#[test]
fn the_seed_decides_all() {
    for seed in 0..40 {
        let (one, other) = (Stick::from_seed(seed).image, Stick::from_seed(seed).image);
        assert!(one == other, "stick {seed}");
        assert!(damage(&one, seed) == damage(&one, seed), "damage {seed}");
        assert!(damage_at(&one, Aim::Opening, seed) == damage_at(&one, Aim::Opening, seed), "damage {seed}");
        assert!(damage_at(&one, Aim::Files, seed) == damage_at(&one, Aim::Files, seed), "damage {seed}");
        assert!(one != Stick::from_seed(seed + 1).image, "stick {seed}");
    }
}

#[test]
fn the_sample_is_small_and_has_one_of_each() {
    let stick = make(Plan::sample());
    let contents = &stick.plan.volumes[0].contents;
    assert!(stick.image == make(Plan::sample()).image && stick.image.len() < 1 << 17, "{}", stick.image.len());
    assert!(stick.plan.opens() && stick.plan.volumes[0].is_regular());
    all_seen(
        std::slice::from_ref(contents),
        &[
            ("a hole", |c| extents(c).any(|e| matches!(e.source, Source::Hole))),
            ("two directories", |c| c.files.iter().filter(|f| f.inode.mode >> 12 == 4).count() == 3),
            ("a link", |c| links(c).count() == 1),
            ("an attribute of its own bytes", |c| links(c).any(|(_, d)| matches!(d, Data::Embedded(_)))),
            ("a stream", |c| {
                c.files.iter().any(|f| f.attributes.iter().any(|a| matches!(a.data, Data::Stream { .. })))
            }),
            ("an accented name", |c| names(c).any(|n| !n.is_ascii())),
        ],
    );
}

#[test]
fn damage_changes_most_images() {
    let image = Stick::from_seed(1).image;
    let changed = (0..200).filter(|&seed| damage(&image, seed) != image).count();
    assert!(changed > 160, "{changed} of 200");
}

#[test]
fn damage_of_files_leaves_most_containers_whole() {
    let image = make(Plan::with_contents(sticks::plan::large::directories(20), 1)).image;
    let block = |b: &[u8]| b.get(..4096).map(<[u8]>::to_vec);
    let kept = (0..200).filter(|&seed| block(&damage_at(&image, Aim::Files, seed)) == block(&image)).count();
    let changed = (0..200).filter(|&seed| damage_at(&image, Aim::Files, seed) != image).count();
    assert!(kept > 180 && changed > 120, "{kept} and {changed} of 200");
}

#[test]
fn any_bytes_can_be_damaged() {
    for n in [0, 1, 4095, 4096, 8192, 100_000] {
        for seed in 0..50 {
            damage(&vec![0xff; n], seed);
            damage_at(&vec![0; n], Aim::Opening, seed);
            damage_at(&vec![0xff; n], Aim::Files, seed);
        }
    }
}

#[test]
fn sums_are_those_of_document_01() {
    let mut object = [0; 32];
    assert_eq!(checksum(&object), 0xffff_ffff_ffff_ffff);
    object[8] = 1;
    assert_eq!(checksum(&object), 0x0000_0006_ffff_fff8);
    assert_eq!(name_hash(b"", false), 0x3f_ffff);
    assert_eq!(name_hash(b"ABC", true), name_hash(b"abc", false));
}

#[test]
fn a_ring_of_any_size_is_full() {
    for blocks in [8, 280] {
        let stick = make(Plan::with_ring(blocks, 1));
        assert!(stick.plan.opens() && stick.plan.ring.checkpoints.len() == blocks as usize / 2);
    }
}

type Kind<T> = (&'static str, fn(&T) -> bool);

fn all_seen<T>(drawn: &[T], kinds: &[Kind<T>]) {
    let missing: Vec<_> = kinds.iter().filter(|k| !drawn.iter().any(k.1)).map(|k| k.0).collect();
    assert!(missing.is_empty(), "never drawn: {missing:?}");
}

fn plans() -> Vec<Plan> {
    (0..600).map(Plan::draw).collect()
}

fn volumes() -> Vec<Volume> {
    plans().into_iter().flat_map(|p| p.volumes).collect()
}

fn drawn() -> Vec<Contents> {
    volumes().into_iter().map(|v| v.contents).collect()
}

fn wraps(p: &Plan) -> bool {
    p.ring.places().iter().any(|(first, superblock)| superblock < first)
}

fn equal(p: &Plan) -> bool {
    p.ring.checkpoints.iter().filter(|c| c.xid == p.xid && c.fault.is_none()).count() > 1
}

fn newer_is_broken(p: &Plan) -> bool {
    p.ring.checkpoints.iter().any(|c| c.xid > p.xid && c.fault.is_some())
}

fn length_past_ring(p: &Plan) -> bool {
    p.ring.checkpoints.iter().any(|c| c.fault.is_none() && c.length > p.ring.blocks)
}

#[test]
fn every_kind_of_container_is_drawn() {
    all_seen(
        &plans(),
        &[
            ("blocks of 4096", |p| p.block_size == 4096),
            ("blocks of 8192", |p| p.block_size == 8192),
            ("blocks of 16384", |p| p.block_size == 16384),
            ("blocks of 32768", |p| p.block_size == 32768),
            ("blocks of 65536", |p| p.block_size == 65536),
            ("a ring of 1", |p| p.ring.blocks == 1),
            ("a ring of 40", |p| p.ring.blocks == 40),
            ("a checkpoint across the ring's end", wraps),
            ("equal transactions", equal),
            ("a newer checkpoint that is broken", newer_is_broken),
            ("a length past the ring", length_past_ring),
            ("maps apart", |p| p.ring.checkpoints.iter().any(|c| c.apart && c.read() > 0 && c.fault.is_none())),
            ("maps without a last one", |p| p.ring.checkpoints.iter().any(|c| c.last.is_none() && c.read() > 1)),
            ("an index past the ring", |p| p.ring.checkpoints.iter().any(|c| c.turns > 0)),
            ("a stale block 0", |p| p.stale_zero),
            ("four volumes", |p| p.volumes.len() == 4),
            ("no volume", |p| p.volumes.is_empty()),
            ("zeros between", |p| p.slots.windows(2).any(|w| w[0] == 0 && w[1] != 0)),
            ("more than 100 slots", |p| p.max_file_systems > 100),
            ("the last transaction", |p| p.xid == u64::MAX),
        ],
    );
}

#[test]
fn every_fault_of_a_checkpoint_is_drawn() {
    let plans = plans();
    let faults: Vec<Fault> = plans.iter().flat_map(|p| &p.ring.checkpoints).filter_map(|c| c.fault).collect();
    all_seen(
        &faults,
        &[
            ("checksum", |f| *f == Fault::Checksum),
            ("magic", |f| *f == Fault::Magic),
            ("kind", |f| *f == Fault::Kind),
            ("a map's checksum", |f| *f == Fault::MapChecksum),
            ("a map's kind", |f| *f == Fault::MapKind),
            ("a map's transaction", |f| *f == Fault::MapXid),
            ("a map's count", |f| *f == Fault::MapCount),
            ("length", |f| *f == Fault::Length),
            ("address", |f| *f == Fault::Address),
        ],
    );
}

fn extents(c: &Contents) -> impl Iterator<Item = &Extent> {
    c.streams.iter().flat_map(|s| &s.extents)
}

fn pairs(c: &Contents) -> impl Iterator<Item = (&Extent, &Extent)> {
    c.streams.iter().flat_map(|s| s.extents.windows(2).map(|w| (&w[0], &w[1])))
}

fn overlap(a: &Extent, b: &Extent) -> bool {
    a.logical <= b.logical && a.logical.saturating_add(a.length) > b.logical
}

fn names(c: &Contents) -> impl Iterator<Item = &[u8]> {
    c.files.iter().flat_map(|f| f.entries.iter().map(|e| &e.name[..]))
}

fn twice(c: &Contents) -> bool {
    c.files.iter().any(|f| f.entries.iter().enumerate().any(|(i, e)| f.entries[..i].iter().any(|d| d.name == e.name)))
}

fn by_case(c: &Contents) -> bool {
    let differ = |a: &[u8], b: &[u8]| a != b && a.eq_ignore_ascii_case(b);
    c.files.iter().any(|f| f.entries.windows(2).any(|w| differ(&w[0].name, &w[1].name)))
}

fn hard_link(c: &Contents) -> bool {
    let ids: Vec<u64> = c.files.iter().flat_map(|f| f.entries.iter().map(|e| e.id)).collect();
    (1..ids.len()).any(|i| ids[..i].contains(&ids[i]))
}

fn links(c: &Contents) -> impl Iterator<Item = (&Contents, &Data)> {
    let all = c.files.iter().flat_map(|f| &f.attributes).filter(|a| up_to_zero(&a.name) == LINK_ATTRIBUTE);
    all.map(move |a| (c, &a.data))
}

fn parts_a_character(c: &Contents, data: &Data) -> bool {
    let Data::Stream { id, size } = data else { return false };
    let text = c.bytes(*id, (*size).min(5000));
    let Ok(text) = std::str::from_utf8(&text) else { return false };
    c.stream(*id).iter().any(|e| !text.is_char_boundary((e.logical as usize).min(text.len())))
}

fn keys(c: &Contents, key: Key) -> bool {
    c.files.iter().any(|f| f.entries.iter().any(|e| e.key == key))
}

#[test]
fn every_kind_of_name_is_drawn() {
    all_seen(
        &drawn(),
        &[
            ("case-sensitive", |c| !c.case_insensitive),
            ("case-insensitive", |c| c.case_insensitive),
            ("normalization-insensitive", |c| c.normalization_insensitive),
            ("encrypted", |c| c.encrypted),
            ("sealed", |c| c.sealed),
            ("hashed keys", |c| keys(c, Key::Hashed)),
            ("plain keys", |c| keys(c, Key::Plain)),
            ("keys of a wrong length", |c| keys(c, Key::Wrong)),
            ("ill-formed names", |c| names(c).any(|n| std::str::from_utf8(n).is_err())),
            ("empty names", |c| names(c).any(<[u8]>::is_empty)),
            ("zero bytes inside names", |c| names(c).any(|n| n.contains(&0))),
            ("names twice", twice),
            ("names that differ by case", by_case),
            ("hard links", hard_link),
        ],
    );
}

fn entries(c: &Contents) -> impl Iterator<Item = &Entry> {
    c.files.iter().flat_map(|f| &f.entries)
}

#[test]
fn keys_go_by_the_volumes_kind() {
    for (i, c) in drawn().iter().enumerate() {
        let formed = |e: &Entry| e.key == e.key.formed(c.has_hashed_keys());
        let long = |e: &Entry| !c.regular || e.key.length(&e.name) >= 12;
        assert!(entries(c).all(|e| formed(e) && long(e)), "volume {i}");
    }
}

/// Where the drawn forms are the volume's already, the stick is the same.
#[test]
fn mixed_sticks_differ_in_their_keys_alone() {
    let (mut same, mut other) = (0, 0);
    for seed in 0..200 {
        let (mixed, plan) = (Plan::mixed(seed), Plan::draw(seed));
        let all =
            |p: &Plan| p.volumes.iter().flat_map(|v| entries(&v.contents).map(|e| e.key).collect::<Vec<_>>()).collect();
        let keys: [Vec<Key>; 2] = [all(&mixed), all(&plan)];
        let (alike, equal) = (keys[0] == keys[1], make(mixed).image == make(plan).image);
        assert!(equal || !alike, "stick {seed}");
        (same, other) = (same + usize::from(alike), other + usize::from(!equal));
    }
    assert!(same > 40 && other > 40, "{same} and {other}");
}

/// What is known of a volume with keys about the edges, and of one of its entries.
type AtEdge = (bool, Entry);

fn at_edges() -> Vec<AtEdge> {
    let contents = plans().into_iter().flat_map(|p| p.at_edges().volumes).map(|v| v.contents);
    contents.flat_map(|c| entries(&c).map(|e| (c.has_hashed_keys(), e.clone())).collect::<Vec<_>>()).collect()
}

fn plain_of(e: &AtEdge, length: usize) -> bool {
    !e.0 && matches!(e.1.key, Key::Plain | Key::BarePlain) && e.1.key.length(&e.1.name) == length
}

fn hashed_of(e: &AtEdge, length: usize) -> bool {
    e.0 && matches!(e.1.key, Key::Hashed | Key::Bare) && e.1.key.length(&e.1.name) == length
}

fn is_other(e: &AtEdge) -> bool {
    e.1.key != e.1.key.formed(e.0)
}

/// Of a key that states its own count, how many bytes more it has, by its volume's form.
fn off(e: &AtEdge) -> Option<i64> {
    let start = if e.0 { 4 } else { 2 };
    if e.1.key != Key::Raw || e.1.name.len() < start {
        return None;
    }
    let low = u16::from_le_bytes([e.1.name[0], e.1.name[1]]);
    let count = if e.0 { low & 0x3ff } else { low };
    Some((e.1.name.len() - start) as i64 - i64::from(count))
}

fn raw_of(e: &AtEdge, length: usize) -> bool {
    e.1.key == Key::Raw && e.1.key.length(&e.1.name) == length
}

#[test]
fn every_edge_of_a_key_is_drawn() {
    all_seen(
        &at_edges(),
        &[
            ("plain, 10 bytes", |e| plain_of(e, 10)),
            ("plain, 11 bytes, of a name", |e| plain_of(e, 11) && e.1.key == Key::BarePlain),
            ("plain, 11 bytes, of a zero byte", |e| plain_of(e, 11) && e.1.key == Key::Plain),
            ("plain, 12 bytes", |e| plain_of(e, 12)),
            ("plain, a field of 1,023", |e| plain_of(e, 10 + 1023)),
            ("plain, a field of 1,024", |e| plain_of(e, 10 + 1024)),
            ("hashed, 12 bytes", |e| hashed_of(e, 12)),
            ("hashed, 13 bytes", |e| hashed_of(e, 13)),
            ("hashed, a field of 1,023", |e| hashed_of(e, 12 + 1023)),
            ("a hashed key on a plain volume", |e| !e.0 && is_other(e)),
            ("a plain key on a hashed volume", |e| e.0 && is_other(e)),
            ("a plain key of 10 bytes on a hashed volume", |e| e.0 && is_other(e) && e.1.key.length(&e.1.name) == 10),
            ("a plain key of 11 bytes on a hashed volume", |e| e.0 && is_other(e) && e.1.key.length(&e.1.name) == 11),
            ("one byte too many, hashed", |e| e.0 && off(e) == Some(1)),
            ("one byte too few, hashed", |e| e.0 && off(e) == Some(-1)),
            ("one byte too many, plain", |e| !e.0 && off(e) == Some(1)),
            ("one byte too few, plain", |e| !e.0 && off(e) == Some(-1)),
            ("a field of 1,024 on a hashed volume", |e| e.0 && raw_of(e, 12 + 1024)),
            ("1,024 bytes too many", |e| e.0 && off(e) == Some(1024)),
            ("9 bytes on a hashed volume", |e| e.0 && raw_of(e, 9)),
            ("10 bytes on a hashed volume", |e| e.0 && raw_of(e, 10)),
            ("11 bytes on a hashed volume", |e| e.0 && raw_of(e, 11)),
            ("12 bytes on a hashed volume", |e| e.0 && raw_of(e, 12)),
            ("9 bytes on a plain volume", |e| !e.0 && raw_of(e, 9)),
            ("10 bytes on a plain volume", |e| !e.0 && raw_of(e, 10)),
            ("11 bytes on a plain volume", |e| !e.0 && raw_of(e, 11)),
            ("12 bytes on a plain volume", |e| !e.0 && raw_of(e, 12)),
        ],
    );
}

fn patched() -> Vec<Contents> {
    plans().into_iter().flat_map(|p| p.patched().volumes).map(|v| v.contents).collect()
}

fn up_to_zero(name: &[u8]) -> &[u8] {
    name.split(|&b| b == 0).next().unwrap_or_default()
}

/// Each part of a name that its lossy reading replaces, and the byte behind it, 0 at the end.
fn broken(name: &[u8]) -> Vec<(Vec<u8>, u8)> {
    let (name, mut at) = (up_to_zero(name), 0);
    let part = |c: std::str::Utf8Chunk| {
        at += c.valid().len() + c.invalid().len();
        (c.invalid().to_vec(), name.get(at).copied().unwrap_or(0))
    };
    name.utf8_chunks().map(part).filter(|p| !p.0.is_empty()).collect()
}

fn typed(name: &[u8]) -> bool {
    let mut chunks = up_to_zero(name).utf8_chunks();
    chunks.any(|c| c.valid().contains('\u{fffd}'))
}

fn name_fields(f: &sticks::contents::File) -> Vec<&Field> {
    f.inode.fields.iter().filter(|f| f.kind == NAME_FIELD).collect()
}

/// Label, inode names, entries, attributes and the bytes of links.
fn all_names(c: &Contents) -> [Vec<Vec<u8>>; 5] {
    let fields = c.files.iter().flat_map(name_fields).map(|f| f.data.clone());
    let attributes = c.files.iter().flat_map(|f| &f.attributes).map(|a| a.name.clone());
    let target = |(c, data): (&Contents, &Data)| match data {
        Data::Embedded(b) => b.clone(),
        Data::Stream { id, size } => c.bytes(*id, (*size).min(5000)),
    };
    let entries = names(c).map(<[u8]>::to_vec).collect();
    [vec![c.label.clone()], fields.collect(), entries, attributes.collect(), links(c).map(target).collect()]
}

#[test]
fn every_way_out_of_table_3_7_is_drawn() {
    let all: Vec<[Vec<Vec<u8>>; 5]> = patched().iter().map(all_names).collect();
    for which in 0..5 {
        let parts: Vec<(Vec<u8>, u8)> = all.iter().flat_map(|names| &names[which]).flat_map(|n| broken(n)).collect();
        all_seen(
            &parts,
            &[
                ("a lone continuation", |p| (0x80..=0xbf).contains(&p.0[0])),
                ("2 bytes cut short", |p| (0xc2..=0xdf).contains(&p.0[0])),
                ("3 bytes after the first", |p| (0xe1..=0xef).contains(&p.0[0]) && p.0.len() == 1 && p.1 < 0x80),
                ("3 bytes after the second", |p| (0xe0..=0xef).contains(&p.0[0]) && p.0.len() == 2),
                ("4 bytes after the first", |p| (0xf0..=0xf4).contains(&p.0[0]) && p.0.len() == 1 && p.1 < 0x80),
                ("4 bytes after the second", |p| (0xf0..=0xf4).contains(&p.0[0]) && p.0.len() == 2),
                ("4 bytes after the third", |p| (0xf0..=0xf4).contains(&p.0[0]) && p.0.len() == 3),
                ("2 bytes, overlong", |p| p.0 == [0xc0] || p.0 == [0xc1]),
                ("3 bytes, overlong", |p| p.0 == [0xe0] && (0x80..0xa0).contains(&p.1)),
                ("4 bytes, overlong", |p| p.0 == [0xf0] && (0x80..0x90).contains(&p.1)),
                ("surrogates", |p| p.0 == [0xed] && (0xa0..0xc0).contains(&p.1)),
                ("above U+10FFFF", |p| p.0 == [0xf4] && (0x90..0xc0).contains(&p.1)),
                ("no first byte", |p| p.0[0] >= 0xf5),
            ],
        );
    }
}

/// Of names that differ, two read alike.
fn alike(c: &Contents) -> bool {
    let differ = |a: &[u8], b: &[u8]| up_to_zero(a) != up_to_zero(b) && text(a) == text(b);
    c.files.iter().any(|f| f.entries.windows(2).any(|w| differ(&w[0].name, &w[1].name)))
}

fn copies_differ(c: &Contents) -> bool {
    let count = |f: &Field| broken(&f.data).len();
    c.files.iter().map(name_fields).any(|l| l.windows(2).any(|w| count(w[0]) != count(w[1])))
}

/// Whether a place lies within a character.
fn within(bytes: &[u8], at: usize) -> bool {
    let mut start = 0;
    bytes.utf8_chunks().any(|c| {
        let from = at.checked_sub(start);
        start += c.valid().len() + c.invalid().len();
        from.is_some_and(|n| n < c.valid().len() && !c.valid().is_char_boundary(n))
    })
}

/// A broken text in extents, one of which begins within a character.
fn parts_a_broken_text(c: &Contents, data: &Data) -> bool {
    let Data::Stream { id, size } = data else { return false };
    let bytes = c.bytes(*id, (*size).min(5000));
    let name = up_to_zero(&bytes);
    !broken(name).is_empty() && c.stream(*id).iter().any(|e| within(name, e.logical as usize))
}

#[test]
fn every_kind_of_patched_name_is_drawn() {
    all_seen(
        &patched(),
        &[
            ("a label's U+FFFD, typed", |c| typed(&c.label) && broken(&c.label).is_empty()),
            ("a label cut within a character", |c| c.label.len() == 256 && broken(&c.label).len() == 1),
            ("an entry's, typed", |c| names(c).any(|n| typed(n) && broken(n).is_empty())),
            ("an entry's, typed and broken", |c| names(c).any(|n| typed(n) && !broken(n).is_empty())),
            ("five parts", |c| names(c).any(|n| broken(n).len() > 4)),
            ("what is broken behind a zero byte", |c| {
                names(c).any(|n| broken(n).is_empty() && std::str::from_utf8(n).is_err())
            }),
            ("copies of different numbers", copies_differ),
            ("names that read alike", alike),
            ("an attribute's", |c| all_names(c)[3].iter().any(|n| !broken(n).is_empty())),
            ("a link's name with more behind it", |c| {
                all_names(c)[3].iter().any(|n| n.len() > LINK_ATTRIBUTE.len() && n.starts_with(LINK_ATTRIBUTE))
            }),
            ("an embedded link's", |c| links(c).any(|(_, d)| matches!(d, Data::Embedded(b) if !broken(b).is_empty()))),
            ("a streamed link's, parted within a character", |c| links(c).any(|(c, d)| parts_a_broken_text(c, d))),
        ],
    );
}

#[test]
fn every_kind_of_file_is_drawn() {
    all_seen(
        &drawn(),
        &[
            ("cycles", |c| c.files.iter().any(|f| f.entries.iter().any(|e| e.id == 2))),
            ("compressed files", |c| c.files.iter().any(|f| f.inode.is_compressed())),
            ("negative links", |c| c.files.iter().any(|f| f.inode.links < 0)),
            ("repeated fields", |c| c.files.iter().any(|f| f.inode.fields.windows(2).any(|w| w[0].kind == w[1].kind))),
            ("short values", |c| c.files.iter().any(|f| f.inode.fields.is_empty() && f.inode.short > 0)),
            ("links in streams", |c| links(c).any(|(_, d)| matches!(d, Data::Stream { .. }))),
            ("links that part within a character", |c| links(c).any(|(c, d)| parts_a_character(c, d))),
            ("links of sizes past any image", |c| {
                links(c).any(|(_, d)| matches!(d, Data::Stream { size: u64::MAX, .. }))
            }),
            ("streams", |c| c.files.iter().any(|f| f.attributes.iter().any(|a| matches!(a.data, Data::Stream { .. })))),
            ("ghosts", |c| c.others.iter().any(|r| r.value.is_none())),
        ],
    );
}

#[test]
fn every_kind_of_extent_is_drawn() {
    all_seen(
        &drawn(),
        &[
            ("holes", |c| extents(c).any(|e| matches!(e.source, Source::Hole))),
            ("gaps", |c| pairs(c).any(|(a, b)| a.logical + 1 < b.logical && a.length == 0)),
            ("extents of no length", |c| extents(c).any(|e| e.length == 0)),
            ("descending extents", |c| pairs(c).any(|(a, b)| a.logical > b.logical)),
            ("equal starts", |c| pairs(c).any(|(a, b)| a.logical == b.logical)),
            ("extents that overlap in order", |c| pairs(c).any(|(a, b)| overlap(a, b))),
            ("none of length within another", |c| pairs(c).any(|(a, b)| overlap(a, b) && b.length == 0)),
            ("extents outside", |c| extents(c).any(|e| matches!(e.source, Source::Block(b) if b > 1 << 30))),
        ],
    );
}

#[test]
fn every_kind_of_tree_is_drawn() {
    all_seen(
        &volumes(),
        &[
            ("a lost node", |v| v.lost.is_some()),
            ("a node too far", |v| v.lost == Some(Lost::Far)),
            ("records out of order", |v| v.muddled),
            ("nodes of one size", |v| v.fixed.0 > 0),
            ("a high floor", |v| v.tree.floor > 0),
            ("high leaves", |v| v.tree.high_leaves),
            ("index nodes at level 0", |v| v.tree.hollow && v.tree.floor == 0),
            ("many levels", |v| v.tree.extra > 20),
        ],
    );
}
