//! Mistakes in the list of checkpoints, and in opening by number: document 02, request 04.

use compare::calls::call::Call;
use compare::calls::check::pattern;
use compare::calls::expected::{self, Answer};
use compare::checkpoints::run::Run;
use compare::checkpoints::spoiled::image_at;
use compare::checkpoints::Ports;
use compare::image::Image;
use compare::list::walk;
use compare::pairs::by_oracle;
use compare::recorded::asked::Asked;
use compare::recorded::read::{of_cases, Recorded};
use sticks::block::get64;

use crate::stand::{self, stand, Mistake, Stand};

const ENOUGH: u64 = 250;

#[derive(Clone, Copy, Debug, PartialEq, Eq)]
enum Slip {
    None,
    Ascending,
    RingOrder,
    RepeatsDropped,
    CountOfBytes,
    BigEndian,
    ListShortFirst,
    ListShortByOne,
    ListHalfWritten,
    ListPast,
    EmptyListAnswered,
    FeaturesListed,
    MapsNotListed,
    LastOfEqual,
    MapsNotTested,
    FirstOfNumberAlone,
    TwoForNumber,
    NumberFirst,
    NumberLast,
    AtMost,
    LatestOpened,
    LatestCalled,
    LatestListed,
    LatestMeasured,
    LatestMarked,
    LatestHandedTo,
    LowHalf,
}

use Slip as S;

const ALL: [Slip; 26] = [
    S::Ascending,
    S::RingOrder,
    S::RepeatsDropped,
    S::CountOfBytes,
    S::BigEndian,
    S::ListShortFirst,
    S::ListShortByOne,
    S::ListHalfWritten,
    S::ListPast,
    S::EmptyListAnswered,
    S::FeaturesListed,
    S::MapsNotListed,
    S::LastOfEqual,
    S::MapsNotTested,
    S::FirstOfNumberAlone,
    S::TwoForNumber,
    S::NumberFirst,
    S::NumberLast,
    S::AtMost,
    S::LatestOpened,
    S::LatestCalled,
    S::LatestListed,
    S::LatestMeasured,
    S::LatestMarked,
    S::LatestHandedTo,
    S::LowHalf,
];

fn xid(sb: &[u8]) -> u64 {
    get64(sb, 16)
}

/// The numbers of the accepted checkpoints.
fn numbers(s: &Stand, slip: Slip) -> stand::Answer<Vec<u64>> {
    let all = s.candidates()?;
    let opens = |sb: &[u8]| slip != S::FeaturesListed || s.open_of(sb).is_ok();
    let kept = |sb: &&&[u8]| (slip == S::MapsNotListed || s.accepted(sb)) && opens(sb);
    let mut list: Vec<u64> = all.iter().filter(kept).map(|sb| xid(sb)).collect();
    if list.is_empty() && slip != S::EmptyListAnswered {
        return Err(-2);
    }
    if slip != S::RingOrder {
        list.sort();
    }
    if !matches!(slip, S::Ascending | S::RingOrder) {
        list.reverse();
    }
    if slip == S::RepeatsDropped {
        list.dedup();
    }
    Ok(list)
}

fn apfs_checkpoints(image: &[u8], out: &mut [u8], slip: Slip) -> i64 {
    if slip == S::ListShortFirst && out.is_empty() {
        return -6;
    }
    let list = match stand(image, Mistake::None).and_then(|s| numbers(&s, slip)) {
        Ok(list) => list,
        Err(number) => return number,
    };
    let bytes: Vec<u8> =
        list.iter().flat_map(|n| if slip == S::BigEndian { n.to_be_bytes() } else { n.to_le_bytes() }).collect();
    if bytes.len() + usize::from(slip == S::ListShortByOne) > out.len() {
        if slip == S::ListHalfWritten {
            out.iter_mut().zip(&bytes).for_each(|(to, from)| *to = *from);
        }
        return -6;
    }
    out[..bytes.len()].copy_from_slice(&bytes);
    if slip == S::ListPast && out.len() > bytes.len() {
        out[bytes.len()] = 0;
    }
    if slip == S::CountOfBytes {
        bytes.len() as i64
    } else {
        list.len() as i64
    }
}

/// The superblock that is opened.
fn chosen<'s>(s: &'s Stand, x: u64, slip: Slip) -> stand::Answer<&'s [u8]> {
    let is = |sb: &&[u8]| match slip {
        S::AtMost => xid(sb) <= x,
        S::LowHalf => xid(sb) as u32 == x as u32,
        _ => xid(sb) == x,
    };
    let of: Vec<&[u8]> = s.candidates()?.into_iter().filter(is).collect();
    let mut accepted = of.iter().filter(|sb| slip == S::MapsNotTested || s.accepted(sb));
    let found = match slip {
        S::LastOfEqual => accepted.next_back(),
        S::FirstOfNumberAlone => of.first().filter(|sb| s.accepted(sb)),
        _ => accepted.next(),
    };
    found.copied().ok_or(if slip == S::TwoForNumber { -2 } else { -13 })
}

fn open_at(image: &[u8], x: u64, slip: Slip) -> stand::Answer<String> {
    let s = stand(image, Mistake::None).map_err(|n| if slip == S::NumberFirst { -13 } else { n })?;
    match chosen(&s, x, slip) {
        Err(-13) if slip == S::NumberLast => s.candidates()?.first().map_or(Err(-13), |sb| s.open_of(sb)).and(Err(-13)),
        sb => s.open_of(sb?),
    }
}

fn apfs_open_at(image: &[u8], x: u64, out: &mut [u8], slip: Slip) -> i64 {
    if slip == S::LatestOpened {
        return stand::apfs_open(image, out, Mistake::None);
    }
    match open_at(image, x, slip) {
        Err(number) => number,
        Ok(text) if text.len() > out.len() => -6,
        Ok(text) => filled(out, text.as_bytes()),
    }
}

fn filled(out: &mut [u8], bytes: &[u8]) -> i64 {
    out[..bytes.len()].copy_from_slice(bytes);
    bytes.len() as i64
}

/// By the oracle, which knows no mistake but to read the latest checkpoint.
fn call_at(image: &[u8], x: u64, volume: u64, call: &Call, out: &mut [u8], slip: Slip) -> i64 {
    let image = Image::of(image.to_vec());
    let latest = match call {
        Call::Mark { .. } => slip == S::LatestMarked,
        Call::Marked { .. } => slip == S::LatestHandedTo,
        _ => slip == S::LatestCalled,
    };
    let at = if latest { image } else { image_at(&image, x, 1) };
    match expected::of_image(&at, volume, call).answer {
        Answer::Bytes(b) if b.len() > out.len() => -6,
        Answer::Bytes(b) => filled(out, &b),
        Answer::Refused(number) => -(number as i64),
        Answer::Any | Answer::Panic(_) => -8,
    }
}

fn list_at(image: &[u8], x: u64, volume: u64, out: &mut [u8], slip: Slip) -> i64 {
    let image = Image::of(image.to_vec());
    let at = if slip == S::LatestListed { image } else { image_at(&image, x, 1) };
    let trace = walk::of_image(&at, volume);
    match trace.refusal(out.len()) {
        Some(number) => {
            out.fill(0);
            -(number as i64)
        }
        None => filled(out, &trace.text),
    }
}

fn measure_at(image: &[u8], x: u64, volume: u64, out: &mut [u8], slip: Slip) -> i64 {
    let image = Image::of(image.to_vec());
    let at = if slip == S::LatestMeasured { image } else { image_at(&image, x, 1) };
    by_oracle::measure_of(&at, volume, out)
}

fn run(slip: Slip, count: u64) -> Run {
    crate::silence_overflows();
    let ports = Ports {
        numbers: &|image, out| apfs_checkpoints(image, out, slip),
        open: &|image, x, out| apfs_open_at(image, x, out, slip),
        call: &|image, x, volume, call, out| call_at(image, x, volume, call, out, slip),
        list: &|image, x, volume, out| list_at(image, x, volume, out, slip),
        measure: &|image, x, volume, out| measure_at(image, x, volume, out, slip),
    };
    Run::over(3, count, Some(ports))
}

#[test]
fn no_slip_none_found() {
    assert_eq!(run(S::None, ENOUGH).failure.map(|f| (f.stick, f.words)), None);
}

#[test]
fn every_slip_is_found() {
    let missed: Vec<Slip> = ALL.into_iter().filter(|&s| run(s, ENOUGH).failure.is_none()).collect();
    assert_eq!(missed, []);
}

fn agrees(r: &Recorded, slip: Slip) -> bool {
    let mut out = pattern(r.question.room);
    let volume = r.question.volume;
    let got = match &r.question.asked {
        Asked::Checkpoints => apfs_checkpoints(&r.image, &mut out, slip),
        Asked::At(x, asked) => match &**asked {
            Asked::Open => apfs_open_at(&r.image, *x, &mut out, slip),
            Asked::Call(call) => call_at(&r.image, *x, volume, call, &mut out, slip),
            Asked::Measure => measure_at(&r.image, *x, volume, &mut out, slip),
            _ => list_at(&r.image, *x, volume, &mut out, slip),
        },
        _ => return true,
    };
    r.holds(got, &out)
}

#[test]
fn every_slip_is_found_by_the_recorded_calls() {
    crate::silence_overflows();
    let records = of_cases().expect("a whole file");
    let all_agree = |slip: Slip| records.iter().all(|r| agrees(r, slip));
    assert!(all_agree(S::None));
    let missed: Vec<Slip> = ALL.into_iter().filter(|&s| all_agree(s)).collect();
    assert_eq!(missed, []);
}
