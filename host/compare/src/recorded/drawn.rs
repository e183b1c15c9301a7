//! Calls on drawn sticks, whole and damaged: so many of each kind of answer.

use std::collections::BTreeMap;

use sticks::contents::LINK_ATTRIBUTE;
use sticks::random::Random;
use sticks::{make, Plan, Stick};

use crate::calls::call::Call;
use crate::calls::directory::{Account, Directories, Rule};
use crate::calls::lists::Lists;
use crate::calls::{draw, expected, run};
use crate::image::Image;
use crate::opening;
use crate::opening::answer::{self, caught};
use crate::opening::run::stick_seed;
use crate::recorded::asked::{account, told, told_by, Asked, Question, Told};
use crate::recorded::file::{self, File};

/// Of an image's bytes, so many at most are not zeros.
const FULLEST: usize = 9_000;
/// Of the buffer that a call is first tried with.
const LONGEST: usize = 65_536;
/// A stick with fewer calls to keep is left out.
const AT_LEAST: usize = 5;
const STICKS: u64 = 1500;
/// Of a superblock's volumes, no more are asked about.
const VOLUMES: u64 = 2;

/// Sticks of one kind.
pub struct Group {
    title: &'static str,
    plan: fn(u64) -> Plan,
    spoil: fn(&[u8], u64) -> Vec<u8>,
    /// Calls are drawn and kept by what this rule answers.
    rule: Rule,
    /// So many calls of a kind are kept.
    of_a_kind: usize,
}

/// Drawn and kept by the Rust's answers, so that the records stay as they were before request 03.
pub const MIXED: [Group; 3] = [
    mixed("drawn sticks", |image, _| image.to_vec()),
    mixed("drawn sticks, what opening reads damaged", |image, seed| opening::run::damaged(image, seed, 1)),
    mixed("drawn sticks, what their trees hold damaged", |image, seed| run::damaged(image, seed, 1)),
];

pub const AT_EDGES: [Group; 1] = [Group {
    title: "drawn sticks, directory keys about the edges of their forms",
    plan: |seed| Plan::draw(seed).at_edges(),
    spoil: |image, _| image.to_vec(),
    rule: Rule::Kind,
    of_a_kind: 4,
}];

const fn mixed(title: &'static str, spoil: fn(&[u8], u64) -> Vec<u8>) -> Group {
    Group { title, plan: Plan::mixed, spoil, rule: Rule::Length, of_a_kind: 6 }
}

pub fn write(seed: u64, groups: &[Group], file: &mut File) {
    for group in groups {
        file.title(group.title);
        let mut kept = Kept { most: group.of_a_kind, ..Kept::default() };
        for i in 0..STICKS {
            let stick = make((group.plan)(stick_seed(seed, i)));
            let image = (group.spoil)(&stick.image, stick.plan.seed);
            if image.len() <= file::LONGEST && image.iter().filter(|&&b| b != 0).count() <= FULLEST {
                let random = Random::new(stick.plan.seed);
                let drawing = Drawing { image: Image::of(image), random, rule: group.rule };
                kept.offer(drawing.questions(&stick), file);
            }
        }
    }
}

#[derive(Default)]
struct Kept {
    /// So many of a kind at most.
    most: usize,
    /// How many there are of each call and kind of answer.
    kinds: BTreeMap<(&'static str, String), usize>,
}

struct Asking {
    question: Question,
    told: Told,
    kind: String,
}

impl Kept {
    /// Those of a stick that are of a rare kind go into the file, if they are enough.
    fn offer(&mut self, (image, list): (Image, Vec<Asking>), file: &mut File) {
        let mut kinds = self.kinds.clone();
        let mut rare = |a: &Asking| {
            let n = kinds.entry((a.question.asked.name(), a.kind.clone())).or_default();
            *n += 1;
            *n <= self.most
        };
        let keep: Vec<Asking> = list.into_iter().filter(|a| rare(a)).collect();
        if keep.len() < AT_LEAST {
            return;
        }
        file.image(&image.whole);
        for a in keep {
            *self.kinds.entry((a.question.asked.name(), a.kind.clone())).or_default() += 1;
            file.call(&a.question, &a.told);
        }
    }
}

struct Drawing {
    image: Image,
    random: Random,
    rule: Rule,
}

impl Drawing {
    /// The image, and calls that the oracle or document 01 tells the answers of.
    fn questions(mut self, stick: &Stick) -> (Image, Vec<Asking>) {
        let mut out = Vec::new();
        self.ask(0, Asked::Open, &mut out);
        let slots = answer::opened(&self.image).map_or(0, |(_, c)| c.sb.fs_oids.len() as u64);
        for volume in 0..slots.min(VOLUMES) {
            self.volume(stick, volume, &mut out);
        }
        let none = self.random.pick(&[slots, slots, u64::MAX]);
        self.each(none, &mut out);
        (self.image, out)
    }

    /// One call of each kind.
    fn each(&mut self, volume: u64, out: &mut Vec<Asking>) {
        for asked in draw::each(&mut self.random).into_iter().map(Asked::Call).filter(file::has_op) {
            self.ask(volume, asked, out);
        }
        self.ask(volume, Asked::List, out);
    }

    fn volume(&mut self, stick: &Stick, volume: u64, out: &mut Vec<Asking>) {
        self.each(volume, out);
        let Some(plan) = stick.plan.volumes.get(volume as usize) else { return };
        let mut calls = draw::lookups(&plan.contents, &mut self.random);
        let links = plan.contents.files.iter().filter(|f| f.attributes.iter().any(|a| a.name == LINK_ATTRIBUTE));
        calls.extend(links.map(|f| Call::Link { id: f.inode.id }));
        if let Some((_, c)) = answer::opened(&self.image) {
            if let Ok(Ok(v)) = caught(|| c.volume(volume as usize)) {
                let dirs = Directories::of(&v, self.rule);
                for id in draw::ids(&plan.contents, &mut self.random) {
                    let lists = Lists::of(&dirs, id);
                    calls.extend(draw::on(&lists, id, c.block_size().into(), &mut self.random));
                }
            }
        }
        for call in calls {
            self.ask(volume, Asked::Call(call), out);
        }
        self.ask(volume, Asked::List, out);
    }

    /// With a buffer that is long enough, fits, or is too short.
    fn ask(&mut self, volume: u64, asked: Asked, out: &mut Vec<Asking>) {
        let mut question = Question { volume, asked, room: LONGEST };
        question.room = match (&question.asked, told_by(self.rule, &self.image, &question)) {
            (Asked::Call(call), _) if call.room().is_some_and(|n| n > LONGEST) => return,
            (Asked::Call(call), _) if call.room().is_some() => call.room().unwrap_or_default(),
            (_, Some(Told::Bytes(b))) => {
                let n = b.len();
                self.random.pick(&[n, n, n + 1, n + 30, n.saturating_sub(1), self.random.clone().place(n + 1)])
            }
            _ => self.random.pick(&[0, 40, 300, 4000]),
        };
        question.room = question.room.min(LONGEST);
        let Some(by_rule) = told_by(self.rule, &self.image, &question) else { return };
        let Some(kind) = self.kind(&question, &by_rule) else { return };
        let Some(told) = told(&self.image, &question) else { return };
        out.push(Asking { question, told, kind });
    }

    /// None for what is not to be kept: by the volume's kind, calls that read directories alone are.
    fn kind(&self, q: &Question, told: &Told) -> Option<String> {
        let kind = match (told, &q.asked) {
            (Told::Refused(n), _) => format!("refused with {n}"),
            (_, Asked::Call(call)) => expected::told_by(self.rule, &self.image, q.volume, call).kind.to_string(),
            _ => "answered".into(),
        };
        match account(self.rule, &self.image, q) {
            _ if self.rule == Rule::Length => Some(kind),
            Account::None => None,
            account => Some(format!("{kind} by {account}")),
        }
    }
}
