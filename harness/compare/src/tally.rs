//! Judges a request by both sides' answers, and counts.

use crate::entries::{KIND, PRIMITIVE};
use crate::shrink::{self, Shrink, Size};
use crate::{added, cases, layer_cases, layer_chances, layers, original, ours};
use request::{Answer, Call, LayerRequest, Request};
use std::collections::BTreeMap;
use std::fmt::Display;
use std::thread;

/// Both answers to a request, and the number by which document 01 refuses it; a layer report is refused by document 02.
pub struct Judged {
    pub ours: Answer,
    pub original: Answer,
    pub refusal: Option<u32>,
    /// Where the original lacks that refusal.
    pub added: Option<u32>,
    /// Whether it is about the primitive surface.
    pub primitive: bool,
}

/// A request that both sides answer.
pub trait Asked: Shrink + Display {
    fn judge(&self) -> Judged;
}

impl Asked for Request {
    fn judge(&self) -> Judged {
        let original = original::answer(self);
        let refusal = match self.call {
            // 13 wants the cells counted, which the plain walk has done.
            Call::Walk => original.refused(),
            _ => added::refusal(self),
        };
        // A level has no surface.
        let primitive = self.call != Call::GradeRange && self.description[KIND] == PRIMITIVE;
        Judged { ours: ours::answer(self), original, refusal, added: added::added(self), primitive }
    }
}

/// The original has no layer report: the plain one stands in, and has every refusal.
impl Asked for LayerRequest {
    fn judge(&self) -> Judged {
        let original = layers::answer(self);
        let refusal = original.refused();
        Judged { ours: ours::layers(self), original, refusal, added: None, primitive: false }
    }
}

impl Judged {
    /// Whether an answer is the refusal that document 01 asks for, or none where it asks for none.
    fn keeps_the_table(&self, answer: &Answer) -> bool {
        answer.refused() == self.refusal
    }

    /// Whether the answers differ, or one breaks the table, where document 01 adds nothing; whether ours is another than the
    /// added refusal.
    pub fn differs(&self) -> bool {
        match self.added {
            Some(n) => !self.ours.same(&Answer::Refused(n)),
            None => !self.ours.same(&self.original) || !self.keeps_the_table(&self.original),
        }
    }

    fn kinds(&self) -> [(u8, u32); 2] {
        [self.ours.kind(), self.original.kind()]
    }
}

/// What the original does where document 01 adds a refusal.
#[derive(Clone, Copy, Debug, PartialEq, Eq, PartialOrd, Ord)]
pub enum Otherwise {
    Found,
    None,
    RefusedByAnother,
    Panicked,
    /// The request cannot be made into its types.
    Unmade,
}

fn otherwise(original: &Answer) -> Otherwise {
    match original {
        Answer::Found(_) | Answer::Walked(_) | Answer::Reported(_) => Otherwise::Found,
        Answer::None => Otherwise::None,
        Answer::Refused(_) => Otherwise::RefusedByAnother,
        Answer::Panicked => Otherwise::Panicked,
        Answer::Unmade | Answer::Unavailable => Otherwise::Unmade,
    }
}

/// How often a thing was seen, and its smallest request; of two alike the earlier case's.
pub struct Sample<R> {
    pub count: u64,
    smallest: Option<(Size, u64, R)>,
}

impl<R> Default for Sample<R> {
    fn default() -> Self {
        Self { count: 0, smallest: None }
    }
}

impl<R: Asked> Sample<R> {
    fn see(&mut self, index: u64, request: &R) {
        self.count += 1;
        self.keep(Some((request.size(), index, request.clone())));
    }

    fn keep(&mut self, other: Option<(Size, u64, R)>) {
        let order = |s: &(Size, u64, R)| (s.0, s.1);
        self.smallest = self.smallest.take().into_iter().chain(other).min_by_key(order);
    }

    fn merge(&mut self, other: Self) {
        self.count += other.count;
        self.keep(other.smallest);
    }

    /// The smallest request, made smaller while `still` holds.
    fn shrunk(&self, still: impl Fn(&R) -> bool) -> Option<R> {
        self.smallest.as_ref().map(|(_, _, request)| shrink::shrink(request.clone(), still))
    }
}

type Kinds = [(u8, u32); 2];

/// The counts of one call.
pub struct Tally<R> {
    pub cases: u64,
    pub values: u64,
    /// Those of the values that are about the primitive surface.
    pub primitive: u64,
    pub refusals: u64,
    pub none: u64,
    pub added: BTreeMap<u32, u64>,
    pub otherwise: BTreeMap<(u32, Otherwise), Sample<R>>,
    pub differences: BTreeMap<Kinds, Sample<R>>,
}

impl<R> Default for Tally<R> {
    fn default() -> Self {
        Self {
            cases: 0,
            values: 0,
            primitive: 0,
            refusals: 0,
            none: 0,
            added: BTreeMap::new(),
            otherwise: BTreeMap::new(),
            differences: BTreeMap::new(),
        }
    }
}

impl<R: Asked> Tally<R> {
    fn see(&mut self, index: u64, request: &R) {
        let judged = request.judge();
        self.cases += 1;
        match (judged.added, &judged.original) {
            (Some(n), original) => {
                *self.added.entry(n).or_default() += 1;
                let key = (n, otherwise(original));
                self.otherwise.entry(key).or_default().see(index, request);
            }
            (None, Answer::None) => self.none += 1,
            (None, Answer::Found(_) | Answer::Walked(_) | Answer::Reported(_))
                if judged.original.refused().is_none() =>
            {
                self.values += 1;
                self.primitive += u64::from(judged.primitive);
            }
            (None, _) => self.refusals += 1,
        }
        if judged.differs() {
            let sample = self.differences.entry(judged.kinds()).or_default();
            sample.see(index, request);
        }
    }

    fn merge(mut self, other: Self) -> Self {
        self.cases += other.cases;
        self.values += other.values;
        self.primitive += other.primitive;
        self.refusals += other.refusals;
        self.none += other.none;
        for (n, count) in other.added {
            *self.added.entry(n).or_default() += count;
        }
        for (key, sample) in other.otherwise {
            self.otherwise.entry(key).or_default().merge(sample);
        }
        for (kinds, sample) in other.differences {
            self.differences.entry(kinds).or_default().merge(sample);
        }
        self
    }

    /// How many requests the sides differ on.
    pub fn different(&self) -> u64 {
        self.differences.values().map(|sample| sample.count).sum()
    }

    /// The smallest request on which the sides differ in this way.
    pub fn smallest_difference(&self, kinds: &Kinds) -> Option<R> {
        self.differences.get(kinds)?.shrunk(|request| {
            let judged = request.judge();
            judged.differs() && judged.kinds() == *kinds
        })
    }
}

impl Tally<Request> {
    /// The smallest request on which the original does otherwise in this way.
    pub fn smallest_otherwise(&self, key: (u32, Otherwise)) -> Option<Request> {
        self.otherwise
            .get(&key)?
            .shrunk(|request| added::added(request) == Some(key.0) && otherwise(&original::answer(request)) == key.1)
    }
}

/// The systematic part of a call and `count` cases by chance.
pub fn call(call: Call, count: u64, seed: u64) -> Tally<Request> {
    tally(&cases::systematic(call), count, |index| cases::by_chance(call, seed, index))
}

/// The same of the layer report.
pub fn layers(count: u64, seed: u64) -> Tally<LayerRequest> {
    tally(&layer_cases::systematic(), count, |index| layer_chances::by_chance(seed, index))
}

/// Fixed requests and `count` by chance, on all cores. How many there are does not change the tally.
fn tally<R: Asked + Send + Sync>(fixed: &[R], count: u64, by_chance: impl Fn(u64) -> R + Sync) -> Tally<R> {
    let threads = thread::available_parallelism().map_or(1, |n| n.get());
    let all = fixed.len() as u64 + count;
    let share = |first: usize| {
        let mut tally = Tally::default();
        for index in (first as u64..all).step_by(threads) {
            match fixed.get(index as usize) {
                Some(request) => tally.see(index, request),
                None => tally.see(index, &by_chance(index - fixed.len() as u64)),
            }
        }
        tally
    };
    thread::scope(|scope| {
        let share = &share;
        let workers: Vec<_> = (0..threads).map(|first| scope.spawn(move || share(first))).collect();
        let shares = workers.into_iter().map(|worker| worker.join().expect("a worker does not panic"));
        shares.fold(Tally::default(), Tally::merge)
    })
}
