//! The generator of replay files. It looks at its own table before each call and picks a request that matters there,
//! mixed with a share of blind and of bad ones; what a run is about is its profile. The same seed gives the same
//! bytes everywhere. The rules that make a request matter are those of 01, Calls and One tick.

mod bad;
mod broken;
mod flags;
mod mutexes;
mod profile;
mod revive;
mod scene;
mod semaphores;
mod spans;
mod threads;
mod ties;
mod timers;

pub use profile::Profile;

use crate::calls;
use crate::calls::number::*;
use crate::random::Random;
use crate::replay::encode;
use crate::table::{Report, Request, Table, HIGHEST_DEPTH};
use profile::{Mood, Objects};
use scene::{request, Scene};
use std::collections::VecDeque;

/// How many requests a mood lasts, on the average.
const MOOD_LASTS: u32 = 300;

pub struct Generator {
    profile: Profile,
    random: Random,
    table: Table,
    objects: Objects,
    mood: Mood,
    wide: bool,
    /// What comes next without another look at the table: a plan, or a request that is repeated.
    planned: VecDeque<Request>,
}

impl Generator {
    /// Starts with a fresh table of its own.
    pub fn new(profile: Profile, seed: u64) -> Generator {
        let mut random = Random::new(seed);
        let objects = Objects::draw(&mut random);
        let mood = Mood::draw(profile, &mut random);
        Generator {
            profile,
            random,
            table: Table::fresh(),
            objects,
            mood,
            wide: false,
            planned: VecDeque::new(),
        }
    }

    pub fn table(&self) -> &Table {
        &self.table
    }

    /// Goes on from another sound table.
    pub fn set_table(&mut self, table: Table) {
        self.table = table;
        self.planned.clear();
    }

    /// Whether calls and ids beyond a byte may come up, which no replay file can hold.
    pub fn wide(&mut self, wide: bool) {
        self.wide = wide;
    }

    /// Picks a request and calls it on the generator's own table.
    pub fn step(&mut self) -> (Request, Report) {
        let request = self.pick();
        let report = calls::call(&mut self.table, &request);
        (request, report)
    }

    /// Picks a request that matters here, without calling it.
    pub fn pick(&mut self) -> Request {
        if self.random.once_in(MOOD_LASTS) {
            self.mood = Mood::draw(self.profile, &mut self.random);
        }
        let mut request = match self.planned.pop_front() {
            Some(request) => request,
            None => self.pick_anew(),
        };
        let mut scene = self.scene();
        if is_plain_advance(&request) {
            request.a = spans::affordable(&mut scene, request.a);
        }
        if request.call == CLAIM {
            mutexes::keep_loose(&mut scene, &mut request);
        }
        request
    }

    /// The first request of a new plan, or a single one, which may be repeated.
    fn pick_anew(&mut self) -> Request {
        let mut scene = self.scene();
        if ties::is_due(&mut scene) {
            self.planned = ties::plan(&mut scene).into();
        }
        match self.planned.pop_front() {
            Some(request) => request,
            None => {
                let request = choose(&mut self.scene());
                let times = self.repetitions(&request);
                self.planned = vec![request; times].into();
                request
            }
        }
    }

    fn scene(&mut self) -> Scene<'_> {
        Scene {
            profile: self.profile,
            table: &self.table,
            mood: &self.mood,
            objects: &self.objects,
            random: &mut self.random,
            wide: self.wide,
        }
    }

    /// How many times more: now and then claims go on up to the greatest depth and beyond it, and releases back to 0.
    fn repetitions(&mut self, request: &Request) -> usize {
        let seldom = if self.profile == Profile::Mutexes { 40 } else { 1_000 };
        let depth = match self.table.mutexes.get(request.id as usize) {
            Some(mutex) if mutex.owner.is_some() && mutex.owner == self.table.chosen => mutex.depth,
            _ => return 0,
        };
        match request.call {
            CLAIM if self.random.once_in(seldom) => (HIGHEST_DEPTH - depth + 1) as usize,
            RELEASE if depth > 10 && self.random.once_in(3) => depth as usize,
            _ => 0,
        }
    }
}

/// An advance that isn't refused.
fn is_plain_advance(request: &Request) -> bool {
    request.call == ADVANCE && request.id == 0 && (request.b, request.c, request.d) == (0, 0, 0)
}

fn choose(scene: &mut Scene) -> Request {
    if revive::is_off_too_long(scene) {
        return request(SCHEDULING, 0, &[1]);
    }
    if revive::is_due(scene) {
        if let Some(request) = revive::pick(scene) {
            return request;
        }
    }
    if !scene.random.percent(scene.profile.weights().spoiled) {
        return choose_good(scene);
    }
    // Half of the bad ones start from any call, so that each comes up as often as the others.
    let good = if scene.random.percent(50) {
        bad::anything(scene)
    } else {
        choose_good(scene)
    };
    bad::spoil(scene, good)
}

fn choose_good(scene: &mut Scene) -> Request {
    let weights = scene.profile.weights();
    let subjects = [
        weights.threads,
        weights.quanta,
        weights.semaphores,
        weights.mutexes,
        weights.flags,
        weights.timers,
        weights.scheduling,
        weights.advance,
        weights.any,
    ];
    match scene.random.weighted(&subjects) {
        0 => threads::pick(scene),
        1 => threads::pick_quanta(scene),
        2 => semaphores::pick(scene),
        3 => mutexes::pick(scene),
        4 => flags::pick(scene),
        5 => timers::pick(scene),
        6 => scheduling(scene),
        7 => request(ADVANCE, 0, &[spans::span(scene)]),
        _ => bad::anything(scene),
    }
}

/// Mostly a change; off doesn't last, or nothing would be chosen any more.
fn scheduling(scene: &mut Scene) -> Request {
    let on = if scene.table.scheduling_on {
        scene.random.percent(30)
    } else {
        scene.random.percent(60)
    };
    request(SCHEDULING, 0, &[u32::from(on)])
}

/// A replay file of so many records; in the broken profile about so many.
pub fn file(profile: Profile, seed: u64, records: u32) -> Vec<u8> {
    if profile == Profile::Broken {
        return broken::file(seed, records);
    }
    let mut generator = Generator::new(profile, seed);
    (0..records).flat_map(|_| encode(&generator.step().0)).collect()
}
