//! Where each of the sixteen threads stands: how many lists hold it, how often, and of which family.
//! Entries that are no thread's id stand for nobody.

use crate::image::layout;
use crate::table::{ListName, THREADS};

#[derive(Clone, Copy, Default)]
pub struct Place {
    /// The number of lists that hold the thread.
    pub lists: usize,
    /// Whether one list holds it more than once.
    pub twice: bool,
    pub ready: bool,
    pub asleep: bool,
    pub waits_for_semaphore: bool,
    pub waits_for_mutex: bool,
    pub waits_for_flags: bool,
}

impl Place {
    pub fn waits(&self) -> bool {
        self.waits_for_semaphore || self.waits_for_mutex || self.waits_for_flags
    }

    fn enter(&mut self, name: ListName) {
        match name {
            ListName::Ready(_) => self.ready = true,
            ListName::Sleep => self.asleep = true,
            ListName::Stopped => (),
            ListName::SemaphoreWait(_) => self.waits_for_semaphore = true,
            ListName::MutexWait(_) => self.waits_for_mutex = true,
            ListName::FlagsWait(_) => self.waits_for_flags = true,
        }
    }
}

pub struct Places([Place; THREADS]);

impl Places {
    pub fn of(image: &[u8]) -> Places {
        let mut places = Places([Place::default(); THREADS]);
        for name in ListName::all() {
            places.enter(name, layout::ids(image, name));
        }
        places
    }

    pub fn thread(&self, id: usize) -> &Place {
        &self.0[id]
    }

    fn enter(&mut self, name: ListName, ids: &[u8]) {
        for (index, id) in ids.iter().enumerate() {
            if let Some(place) = self.0.get_mut(usize::from(*id)) {
                if ids[..index].contains(id) {
                    place.twice = true;
                } else {
                    place.lists += 1;
                    place.enter(name);
                }
            }
        }
    }
}
