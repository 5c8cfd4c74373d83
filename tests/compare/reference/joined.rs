//! The containers of a run are read, and their objects joined in order: bars 22, 23 and 14 to 17.

use super::data::{CONTAINERS, NO_PLACE};
use super::object::{Object, Objects, Usage, HP};
use super::option::{Options, Whole};

/// Why a candidate is barred, and by which of its objects.
#[derive(Clone, Copy, Debug, PartialEq, Eq)]
pub struct Bar {
    pub number: u8,
    pub place: u16,
}

impl Bar {
    /// A bar that no single object gives.
    pub fn whole(number: u8) -> Bar {
        let place = NO_PLACE;
        Bar { number, place }
    }

    pub fn at(number: u8, place: usize) -> Bar {
        let place = place as u16; // at most 63 objects stand in each of 8 containers
        Bar { number, place }
    }
}

/// A run of well-formed containers, and the hop count of their HP metric if they have one.
#[derive(Clone, Copy)]
pub struct Joined<'a> {
    run: &'a [u8],
    pub hops: Option<u8>,
}

impl<'a> Joined<'a> {
    /// Reads a run, or gives the first of bars 22, 23 and 14 to 17.
    pub fn read(run: &'a [u8]) -> Result<Joined<'a>, Bar> {
        whole(run)?;
        let mut joined = Joined { run, hops: None };
        let mut seen = 0;
        for (place, object) in joined.objects().enumerate() {
            if let Some(number) = object.bar(seen) {
                return Err(Bar::at(number, place));
            }
            if object.known() {
                seen |= object.mark();
                if object.kind == HP && object.usage() != Usage::Constraint {
                    joined.hops = Some(object.body[1]);
                }
            }
        }
        Ok(joined)
    }

    /// The objects of all containers.
    pub fn objects(&self) -> impl Iterator<Item = Object<'a>> {
        containers(self.run).flat_map(Objects::of)
    }

    /// The body of the metric of a type that each node adds its value to, if there is one.
    pub fn sum(&self, kind: u8) -> Option<&'a [u8]> {
        let mut sums = self.objects().filter(Object::added_up);
        sums.find(|object| object.kind == kind)
            .map(|object| object.body)
    }
}

/// The data of each whole container of a run, in order.
pub fn containers(run: &[u8]) -> impl Iterator<Item = &[u8]> {
    let options = Options { rest: run };
    options
        .filter(Whole::is_container)
        .map(|option| option.data())
}

/// Whether all options and objects of a run are whole, and the containers not too many: else bar
/// 22, 23 or 14.
fn whole(run: &[u8]) -> Result<(), Bar> {
    let mut options = Options { rest: run };
    options.by_ref().for_each(drop);
    if !options.rest.is_empty() {
        Err(Bar::whole(22))
    } else if containers(run).count() > CONTAINERS {
        Err(Bar::whole(23))
    } else if containers(run).any(runs_past) {
        Err(Bar::whole(14))
    } else {
        Ok(())
    }
}

/// Whether an object's header or body runs past the end of its container.
fn runs_past(data: &[u8]) -> bool {
    let mut objects = Objects::of(data);
    objects.by_ref().for_each(drop);
    !objects.rest.is_empty()
}
