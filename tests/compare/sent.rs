//! What is sent on is laid out in containers as it should be, whatever the reference says; and how
//! many containers it took how often.

use super::compare::Given;
use super::generate::Call;
use super::options::{containers, is_container, objects_of, options};
use super::reference::data::CONTAINERS;
use super::reference::hop::Hop;
use super::reference::joined::Joined;

/// The most data bytes of a container, and of an object.
const MOST: usize = 255;

/// The leaf answer of what no containers hold.
const TOO_LONG: u8 = 35;

/// What is wrong with the containers that a call passes on, if anything.
pub fn check(given: &Given) -> Option<&'static str> {
    let size = usize::from(given.answer.size);
    let Some(sent) = given.out.get(..size) else {
        return Some("more is sent on than the output holds");
    };
    let Some(sent) = options(sent) else {
        return Some("an option that is sent on is cut short");
    };
    if !sent.iter().all(|option| is_container(option)) {
        return Some("an option that is sent on is no container");
    }
    if sent.len() > CONTAINERS {
        return Some("more than eight containers are sent on");
    }
    if sent.iter().any(|container| objects_of(container).is_none()) {
        return Some("an object that is sent on runs past its container");
    }
    let opened = |pair: &[&[u8]]| first_size(pair[1]).is_none_or(|size| has_room(pair[0], size));
    if sent.windows(2).any(opened) {
        return Some("a container is opened though there is room in the one before");
    }
    None
}

/// The size of the first object of a container, if there is one.
fn first_size(container: &[u8]) -> Option<usize> {
    Some(objects_of(container)?.first()?.len())
}

fn has_room(container: &[u8], size: usize) -> bool {
    container.len() - 2 + size <= MOST
}

#[derive(Default)]
pub struct Sent {
    /// Calls that pass on 1 container, 2, 3 to 7, and 8.
    counts: [u64; 4],
    /// Calls that pass on more containers than the parent's run has, and fewer.
    more: u64,
    fewer: u64,
    /// Containers passed on that are full, and those opened for an object that the one before has a
    /// byte too little for.
    full: u64,
    by_one: u64,
    /// Calls that end with 35 for one object, and for a ninth container alone.
    object: u64,
    ninth: u64,
}

impl Sent {
    /// Notes what a call passes on, or that it cannot.
    pub fn note(&mut self, call: &Call, given: &Given) {
        let answer = &given.answer;
        let Some(parent) = call.given().get(usize::from(answer.parent)) else {
            return;
        };
        let run = call.run(parent).unwrap_or_default();
        if answer.leaf == TOO_LONG {
            let hop = Hop {
                own: &call.own,
                link: &parent.neighbour,
            };
            let mut objects = Joined::read(run).into_iter().flat_map(|all| all.objects());
            let single = objects.any(|object| hop.size(&object) > MOST);
            self.object += u64::from(single);
            self.ninth += u64::from(!single);
        } else if answer.leaf == 0 {
            let received = containers(run).unwrap_or_default().len();
            self.passed(received, &given.out[..usize::from(answer.size)]);
        }
    }

    fn passed(&mut self, received: usize, sent: &[u8]) {
        let sent = options(sent).unwrap_or_default();
        let sort = match sent.len() {
            0..=1 => 0,
            2 => 1,
            3..=7 => 2,
            _ => 3,
        };
        self.counts[sort] += 1;
        self.more += u64::from(sent.len() > received.max(1));
        self.fewer += u64::from(sent.len() < received);
        self.full += sent.iter().filter(|one| one.len() == MOST + 2).count() as u64;
        let by_one = |pair: &&[&[u8]]| {
            first_size(pair[1]).is_some_and(|size| pair[0].len() - 2 + size == MOST + 1)
        };
        self.by_one += sent.windows(2).filter(by_one).count() as u64;
    }

    /// What was counted, in words.
    pub fn counts(&self) -> [(&'static str, u64); 10] {
        let [one, two, several, eight] = self.counts;
        [
            ("sent on in 1 container", one),
            ("sent on in 2 containers", two),
            ("sent on in 3 to 7 containers", several),
            ("sent on in 8 containers", eight),
            ("sent on in more containers than received", self.more),
            ("sent on in fewer containers than received", self.fewer),
            ("full containers sent on", self.full),
            ("containers opened for one byte", self.by_one),
            ("35 for one object", self.object),
            ("35 for a ninth container alone", self.ninth),
        ]
    }
}
