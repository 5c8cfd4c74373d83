//! One well-formed object of a given type and role.

use super::scene::{Scene, Unknown};
use crate::random::Random;
use crate::reference::data::{Neighbour, Own};

#[derive(Clone, Copy, PartialEq, Eq)]
pub enum Role {
    Constraint,
    Aggregated,
    Recorded,
}

/// A body, and whether all is in order with it: a constraint is met, a metric can be updated.
pub struct Body {
    pub bytes: Vec<u8>,
    pub smooth: bool,
}

/// Makes the objects of one container.
pub struct Maker<'a> {
    pub random: &'a mut Random,
    pub scene: &'a Scene,
    pub own: &'a Own,
    pub link: &'a Neighbour,
    /// The count of the HP metric, which an HP constraint stands near.
    pub hops: u8,
    /// Whether the container is to have an HP metric.
    pub counted: bool,
    /// What a latency and an ETX metric hold if they are to be sums, which limits stand near.
    pub latency: Option<u32>,
    pub etx: Option<u32>,
}

impl<'a> Maker<'a> {
    pub fn new(
        random: &'a mut Random,
        scene: &'a Scene,
        own: &'a Own,
        link: &'a Neighbour,
    ) -> Maker<'a> {
        let plain = random.byte();
        let hops = random.pick(&[0, 1, 3, 4, 253, 254, 254, 255, plain, plain]);
        let mut maker = Maker {
            random,
            scene,
            own,
            link,
            hops,
            counted: false,
            latency: None,
            etx: None,
        };
        maker.latency = maker.addend(link.latency, u32::MAX);
        maker.etx = maker.addend(link.etx.into(), 65535);
        maker
    }

    /// A known type and a role that it can have.
    pub fn kind_and_role(&mut self) -> (u8, Role) {
        let kind = self.random.within(1, 8) as u8;
        let roles: &[Role] = match kind {
            1 | 3 => &[Role::Constraint, Role::Aggregated],
            6 | 8 => &[Role::Constraint, Role::Recorded],
            _ => &[Role::Constraint, Role::Aggregated, Role::Recorded],
        };
        (kind, self.random.pick(roles))
    }

    /// A metric beside a limit on latency or ETX: mostly of its type and aggregated.
    pub fn metric_beside(&mut self, kind: u8) -> (u8, Role) {
        let other = if kind == 5 { 7 } else { 5 };
        match self.random.below(6) {
            0 => (other, Role::Aggregated),
            1 => (kind, Role::Recorded),
            _ => (kind, Role::Aggregated),
        }
    }

    /// A well-formed object of a known type; one that does not fit the room is left out by the
    /// caller.
    pub fn known(&mut self, kind: u8, role: Role, room: usize) -> Vec<u8> {
        let (body, a) = match role {
            Role::Constraint => (self.limit(kind), self.random.below(8) as u8),
            Role::Aggregated => {
                let a = self.aggregation(kind);
                (self.total(kind, a), a)
            }
            Role::Recorded => (self.record(kind, room), self.random.below(8) as u8),
        };
        // where constraints are to be met one that is not is optional; where metrics are to be
        // updated too an aggregated one that cannot be is left out
        let fitting = self.scene.fitting;
        if role == Role::Aggregated && fitting && self.scene.passing && !body.smooth {
            return Vec::new();
        }
        let unmet = role == Role::Constraint && fitting && !body.smooth;
        let optional = unmet || self.random.once_in(4);
        let mut bytes = body.bytes;
        if kind <= 3 && role != Role::Recorded && self.scene.tlvs {
            self.tlvs(&mut bytes, room.saturating_sub(4));
        }
        let mut object = self.header(kind, role, optional, a, bytes.len());
        object.extend(bytes);
        object
    }

    /// The same, but nothing where the type was used in this way before.
    pub fn known_once(
        &mut self,
        used: &mut [bool; 16],
        kind: u8,
        role: Role,
        room: usize,
    ) -> Vec<u8> {
        let use_mark = usize::from(kind - 1) + 8 * usize::from(role == Role::Constraint);
        if std::mem::replace(&mut used[use_mark], true) {
            return Vec::new();
        }
        self.known(kind, role, room)
    }

    /// The length of a body that is mostly short: none in a room of so many bytes, or all of it.
    pub fn short_body(&mut self, room: usize) -> usize {
        match self.random.below(16) {
            0 => room.saturating_sub(4),
            1 => 0,
            _ => self.random.below(9),
        }
    }

    /// An object of unknown type, with a body of so many bytes.
    pub fn unknown(&mut self, size: usize) -> Vec<u8> {
        let plain = self.random.within(9, 255) as u8;
        let kind = self.random.pick(&[0, 9, 10, 200, 255, plain, plain]);
        let allowed = self.scene.unknown;
        let (role, optional) = match self.random.below(4) {
            0 if allowed >= Unknown::Aggregated => (Role::Aggregated, self.random.once_in(2)),
            1 if allowed >= Unknown::Mandatory => (Role::Constraint, false),
            2 => (Role::Constraint, true),
            _ => (Role::Recorded, self.random.once_in(2)),
        };
        let a = self.random.below(8) as u8;
        let mut object = self.header(kind, role, optional, a, size);
        object.extend(self.bytes(size));
        object
    }

    /// An object of unknown type that neither bars nor ends as a leaf, with a body of so many bytes.
    pub fn harmless(&mut self, size: usize) -> Vec<u8> {
        let role = self.random.pick(&[Role::Constraint, Role::Recorded]);
        let kind = self.random.pick(&[0, 9, 255]);
        let mut object = self.header(kind, role, true, 0, size);
        object.extend(self.bytes(size));
        object
    }

    /// A header, with noise in the reserved bits, P, Prec and what its C and R make ignored. For a
    /// metric O is such noise.
    pub fn header(&mut self, kind: u8, role: Role, optional: bool, a: u8, size: usize) -> Vec<u8> {
        let noise = match self.random.below(3) {
            0 => self.random.byte() & 0xF8,
            _ => 0,
        };
        let partial = self.random.pick(&[0, 0, 0, 0x04]);
        let constraint = if role == Role::Constraint { 0x02 } else { 0 };
        let flags = noise | partial | constraint | u8::from(optional);
        let recorded = match role {
            Role::Recorded => 0x80,
            Role::Aggregated => 0,
            Role::Constraint => self.random.pick(&[0, 0, 0x80]),
        };
        let precedence = self.random.below(16) as u8;
        vec![kind, flags, recorded | a << 4 | precedence, size as u8]
    }

    pub fn bytes(&mut self, size: usize) -> Vec<u8> {
        let mut bytes = vec![0; size];
        self.random.fill(&mut bytes);
        bytes
    }

    /// TLVs behind a body, as far as `most` bytes go.
    fn tlvs(&mut self, body: &mut Vec<u8>, most: usize) {
        for _ in 0..self.random.below(4) {
            let size = match self.random.below(12) {
                0 => most.saturating_sub(body.len() + 2),
                1..=4 => 0,
                _ => self.random.below(7),
            };
            if body.len() + 2 + size > most {
                return;
            }
            body.extend([self.random.edgy_byte(), size as u8]);
            let value = self.bytes(size);
            body.extend(value);
        }
    }

    /// A value of A: one allowed for the type where metrics are to be updated, else any; but a
    /// latency or ETX that is to be a sum has A=0.
    fn aggregation(&mut self, kind: u8) -> u8 {
        if self.added(kind).is_some() {
            return 0;
        }
        if !self.scene.passing && self.random.once_in(3) {
            return self.random.below(8) as u8;
        }
        match kind {
            1 | 2 => self.random.pick(&[1, 2]),
            3 => 0,
            4 => self.random.below(3) as u8,
            _ => self.random.pick(&[1, 2]),
        }
    }
}
