//! How often each sort of pair was tried.

use super::reference::data::Answer;
use super::sentences::Sort;

#[derive(Default)]
pub struct Pairs {
    all: u64,
    second_edition: u64,
    several: u64,
    others: u64,
    emptied: u64,
    mandatory: u64,
    freed: u64,
    passed: u64,
    passed_several: u64,
    passed_unknown: u64,
    passed_tlvs: u64,
    passed_cut: u64,
    passed_fewer: u64,
    /// Pairs of edition 1 that differ in what only edition 2 reads.
    unread: u64,
    unread_with_choice: u64,
}

impl Pairs {
    /// Notes a pair of demand 3.
    pub fn note(&mut self, sort: &Sort) {
        self.all += 1;
        self.second_edition += u64::from(sort.second_edition);
        self.several += u64::from(sort.several);
        self.others += u64::from(sort.others);
        self.emptied += u64::from(sort.emptied);
        self.mandatory += u64::from(sort.mandatory);
        self.freed += u64::from(sort.freed);
        self.passed += u64::from(sort.passed);
        self.passed_several += u64::from(sort.passed_several);
        self.passed_unknown += u64::from(sort.passed_unknown);
        self.passed_tlvs += u64::from(sort.passed_tlvs);
        self.passed_cut += u64::from(sort.passed_cut);
        self.passed_fewer += u64::from(sort.passed_fewer);
    }

    /// Notes a pair of edition 1 that was answered so; there is a choice between two or more.
    pub fn first_edition(&mut self, answer: &Answer) {
        self.unread += 1;
        self.unread_with_choice += u64::from(answer.count > 1);
    }

    /// What was counted, in words.
    pub fn counts(&self) -> [(&'static str, u64); 16] {
        [
            ("pairs of demand 3", self.all),
            ("in edition 1", self.all - self.second_edition),
            ("in edition 2", self.second_edition),
            ("with several containers in a run", self.several),
            ("with other options in a run", self.others),
            ("with a container that the cut empties", self.emptied),
            ("with an unknown mandatory constraint", self.mandatory),
            ("with a candidate barred for that alone", self.freed),
            ("passing containers on", self.passed),
            ("passing several containers on", self.passed_several),
            ("passing unknown objects on", self.passed_unknown),
            ("passing TLVs on", self.passed_tlvs),
            ("equal once cut, with something to cut", self.passed_cut),
            ("equal once cut, in fewer containers", self.passed_fewer),
            ("pairs of what edition 1 does not read", self.unread),
            ("with two unbarred or more", self.unread_with_choice),
        ]
    }
}
