//! The sentences of demand 3, and which sorts of runs a pair of calls had.

use super::compare::Given;
use super::cut;
use super::generate::Call;
use super::options::{containers, data, is_container, objects, objects_of, options};
use super::reference::data::{Candidate, Own, SECOND_EDITION};

/// Which edition and which sorts of runs a pair had.
#[derive(Default)]
pub struct Sort {
    pub second_edition: bool,
    /// Some run has several containers, some run other options, and some container that has objects
    /// none once it is cut.
    pub several: bool,
    pub others: bool,
    pub emptied: bool,
    /// Some container holds an unknown mandatory constraint.
    pub mandatory: bool,
    /// A candidate is barred in the first call alone.
    pub freed: bool,
    /// The first call passes containers on, and more than one.
    pub passed: bool,
    pub passed_several: bool,
    /// It does, and unknown objects, or TLVs, stand in them.
    pub passed_unknown: bool,
    pub passed_tlvs: bool,
    /// It does, no mandatory constraint was unknown, and the cut changed them; and the second call
    /// passes fewer on.
    pub passed_cut: bool,
    pub passed_fewer: bool,
}

/// The rank formula, in whole numbers.
pub fn resulting(own: &Own, candidate: &Candidate) -> u64 {
    let link = &candidate.neighbour;
    let units = link.rf as u64 * link.sp as u64 + link.sr as u64;
    link.rank as u64 + units * own.minhop as u64
}

/// Whether the rank is the parent's resulting rank, where there is a parent.
pub fn ranks_agree(call: &Call, given: &Given) -> bool {
    match call.given().get(given.answer.parent as usize) {
        Some(parent) => given.answer.rank as u64 == resulting(&call.own, parent),
        None => given.answer.parent == 255 && given.answer.rank == 65535,
    }
}

/// The containers that a call passes on, if it does.
fn passed_on(given: &Given) -> Option<&[u8]> {
    let passes = given.answer.parent != 255 && given.answer.leaf == 0;
    passes.then(|| given.out.get(..given.answer.size as usize))?
}

/// What the sentences of demand 3 speak of.
pub struct Sentences<'a> {
    pub call: &'a Call,
    pub runs: &'a [&'a [u8]],
    pub first: &'a Given,
    pub second: &'a Given,
}

impl Sentences<'_> {
    /// Tries each sentence, and gives the first that does not hold.
    pub fn all(&self) -> Result<Sort, String> {
        let mut sort = Sort {
            second_edition: self.call.own.edition == SECOND_EDITION,
            ..Sort::default()
        };
        self.barred(&mut sort)?;
        if !ranks_agree(self.call, self.first) || !ranks_agree(self.call, self.second) {
            return Err("a rank is not the parent's resulting rank".to_string());
        }
        if !sort.mandatory {
            self.same(&mut sort)?;
        }
        self.places(&mut sort)?;
        Ok(sort)
    }

    /// "A candidate is barred in the first call exactly when it is barred in the second or its
    /// container in the first holds an unknown mandatory constraint."
    fn barred(&self, sort: &mut Sort) -> Result<(), String> {
        if self.second.answer.refusal != 0 {
            return Err("the second call is refused".to_string());
        }
        for (index, run) in self.runs.iter().enumerate() {
            let objects = objects(run).ok_or("a run does not read")?;
            let holds = objects.into_iter().any(cut::is_unknown_mandatory);
            let first = self.first.answer.verdicts[index] != 10;
            let second = self.second.answer.verdicts[index] != 10;
            if first != (second || holds) {
                return Err(format!("candidate {index}: barred in the one call"));
            }
            sort.mandatory |= holds;
            sort.freed |= first && !second;
            sort.note_options(run);
        }
        Ok(())
    }

    /// "If no candidate's container holds such a constraint, then parent, rank, verdict numbers,
    /// candidate bits and count are the same in both; and if the first passes a container on, so
    /// does the second, and the first's container, once cut, equals the second's byte for byte":
    /// the joined data of all containers, wherever these begin.
    fn same(&self, sort: &mut Sort) -> Result<(), String> {
        let [first, second] = [&self.first.answer, &self.second.answer].map(|answer| {
            let chosen = (answer.parent, answer.rank, answer.verdicts);
            (chosen, answer.bits, answer.count)
        });
        if first != second {
            return Err("the choices differ".to_string());
        }
        let Some(first) = passed_on(self.first) else {
            return Ok(());
        };
        let second = passed_on(self.second).ok_or("only the first passes containers on")?;
        let cut = cut::cut(first).ok_or("what is passed on does not read")?;
        sort.passed_cut = cut != first;
        sort.passed_fewer = count(second) < count(first);
        if data(&cut).is_none() || data(&cut) != data(second) {
            return Err("the first's containers, once cut, do not hold the second's data".into());
        }
        Ok(())
    }

    /// "Whenever the first passes a container on, the unknown objects and TLVs keep in it the
    /// places they had in the parent's container, unaltered but for the header bits."
    fn places(&self, sort: &mut Sort) -> Result<(), String> {
        let Some(passed) = passed_on(self.first) else {
            return Ok(());
        };
        let received = self.runs[self.first.answer.parent as usize];
        cut::places_kept(received, passed)?;
        let objects = objects(received).ok_or("a run does not read")?;
        sort.passed = true;
        sort.passed_several = count(passed) > 1;
        sort.passed_unknown = objects.iter().any(|object| cut::is_unknown(object));
        sort.passed_tlvs = objects.iter().any(|object| !cut::tlvs(object).is_empty());
        Ok(())
    }
}

impl Sort {
    /// Notes the options of a well-formed run.
    fn note_options(&mut self, run: &[u8]) {
        let options = options(run).unwrap_or_default();
        self.several |= count(run) > 1;
        self.others |= !options.iter().all(|option| is_container(option));
        let emptied = |option: &[u8]| {
            let objects = objects_of(option).unwrap_or_default();
            !objects.is_empty() && objects.into_iter().all(cut::is_unknown)
        };
        self.emptied |= options.iter().any(|one| is_container(one) && emptied(one));
    }
}

/// How many containers a run has.
fn count(run: &[u8]) -> usize {
    containers(run).unwrap_or_default().len()
}
