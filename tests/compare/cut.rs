//! The words of demand 3: the cut of a run, unknown mandatory constraints, and places.

use super::options::{is_container, objects, objects_of, options};

pub fn is_constraint(object: &[u8]) -> bool {
    object[1] & 2 == 2
}

pub fn is_recorded(object: &[u8]) -> bool {
    !is_constraint(object) && object[2] & 0x80 == 0x80
}

pub fn is_unknown(object: &[u8]) -> bool {
    object[0] == 0 || object[0] >= 9
}

/// Whether TLVs may stand behind the first two body bytes: NSA, NE and HP, unless recorded.
fn has_tlvs(object: &[u8]) -> bool {
    (1..=3).contains(&object[0]) && !is_recorded(object)
}

/// The TLVs of an object, every byte of them.
pub fn tlvs(object: &[u8]) -> &[u8] {
    if has_tlvs(object) {
        &object[6..]
    } else {
        &[]
    }
}

/// C=1 and O=0.
pub fn is_mandatory(object: &[u8]) -> bool {
    object[1] & 3 == 2
}

pub fn is_unknown_mandatory(object: &[u8]) -> bool {
    is_unknown(object) && is_mandatory(object)
}

/// The run with each container cut by itself, and every other option as it is.
pub fn cut(run: &[u8]) -> Option<Vec<u8>> {
    let mut kept = Vec::new();
    for option in options(run)? {
        if is_container(option) {
            kept.extend(cut_container(option)?);
        } else {
            kept.extend_from_slice(option);
        }
    }
    Some(kept)
}

/// The container without unknown objects and TLVs, its lengths set anew.
fn cut_container(container: &[u8]) -> Option<Vec<u8>> {
    let mut kept = vec![container[0], 0];
    for object in objects_of(container)? {
        if is_unknown(object) {
            continue;
        }
        if has_tlvs(object) {
            kept.extend_from_slice(&object[..3]);
            kept.push(2);
            kept.extend_from_slice(&object[4..6]);
        } else {
            kept.extend_from_slice(object);
        }
    }
    kept[1] = (kept.len() - 2) as u8;
    Some(kept)
}

/// Whether unknown objects and TLVs have among the objects passed on the places that they had among
/// those received, unaltered but for the header bits that document 01 lists.
pub fn places_kept(received: &[u8], passed: &[u8]) -> Result<(), String> {
    let (Some(before), Some(after)) = (objects(received), objects(passed)) else {
        return Err("a container's objects do not fill it".to_string());
    };
    if before.len() != after.len() {
        let (before, after) = (before.len(), after.len());
        return Err(format!("{before} objects became {after}"));
    }
    for (index, (before, after)) in before.iter().zip(after).enumerate() {
        if before[0] != after[0] {
            let (before, after) = (before[0], after[0]);
            return Err(format!("object {index} of type {before} became {after}"));
        }
        if is_unknown(before) && after != passed_unknown(before) {
            return Err(format!("unknown object {index} was altered"));
        }
        if has_tlvs(before) && after.get(6..) != Some(tlvs(before)) {
            return Err(format!("the TLVs of object {index} were altered"));
        }
    }
    Ok(())
}

/// An unknown object as it is to be passed on: reserved bits cleared, O if C=0, R if C=1, and P set
/// if it is recorded.
fn passed_unknown(object: &[u8]) -> Vec<u8> {
    let mut passed = object.to_vec();
    passed[1] &= 0x07;
    if is_constraint(object) {
        passed[2] &= 0x7F;
    } else {
        passed[1] &= 0x06;
    }
    if is_recorded(object) {
        passed[1] |= 0x04;
    }
    passed
}
