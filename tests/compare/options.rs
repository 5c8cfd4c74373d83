//! The options of a run, the containers among them, and the objects of these, as the checks and the
//! counts read them.

/// The whole options of a run, every byte of each, and the rest: an option that is cut short, or
/// nothing.
pub fn split(run: &[u8]) -> (Vec<&[u8]>, &[u8]) {
    let mut options = Vec::new();
    let mut rest = run;
    while let Some(&kind) = rest.first() {
        let size = match (kind, rest.get(1)) {
            (0, _) => 1,
            (_, Some(&length)) => 2 + length as usize,
            (_, None) => break,
        };
        let Some((option, behind)) = rest.split_at_checked(size) else {
            break;
        };
        options.push(option);
        rest = behind;
    }
    (options, rest)
}

/// The options of a run; none where the last is cut short.
pub fn options(run: &[u8]) -> Option<Vec<&[u8]>> {
    let (options, rest) = split(run);
    rest.is_empty().then_some(options)
}

pub fn is_container(option: &[u8]) -> bool {
    option[0] == 2
}

/// The containers of a run; none where an option is cut short.
pub fn containers(run: &[u8]) -> Option<Vec<&[u8]>> {
    let mut containers = options(run)?;
    containers.retain(|option| is_container(option));
    Some(containers)
}

/// The objects of a container, each with its header; none where they do not fill it exactly.
pub fn objects_of(container: &[u8]) -> Option<Vec<&[u8]>> {
    objects_in(container.get(2..)?)
}

/// The objects of a container's data.
pub fn objects_in(data: &[u8]) -> Option<Vec<&[u8]>> {
    let mut objects = Vec::new();
    let mut at = 0;
    while at < data.len() {
        let end = at + 4 + *data.get(at + 3)? as usize;
        objects.push(data.get(at..end)?);
        at = end;
    }
    Some(objects)
}

/// The objects of all containers of a run, in order; none where one of these, or an option, is cut
/// short.
pub fn objects(run: &[u8]) -> Option<Vec<&[u8]>> {
    let mut objects = Vec::new();
    for container in containers(run)? {
        objects.extend(objects_of(container)?);
    }
    Some(objects)
}

/// The data of all containers of a run, joined.
pub fn data(run: &[u8]) -> Option<Vec<u8>> {
    let parts: Vec<&[u8]> = containers(run)?.iter().map(|one| &one[2..]).collect();
    Some(parts.concat())
}
