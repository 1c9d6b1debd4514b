//! The maps afterwards taken out of a split, by its text alone.

/// Which map lines stay: all, or those that the start, the types and the bodies' starts name.
#[derive(Clone, Copy, PartialEq, Eq)]
pub enum Kept {
    All,
    Used,
}

type Fields = Vec<String>;

/// The sheet for filling made of a split: a heading that names its start, each m empty. None when the text
/// has not the lines and fields of a split.
pub fn emptied(split: &[u8], kept: Kept) -> Option<Vec<u8>> {
    let mut lines: Vec<Fields> =
        std::str::from_utf8(split).ok()?.strip_suffix('\n')?.split('\n').map(fields_of).collect();
    let head = lines.first_mut()?;
    match (head[0].as_str(), head.len()) {
        ("C", 5) => {
            head[0] = "C2".to_string();
            head.push("0".to_string());
        }
        ("C2" | "C3", 6) => {}
        _ => return None,
    }
    let (types, maps) = (number(&head[3])?, number(&head[4])?);
    let behind = lines.get_mut(1 + types + maps..)?;
    for row in behind.iter_mut().skip_while(|line| is_signature(line)) {
        let [_, post, _] = row.as_mut_slice() else { return None };
        post.clear();
    }
    if kept == Kept::Used {
        drop_unused(&mut lines, types, maps)?;
    }
    let lines: Vec<String> = lines.iter().map(|fields| fields.join(",")).collect();
    Some((lines.join("\n") + "\n").into_bytes())
}

/// Whether a line behind the maps has the form of a procedure's.
fn is_signature(line: &Fields) -> bool {
    line.len() == 4
}

/// The number of maps that the head of a sheet tells of.
pub fn maps(split: &[u8]) -> usize {
    let head = split.split(|&byte| byte == b'\n').next().unwrap_or_default();
    fields_of(&String::from_utf8_lossy(head)).get(4).and_then(|maps| number(maps)).unwrap_or(0)
}

fn fields_of(line: &str) -> Fields {
    line.split(',').map(str::to_string).collect()
}

fn number(numeral: &str) -> Option<usize> {
    numeral.parse().ok()
}

/// Takes out the map lines that nothing names, and numbers the others anew.
fn drop_unused(lines: &mut Vec<Fields>, types: usize, maps: usize) -> Option<()> {
    let mut used = vec![false; maps];
    for name in names(lines, types, maps)? {
        *used.get_mut(number(name)?)? = true;
    }
    if used.iter().all(|used| !used) {
        return None;
    }
    let new: Vec<usize> =
        used.iter().scan(0, |next, &used| Some(std::mem::replace(next, *next + usize::from(used)))).collect();
    for name in names(lines, types, maps)? {
        *name = new[number(name)?].to_string();
    }
    lines[0][4] = used.iter().filter(|used| **used).count().to_string();
    let mut place = 0;
    lines.retain(|_| {
        place += 1;
        (place - 1_usize).checked_sub(1 + types).and_then(|map| used.get(map)).copied().unwrap_or(true)
    });
    Some(())
}

/// The fields that name maps: the start, what types carry, what procedures start and end with, and the
/// bodies' starts or what calls keep back.
fn names(lines: &mut [Fields], types: usize, maps: usize) -> Option<Vec<&mut String>> {
    let (head, rest) = lines.split_first_mut()?;
    let two_loads = head[0] == "C3";
    let mut names = vec![&mut head[5]];
    for (place, line) in rest.iter_mut().enumerate() {
        if place >= types + maps && is_signature(line) {
            let [before, _, after, _] = line.as_mut_slice() else { return None };
            names.extend([before, after]);
            continue;
        }
        let fields = match line[0].as_str() {
            "lock" if place < types && two_loads => 1..3,
            "rwlock" if place < types => 1..3,
            "lock" | "tid" | "sem" if place < types => 1..2,
            _ if place >= types + maps && !line[2].is_empty() => 2..3,
            _ => 0..0,
        };
        names.extend(line.get_mut(fields)?);
    }
    Some(names)
}
