//! Makes a failing script short.
//!
//! Lines are left out, whole files, clients and record entries are taken out
//! of everything that names them, and single lines are made plainer, as long
//! as the script still fails.

use crate::call::Call;
use crate::script::{data, Line};
use crate::volume::SECTOR_SIZE;

/// Shortens `lines` as long as `fails` says that they still fail.
pub fn shrink(mut lines: Vec<Line>, mut fails: impl FnMut(&[Line]) -> bool) -> Vec<Line> {
    loop {
        let before = lines.clone();
        drop_lines(&mut lines, &mut fails);
        take_out_parts(&mut lines, &mut fails);
        simplify_lines(&mut lines, &mut fails);
        if lines == before {
            return lines;
        }
    }
}

/// Leaves out runs of lines, long ones first.
fn drop_lines(lines: &mut Vec<Line>, fails: &mut impl FnMut(&[Line]) -> bool) {
    let mut size = lines.len();
    while size > 0 {
        // From the end, where lines after the failure stand.
        let mut end = lines.len();
        while end > 0 {
            let start = end.saturating_sub(size);
            let mut shorter = lines.clone();
            shorter.drain(start..end);
            if fails(&shorter) {
                *lines = shorter;
            }
            end = start;
        }
        size /= 2;
    }
}

/// Puts plainer lines in the place of others.
fn simplify_lines(lines: &mut Vec<Line>, fails: &mut impl FnMut(&[Line]) -> bool) {
    for index in 0..lines.len() {
        while let Some(plainer) = plainer_lines(&lines[index]).into_iter().find_map(|line| {
            let mut changed = lines.clone();
            changed[index] = line;
            fails(&changed).then_some(changed)
        }) {
            *lines = plainer;
        }
    }
}

// ------------------------------------------------------- parts of the volume

/// The one layout of a script; lines that only lend another length have no
/// list and are none.
struct Layout {
    clients: u8,
    shape: Vec<u8>,
}

impl Layout {
    /// None if the script has no layout, or several, or a wrong one.
    fn of(lines: &[Line]) -> Option<Layout> {
        let mut layouts = lines.iter().filter_map(|line| match line {
            Line::Format { clients, shape, .. } if !shape.is_empty() => {
                Some(Layout { clients: *clients, shape: shape.clone() })
            }
            _ => None,
        });
        let layout = layouts.next()?;
        (layouts.next().is_none() && layout.shape.len() % 2 == 0).then_some(layout)
    }

    fn files(&self) -> u8 {
        (self.shape.len() / 2) as u8
    }

    fn header(&self, file: u8) -> usize {
        let before = self.shape.chunks(2).take(usize::from(file) - 1);
        usize::from(self.clients) + 1 + before.map(|pair| 1 + usize::from(pair[1])).sum::<usize>()
    }

    fn is_header(&self, sector: usize) -> bool {
        (1..=self.files()).any(|file| self.header(file) == sector)
    }

    fn is_record(&self, sector: usize) -> bool {
        (1..=usize::from(self.clients)).contains(&sector)
    }
}

/// Takes out files, clients and record entries one by one.
fn take_out_parts(lines: &mut Vec<Line>, fails: &mut impl FnMut(&[Line]) -> bool) {
    let mut attempt = |lines: &mut Vec<Line>, shorter: Vec<Line>| {
        if fails(&shorter) {
            *lines = shorter;
        }
    };
    let Some(layout) = Layout::of(lines) else { return };
    for file in (1..=layout.files()).rev() {
        if let Some(layout) = Layout::of(lines).filter(|layout| layout.files() > 1) {
            attempt(lines, without_file(lines, &layout, file));
        }
    }
    for client in (1..=layout.clients).rev() {
        if let Some(layout) = Layout::of(lines).filter(|layout| layout.clients > 1) {
            attempt(lines, without_client(lines, &layout, client));
        }
    }
    for record in 1..=Layout::of(lines).map_or(0, |layout| layout.clients) {
        for entry in (0..62).rev() {
            if let Some(shorter) = without_entry(lines, record, entry) {
                attempt(lines, shorter);
            }
        }
    }
}

/// The script with one file less; later files move up.
fn without_file(lines: &[Line], layout: &Layout, file: u8) -> Vec<Line> {
    let index = 2 * (usize::from(file) - 1);
    let size = 1 + usize::from(layout.shape[index + 1]);
    let gone = layout.header(file)..layout.header(file) + size;
    let names_file = |sector, offset: usize| layout.is_record(sector) && offset >= 8 && offset.is_multiple_of(4);
    let change = |line: &Line| match line {
        Line::Format { length, clients, shape } => {
            let mut shape = shape.clone();
            if !shape.is_empty() {
                shape.drain(index..index + 2);
            }
            Some(Line::Format { length: length.saturating_sub(SECTOR_SIZE * size), clients: *clients, shape })
        }
        Line::Poke { address, byte } => move_poke(*address, *byte, gone.clone(), names_file, file),
        Line::Call(call) => {
            let mut call = *call;
            match &mut call {
                Call::Open { file: named, .. }
                | Call::OpenRead { file: named, .. }
                | Call::Read { file: named, .. }
                | Call::Look { file: named, .. }
                | Call::Spare { file: named }
                | Call::Write { file: named, .. } => *named = renumber(*named, file)?,
                _ => {}
            }
            Some(Line::Call(call))
        }
        Line::Reading { client, file: named } => Some(Line::Reading { client: *client, file: renumber(*named, file)? }),
        other => Some(other.clone()),
    };
    lines.iter().filter_map(change).collect()
}

/// The script with one client less; later clients move up.
fn without_client(lines: &[Line], layout: &Layout, client: u8) -> Vec<Line> {
    let gone = usize::from(client)..usize::from(client) + 1;
    let names_client = |sector, offset| layout.is_header(sector) && offset == 2;
    let change = |line: &Line| match line {
        Line::Format { length, clients, shape } => Some(Line::Format {
            length: length.saturating_sub(SECTOR_SIZE),
            clients: clients.saturating_sub(1),
            shape: shape.clone(),
        }),
        Line::Poke { address, byte } => move_poke(*address, *byte, gone.clone(), names_client, client),
        Line::Session(marks) => {
            let low = marks & ((1 << (client - 1)) - 1);
            Some(Line::Session(low | (marks >> client) << (client - 1)))
        }
        Line::Reading { client: named, file } => Some(Line::Reading { client: renumber(*named, client)?, file: *file }),
        Line::Call(call) => {
            let mut call = *call;
            match &mut call {
                Call::Begin { client: named, .. }
                | Call::Open { client: named, .. }
                | Call::OpenRead { client: named, .. }
                | Call::Read { client: named, .. }
                | Call::Write { client: named, .. }
                | Call::Commit { client: named, .. }
                | Call::Abort { client: named, .. } => *named = renumber(*named, client)?,
                Call::Look { .. } | Call::Spare { .. } => {}
            }
            Some(Line::Call(call))
        }
        other => Some(other.clone()),
    };
    lines.iter().filter_map(change).collect()
}

/// A number after `taken` was taken out; none if it is that one.
fn renumber(number: u8, taken: u8) -> Option<u8> {
    match number.cmp(&taken) {
        std::cmp::Ordering::Less => Some(number),
        std::cmp::Ordering::Equal => None,
        std::cmp::Ordering::Greater => Some(number - 1),
    }
}

/// A poke after the sectors `gone` were taken out. Where `names` says so, its
/// byte is a number to be changed as well.
fn move_poke(
    address: usize,
    byte: u8,
    gone: std::ops::Range<usize>,
    names: impl Fn(usize, usize) -> bool,
    taken: u8,
) -> Option<Line> {
    let (sector, offset) = (address / SECTOR_SIZE, address % SECTOR_SIZE);
    if gone.contains(&sector) {
        return None;
    }
    let byte = if names(sector, offset) { renumber(byte, taken)? } else { byte };
    let address = if sector < gone.start { address } else { address - SECTOR_SIZE * gone.len() };
    Some(Line::Poke { address, byte })
}

/// The script with one poked entry of a record less; later ones move up.
fn without_entry(lines: &[Line], record: u8, entry: usize) -> Option<Vec<Line>> {
    let start = SECTOR_SIZE * usize::from(record);
    let count_at = start + 3;
    let first = start + 8 + 4 * entry;
    let end = start + SECTOR_SIZE;
    let poked = |line: &Line| matches!(line, Line::Poke { address, byte } if *address == count_at && usize::from(*byte) > entry);
    if !lines.iter().any(poked) {
        return None;
    }
    let change = |line: &Line| match *line {
        Line::Poke { address, byte } if address == count_at => Some(Line::Poke { address, byte: byte.checked_sub(1)? }),
        Line::Poke { address, .. } if (first..first + 4).contains(&address) => None,
        Line::Poke { address, byte } if (first + 4..end).contains(&address) => {
            Some(Line::Poke { address: address - 4, byte })
        }
        _ => Some(line.clone()),
    };
    Some(lines.iter().filter_map(change).collect())
}

// ------------------------------------------------------------- single lines

/// Lines that say less than `line`, none of which lead back to it.
fn plainer_lines(line: &Line) -> Vec<Line> {
    match line {
        Line::Format { length, clients, shape } => plainer_layouts(*length, *clients, shape),
        Line::Call(call) => plainer_calls(call).into_iter().map(Line::Call).collect(),
        Line::Session(marks) => {
            let bits = (0..8).map(|bit| 1 << bit).filter(|bit| marks & bit != 0);
            bits.map(|bit| Line::Session(marks & !bit)).collect()
        }
        Line::Reading { client, file } => plainer_holds(*client, *file),
        _ => Vec::new(),
    }
}

/// Lower numbers.
fn plainer_holds(client: u8, file: u8) -> Vec<Line> {
    let clients = (1..client).map(|client| Line::Reading { client, file });
    clients.chain((1..file).map(|file| Line::Reading { client, file })).collect()
}

fn plainer_calls(call: &Call<'static>) -> Vec<Call<'static>> {
    let mut plainer = Vec::new();
    if call.budget().is_some_and(|budget| budget != 255) {
        plainer.push(call.with_budget(255));
    }
    if let Call::Write { client, file, page, data: given, budget } = *call {
        for simple in [data(0, 256), data(1, 256)] {
            if given != data(0, 256) && given != simple {
                plainer.push(Call::Write { client, file, page, data: simple, budget });
            }
        }
    }
    let mut first = *call;
    if let Call::Write { page, .. } | Call::Read { page, .. } | Call::Look { page, .. } = &mut first {
        *page = 0;
    }
    if first != *call {
        plainer.push(first);
    }
    plainer
}

/// Fewer reals, pages and sectors.
fn plainer_layouts(length: usize, clients: u8, shape: &[u8]) -> Vec<Line> {
    let mut plainer = Vec::new();
    let mut add = |length, shape: &[u8]| {
        plainer.push(Line::Format { length, clients, shape: shape.to_vec() });
    };
    for index in 0..shape.len() {
        for smaller in [1, shape[index] / 2, shape[index].saturating_sub(1)] {
            if smaller < shape[index] {
                let mut changed = shape.to_vec();
                changed[index] = smaller;
                add(length, &changed);
            }
        }
    }
    for smaller in [length / 2 / SECTOR_SIZE * SECTOR_SIZE, length.saturating_sub(SECTOR_SIZE)] {
        if smaller < length {
            add(smaller, shape);
        }
    }
    plainer
}

#[cfg(test)]
mod tests {
    use super::*;
    use crate::script::parse;

    fn lines(text: &str) -> Vec<Line> {
        text.lines().map(|line| parse(line.as_bytes()).unwrap()).collect()
    }

    #[test]
    fn files_clients_and_entries_are_taken_out() {
        let script = lines(
            "format 2816 2 2 3 1 3\npoke 514 1\npoke 515 2\npoke 520 1\npoke 524 2\npoke 526 1\npoke 1794 2\nsession 2\nwrite 2 2 0 0 256",
        );
        let layout = Layout::of(&script).unwrap();
        let without_1 = "format 1792 2 1 3\npoke 514 1\npoke 515 2\npoke 524 1\npoke 526 1\npoke 770 2\nsession 2\nwrite 2 1 0 0 256";
        assert_eq!(without_file(&script, &layout, 1), lines(without_1));
        let alone = "format 2560 1 2 3 1 3\npoke 258 1\npoke 259 2\npoke 264 1\npoke 268 2\npoke 270 1\npoke 1538 1\nsession 1\nwrite 1 2 0 0 256";
        assert_eq!(without_client(&script, &layout, 1), lines(alone));
        let one_entry = "format 2816 2 2 3 1 3\npoke 514 1\npoke 515 1\npoke 520 2\npoke 522 1\npoke 1794 2\nsession 2\nwrite 2 2 0 0 256";
        assert_eq!(without_entry(&script, 2, 0).unwrap(), lines(one_entry));
        assert_eq!(without_entry(&script, 2, 2), None);
    }

    #[test]
    fn holds_go_with_their_files_and_clients() {
        let script = lines(
            "format 2816 2 2 3 1 3\nsession 3\nreading 1 1\nreading 1 2\nreading 2 1\nreading 2 2\nreading 4 16\nopen_read 2 2",
        );
        let layout = Layout::of(&script).unwrap();
        let without_1 = "format 1792 2 1 3\nsession 3\nreading 1 1\nreading 2 1\nreading 4 15\nopen_read 2 1";
        assert_eq!(without_file(&script, &layout, 1), lines(without_1));
        let alone = "format 2560 1 2 3 1 3\nsession 1\nreading 1 1\nreading 1 2\nreading 3 16\nopen_read 1 2";
        assert_eq!(without_client(&script, &layout, 1), lines(alone));
        let short = shrink(script, |lines| lines.iter().any(|line| matches!(line, Line::Reading { client: 2.., .. })));
        assert_eq!(short, lines("reading 2 1"));
    }

    #[test]
    fn looks_go_with_their_files_and_stay_with_every_client() {
        let script = lines("format 2816 2 2 3 1 3\nlook 1 1\nbegin 2\nlook 2 0\nlook 0 9\nlook 3 0");
        let layout = Layout::of(&script).unwrap();
        let without_1 = "format 1792 2 1 3\nbegin 2\nlook 1 0\nlook 0 9\nlook 2 0";
        assert_eq!(without_file(&script, &layout, 1), lines(without_1));
        let alone = "format 2560 1 2 3 1 3\nlook 1 1\nlook 2 0\nlook 0 9\nlook 3 0";
        assert_eq!(without_client(&script, &layout, 2), lines(alone));
        let is_look = |line: &Line| matches!(line, Line::Call(Call::Look { .. }));
        let short = shrink(script, |lines| lines.iter().filter(|line| is_look(line)).count() == 4);
        assert_eq!(short, lines("look 1 0\nlook 2 0\nlook 0 0\nlook 3 0"));
    }

    #[test]
    fn questions_go_with_their_files_and_stay_with_every_client() {
        let script = lines("format 2816 2 2 3 1 3\nspare 1\nbegin 2\nspare 2\nspare 0\nspare 255");
        let layout = Layout::of(&script).unwrap();
        let without_1 = "format 1792 2 1 3\nbegin 2\nspare 1\nspare 0\nspare 254";
        assert_eq!(without_file(&script, &layout, 1), lines(without_1));
        let alone = "format 2560 1 2 3 1 3\nspare 1\nspare 2\nspare 0\nspare 255";
        assert_eq!(without_client(&script, &layout, 2), lines(alone));
    }

    #[test]
    fn another_length_that_is_lent_goes_with_the_layout() {
        let script = lines("format 2816 2 2 3 1 3\nformat 3072 0\nspare 2\nformat 100 0\nspare 2");
        let layout = Layout::of(&script).unwrap();
        let without_1 = "format 1792 2 1 3\nformat 2048 0\nspare 1\nformat 0 0\nspare 1";
        assert_eq!(without_file(&script, &layout, 1), lines(without_1));
        let alone = "format 2560 1 2 3 1 3\nformat 2816 0\nspare 2\nformat 0 0\nspare 2";
        assert_eq!(without_client(&script, &layout, 2), lines(alone));
    }

    #[test]
    fn a_failure_is_made_short() {
        let script = lines(
            "format 5120 4 9 9 2 3 1 3\nlist\nbegin 4\nopen 4 2\nread 4 2 1\nwrite 4 2 1 9 256\nsession 0\ncommit 4 1\nlist",
        );
        let has_write = |lines: &[Line]| lines.iter().any(|line| matches!(line, Line::Call(Call::Write { .. })));
        let has_layout = |lines: &[Line]| lines.iter().any(|line| matches!(line, Line::Format { .. }));
        let short = shrink(script, |lines| has_write(lines) && has_layout(lines));
        assert_eq!(short.len(), 2);
        assert_eq!(short[1].to_string(), "write 1 1 0 0 256");
    }
}
