//! A crash explorer for the journalled file system, written by hand for speed and without proofs: the yardstick
//! of the benchmark. `explorer RECORDING BASE` prints what `explore --quiet j RECORDING BASE` prints.
use std::process::ExitCode;
use std::{env, fs};

const SIZE: usize = 512;
const REST: u32 = (1 << 30) - 1;
const MOST_STATES: u64 = 1_048_576;

type Sector = [u8; SIZE];
type Image = [Sector];

static ZEROS: Sector = [0; SIZE];

/// Number and place.
struct Refusal(u64, u64);

fn word(sector: &Sector, i: usize) -> u32 {
    u32::from_le_bytes(sector[4 * i..4 * i + 4].try_into().unwrap())
}

fn long(bytes: &[u8], at: usize) -> u64 {
    u64::from_le_bytes(bytes[at..at + 8].try_into().unwrap())
}

// Recovery

/// A node's value in one number, so that two values compare at once: kind, parent, length, print.
type Value = u64;
type Tree = [Value; 16];

const ABSENT: Value = 0;

fn directory(parent: u32) -> Value {
    1 << 62 | (parent as u64) << 48
}

fn file(parent: u32, length: u32, print: u32) -> Value {
    2 << 62 | (parent as u64) << 48 | (length as u64) << 32 | print as u64
}

/// How many files are printed in step. Each byte of a file waits for the one before it; another file's does not.
const LANES: usize = 4;

fn prints(files: [&[u8]; LANES]) -> [u32; LANES] {
    let step = |print: u32, byte: u8| print.rotate_left(5).wrapping_add(byte as u32);
    let shared = files.map(<[u8]>::len).into_iter().min().unwrap();
    let heads = files.map(|file| &file[..shared]);
    let mut prints = [0; LANES];
    for i in 0..shared {
        for lane in 0..LANES {
            prints[lane] = step(prints[lane], heads[lane][i]);
        }
    }
    for lane in 0..LANES {
        prints[lane] = files[lane][shared..].iter().fold(prints[lane], |print, byte| step(print, *byte));
    }
    prints
}

/// Where each sector's bytes lie after recovery. A transaction that stands moves its home sectors to their copies
/// in the journal, which stay as they are; so nothing is copied and the image is not written.
type Places = [u8; 64];

const IN_PLACE: Places = {
    let mut places = [0; 64];
    let mut i = 0;
    while i < 64 {
        places[i] = i as u8;
        i += 1;
    }
    places
};

fn sum(sectors: &Image) -> u32 {
    let words = sectors.as_flattened().chunks_exact(4);
    words.fold(0u32, |sum, bytes| sum.wrapping_add(u32::from_le_bytes(bytes.try_into().unwrap()))) & REST
}

/// The places after a complete transaction of this sequence number, if the journal holds one.
fn replay(image: &Image, sequence: u32) -> Option<Places> {
    let descriptor = &image[2];
    let size = word(descriptor, 1) & REST;
    if word(descriptor, 0) != 1 << 30 | sequence || word(descriptor, 1) >> 30 != 2 || size < 1 || size > 6 {
        return None;
    }
    let size = size as usize;
    let mut places = IN_PLACE;
    let mut homes = 0u64;
    for i in 0..size {
        let home = word(descriptor, 2 + i);
        let at = (home & REST) as usize;
        if home >> 30 != 3 || !(at == 1 || 10 <= at && at < image.len()) || homes >> at & 1 != 0 {
            return None;
        }
        homes |= 1 << at;
        places[at] = 3 + i as u8;
    }
    let commit = &image[3 + size];
    let stands = word(commit, 0) == 1 << 30 | sequence && word(commit, 1) == 3 << 30 | sum(&image[2..3 + size]);
    stands.then_some(places)
}

/// The value of a node by its word, its print still 0; none if the word is wrong. Lower nodes are in the tree.
fn value(node: u32, i: usize, tree: &Tree, count: usize) -> Option<Value> {
    if node == 0 {
        return Some(ABSENT);
    }
    let (parent, length, at) = (node >> 26 & 15, node >> 16 & 1023, (node & 255) as usize);
    if parent as usize >= i || tree[parent as usize] >> 62 != 1 {
        return None;
    }
    match node >> 30 {
        1 if node << 6 == 0 => Some(directory(parent)),
        2 if node & 0xff00 != 0 => None,
        2 if length == 0 && at == 0 => Some(file(parent, 0, 0)),
        2 if 0 < length && length <= 512 && 10 <= at && at < count => Some(file(parent, length, 0)),
        _ => None,
    }
}

/// The tree that an image recovers to; none for a fault.
fn recover(image: &Image) -> Option<Tree> {
    let (head, count) = (&image[0], image.len());
    if word(head, 0) != 0x4000_0001 || word(head, 1) != 2 << 30 | count as u32 || word(head, 2) >> 30 != 3 {
        return None;
    }
    let places = replay(image, word(head, 2) & REST).unwrap_or(IN_PLACE);
    let nodes = &image[places[1] as usize];
    if word(nodes, 0) != 1 << 30 {
        return None;
    }
    let mut tree = [ABSENT; 16];
    tree[0] = directory(0);
    let (mut files, mut found) = ([0u8; 15], 0);
    for i in 1..16 {
        tree[i] = value(word(nodes, i), i, &tree, count)?;
        if tree[i] >> 62 == 2 {
            files[found] = i as u8;
            found += 1;
        }
    }
    let bytes = |file: u8| {
        let node = word(nodes, file as usize);
        &image[places[(node & 255) as usize] as usize][..(node >> 16 & 1023) as usize]
    };
    for group in files[..found].chunks(LANES) {
        // A short group is filled up with its last file.
        let group: [u8; LANES] = std::array::from_fn(|lane| group[lane.min(group.len() - 1)]);
        for (file, print) in group.into_iter().zip(prints(group.map(bytes))) {
            let value = &mut tree[file as usize];
            *value = *value >> 32 << 32 | print as u64;
        }
    }
    Some(tree)
}

// Recordings

enum Mark {
    May(usize, Value),
    Synced(usize),
    Comment,
}

struct Entry<'a> {
    flush: bool,
    fua: bool,
    sector: usize,
    /// One content for each sector written from `sector` on.
    contents: Vec<&'a Sector>,
    mark: Mark,
}

/// A decimal number without leading zeros, from `low` to `high`.
fn number(text: &[u8], low: u32, high: u32) -> Option<u32> {
    let plain = text == b"0" || (1..=3).contains(&text.len()) && text[0] != b'0' && text.iter().all(u8::is_ascii_digit);
    let value = || text.iter().fold(0, |value, digit| 10 * value + (digit - b'0') as u32);
    plain.then(value).filter(|value| low <= *value && *value <= high)
}

fn hexadecimal(text: &[u8]) -> Option<u32> {
    let plain = text.len() == 8 && text.iter().all(|digit| matches!(digit, b'0'..=b'9' | b'a'..=b'f'));
    plain.then(|| u32::from_str_radix(std::str::from_utf8(text).unwrap(), 16).unwrap())
}

fn mark(text: &[u8]) -> Option<Mark> {
    if text.first() == Some(&b'#') || text == b"dm-log-writes-end" {
        return Some(Mark::Comment);
    }
    let parts: Vec<&[u8]> = text.splitn(6, |byte| *byte == b' ').collect();
    let node = number(parts.get(1)?, 1, 15)?;
    let parent = |part| number(part, 0, node - 1);
    Some(match parts[..] {
        [b"f", _, p, l, h] => Mark::May(node as usize, file(parent(p)?, number(l, 0, 512)?, hexadecimal(h)?)),
        [b"d", _, p] => Mark::May(node as usize, directory(parent(p)?)),
        [b"x", _] => Mark::May(node as usize, ABSENT),
        [b"s", _] => Mark::Synced(node as usize),
        _ => return None,
    })
}

/// Entry k and the bytes after it, with all checks in the ruled order.
fn entry<'a>(left: &'a [u8], k: u64, count: usize, data_sectors: &mut u64) -> Result<(Entry<'a>, &'a [u8]), Refusal> {
    let Some((head, left)) = left.split_first_chunk::<SIZE>() else { return Err(Refusal(7, k)) };
    let (sector, nr, flags, length) = (long(head, 0), long(head, 8), long(head, 16), long(head, 24));
    let (flush, fua, discard, marked) = (flags & 1 != 0, flags & 2 != 0, flags & 4 != 0, flags & 8 != 0);
    let wrong = flags >> 5 != 0
        || marked && (flags != 8 || sector != 0 || nr != 0)
        || length > 480
        || length != 0 && !marked
        || discard && fua
        || nr == 0 && !marked && !flush;
    if wrong || head[32 + length as usize..].iter().any(|byte| *byte != 0) {
        return Err(Refusal(8, k));
    }
    let mut found = Entry { flush, fua, sector: 0, contents: Vec::new(), mark: Mark::Comment };
    if marked {
        found.mark = mark(&head[32..32 + length as usize]).ok_or(Refusal(10, k))?;
    }
    if nr == 0 {
        return Ok((found, left));
    }
    if sector as u128 + nr as u128 > count as u128 {
        return Err(Refusal(9, k));
    }
    found.sector = sector as usize;
    if discard {
        found.contents = vec![&ZEROS; nr as usize];
        return Ok((found, left));
    }
    *data_sectors += nr;
    if *data_sectors > 96 {
        return Err(Refusal(11, k));
    }
    let (data, left) = left.split_at_checked(nr as usize * SIZE).ok_or(Refusal(7, k))?;
    found.contents = data.as_chunks().0.iter().collect();
    Ok((found, left))
}

fn entries(recording: &[u8], count: usize) -> Result<Vec<Entry<'_>>, Refusal> {
    let Some((head, mut left)) = recording.split_first_chunk::<SIZE>() else { return Err(Refusal(5, 0)) };
    let right = head[..8] == *b"rhswfsj\0" && long(head, 8) == 1 && long(head, 24) == 512;
    if !right || head[32..].iter().any(|byte| *byte != 0) {
        return Err(Refusal(5, 0));
    }
    if long(head, 16) > 256 {
        return Err(Refusal(6, 0));
    }
    let (mut found, mut data_sectors) = (Vec::new(), 0);
    for k in 1..=long(head, 16) {
        let (next, rest) = entry(left, k, count, &mut data_sectors)?;
        found.push(next);
        left = rest;
    }
    if left.is_empty() { Ok(found) } else { Err(Refusal(12, 0)) }
}

// Candidates

/// The candidates of one sector or node.
#[derive(Clone)]
struct History<T> {
    /// How many there are before equal ones are left out.
    held: usize,
    last: T,
    distinct: Vec<T>,
}

impl<T: Copy + PartialEq> History<T> {
    fn new(value: T) -> History<T> {
        let mut distinct = Vec::with_capacity(8);
        distinct.push(value);
        History { held: 1, last: value, distinct }
    }

    /// False if there are 8 already.
    fn put(&mut self, value: T) -> bool {
        if !self.distinct.contains(&value) {
            self.distinct.push(value);
        }
        self.held += 1;
        self.last = value;
        self.held <= 8
    }

    fn settle(&mut self) {
        self.held = 1;
        self.distinct.clear();
        self.distinct.push(self.last);
    }
}

#[derive(Clone)]
struct Candidates<'a> {
    sectors: Vec<History<&'a Sector>>,
    nodes: Vec<History<Value>>,
}

impl<'a> Candidates<'a> {
    fn new(base: &'a Image, tree: Tree) -> Candidates<'a> {
        let (sectors, nodes) = (base.iter().map(History::new), tree.into_iter().map(History::new));
        Candidates { sectors: sectors.collect(), nodes: nodes.collect() }
    }

    /// Goes on to the point after an entry. False if a sector or a node has more than 8 candidates there.
    fn pass(&mut self, entry: &Entry<'a>) -> bool {
        if entry.flush {
            self.sectors.iter_mut().for_each(History::settle);
        }
        let mut within = true;
        for (sector, content) in self.sectors[entry.sector..].iter_mut().zip(&entry.contents) {
            if entry.fua {
                sector.settle();
            }
            within &= sector.put(content);
            if entry.fua {
                sector.settle();
            }
        }
        match entry.mark {
            Mark::May(node, value) => within &= self.nodes[node].put(value),
            Mark::Synced(node) => self.nodes[node].settle(),
            Mark::Comment => {}
        }
        within
    }

    /// Whether this point has no more states than a point may have.
    fn few(&self) -> bool {
        let count = |states: u64, sector: &History<_>| states.saturating_mul(sector.distinct.len() as u64);
        self.sectors.iter().fold(1, count) <= MOST_STATES
    }

    fn admit(&self, tree: &Tree) -> bool {
        self.nodes.iter().zip(tree).all(|(node, value)| node.distinct.contains(value))
    }
}

// The run

struct Report {
    judged: u64,
    bad: u64,
    first: (usize, u64),
}

impl Report {
    /// Judges every state of a point. The image is rewritten only in the sectors that change from state to state.
    fn explore(&mut self, point: usize, candidates: &Candidates, image: &mut Image) {
        let sectors = &candidates.sectors;
        for (sector, history) in image.iter_mut().zip(sectors) {
            *sector = *history.distinct[0];
        }
        let open: Vec<usize> = (0..sectors.len()).filter(|s| sectors[*s].distinct.len() > 1).collect();
        let mut places = [0; 64];
        for rank in 0.. {
            self.judged += 1;
            if !recover(image).is_some_and(|tree| candidates.admit(&tree)) {
                if self.bad == 0 {
                    self.first = (point, rank);
                }
                self.bad += 1;
            }
            let next = open.iter().rev().find(|s| {
                let s = **s;
                let place = if places[s] + 1 < sectors[s].distinct.len() { places[s] + 1 } else { 0 };
                places[s] = place;
                image[s] = *sectors[s].distinct[place];
                place > 0
            });
            if next.is_none() {
                return;
            }
        }
    }
}

fn run(recording: &[u8], base: &Image) -> Result<Report, Refusal> {
    if base.len() < 16 {
        return Err(Refusal(3, 0));
    }
    let tree = recover(base).ok_or(Refusal(4, 0))?;
    let entries = entries(recording, base.len())?;
    let start = Candidates::new(base, tree);
    let mut candidates = start.clone();
    for (entry, point) in entries.iter().zip(1..) {
        if !candidates.pass(entry) {
            return Err(Refusal(13, point));
        }
        if !candidates.few() {
            return Err(Refusal(14, point));
        }
    }
    candidates = start;
    let mut image = base.to_vec();
    let mut report = Report { judged: 0, bad: 0, first: (0, 0) };
    report.explore(0, &candidates, &mut image);
    for (entry, point) in entries.iter().zip(1..) {
        candidates.pass(entry);
        report.explore(point, &candidates, &mut image);
    }
    Ok(report)
}

fn main() -> ExitCode {
    let [_, recording, base] = &env::args().collect::<Vec<_>>()[..] else {
        eprintln!("usage: explorer RECORDING BASE");
        return ExitCode::FAILURE;
    };
    let (recording, base) = (fs::read(recording).expect("the recording"), fs::read(base).expect("the base"));
    let sectors = base.as_chunks().0;
    match run(&recording, &sectors[..sectors.len().min(64)]) {
        Ok(Report { judged, bad, first: (point, rank) }) => {
            println!("report {} {judged} {bad} 0 {judged} {point} {rank}", if bad > 0 { 3 } else { 2 });
            if bad > 0 { ExitCode::FAILURE } else { ExitCode::SUCCESS }
        }
        Err(Refusal(number, place)) => {
            println!("declined {number} {place}");
            ExitCode::FAILURE
        }
    }
}
