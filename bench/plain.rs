//! A plain program that saves the maps of `gmr`, beside which `bench/beside` times it: dimension 2,
//! at most one embedding of points on the vertices, and operations that are written by hand, with
//! nothing proved. It reads and writes in pieces, or holds each text whole, and its report is its own;
//! what `cells` prints is what `gmr` prints. A text that is no map, a script that it doesn't know and a number
//! of more than 18 digits end it. `grid` has a map of its own, without names and free places, in which
//! nothing is looked up: the least that its work can cost.
//!
//!     plain show MAP            prints the map
//!     plain cells MAP           prints how many cells, components and free darts there are, and the colours
//!     plain run MAP SCRIPT OUT  applies the lines of the script, saves the map, prints a line for each
//!     plain grid M              triangulates each face of M by M squares, prints how many cells there are
//!     plain whole WORDS         the same of the first three, with each text held whole, as it is read and printed
use std::env;
use std::fs::{self, File};
use std::io::{self, Cursor, Read, Write};

const NONE: u32 = u32::MAX;
const PIECE: usize = 1 << 16;
const MOST_DARTS: usize = 1 << 20;

type Point = [i64; 3];

/// Whether a text goes by in pieces, or is held whole.
#[derive(Clone, Copy)]
enum Held {
    Pieces,
    Whole,
}

/// A file, read in pieces. Behind what is read stand eight newlines, so that a number ends there and
/// eight bytes can be looked at from any.
struct Input {
    source: Box<dyn Read>,
    piece: Box<[u8; PIECE + EIGHT]>,
    at: usize,
    end: usize,
}

/// No number and no word that is read is longer.
const LONGEST: usize = 64;

/// How many bytes are looked at in one.
const EIGHT: usize = 8;

/// The digits at the start of these bytes: how many there are, and the number that they are.
#[inline(always)]
fn leading_digits(bytes: [u8; EIGHT]) -> (usize, u64) {
    let values = u64::from_le_bytes(bytes) ^ 0x3030_3030_3030_3030;
    let others = (values.wrapping_add(0x7676_7676_7676_7676) | values) & 0x8080_8080_8080_8080;
    let count = others.trailing_zeros() / 8;
    if count == 0 {
        return (0, 0);
    }
    // The digits go to the end, zeros before them; then two, four and eight of them become one number.
    let digits = values << (64 - 8 * count);
    let pairs = digits.wrapping_mul(10).wrapping_add(digits >> 8);
    let low = (pairs & 0x0000_00ff_0000_00ff).wrapping_mul(0x000f_4240_0000_0064);
    let high = ((pairs >> 16) & 0x0000_00ff_0000_00ff).wrapping_mul(0x0000_2710_0000_0001);
    (count as usize, low.wrapping_add(high) >> 32)
}

impl Input {
    fn open(path: &str, held: Held) -> Input {
        let source: Box<dyn Read> = match held {
            Held::Pieces => Box::new(File::open(path).expect("open")),
            Held::Whole => Box::new(Cursor::new(fs::read(path).expect("read"))),
        };
        let piece: Box<[u8; PIECE + EIGHT]> = vec![b'\n'; PIECE + EIGHT].try_into().expect("as long");
        Input { source, piece, at: 0, end: 0 }
    }

    /// Has this many bytes in the piece, where the file has them.
    #[inline(always)]
    fn look_ahead(&mut self) {
        if self.end - self.at < LONGEST {
            self.refill();
        }
    }

    #[cold]
    fn refill(&mut self) {
        self.piece.copy_within(self.at..self.end, 0);
        self.end -= self.at;
        self.at = 0;
        while self.end < PIECE {
            let count = self.source.read(&mut self.piece[self.end..PIECE]).expect("read");
            if count == 0 {
                break;
            }
            self.end += count;
        }
        self.piece[self.end..self.end + EIGHT].fill(b'\n');
    }

    #[inline(always)]
    fn number(&mut self) -> i64 {
        self.look_ahead();
        let mut at = self.at;
        let mut byte = self.piece[at];
        while byte < b'-' {
            at += 1;
            byte = self.piece[at];
        }
        let negative = byte == b'-';
        at += usize::from(negative);
        let first = at;
        let eight = self.piece[at..at + EIGHT].try_into().expect("as long");
        let (count, mut number) = leading_digits(eight);
        at += count;
        while count == EIGHT {
            let digit = self.piece[at].wrapping_sub(b'0');
            if digit > 9 {
                break;
            }
            number = 10 * number + u64::from(digit);
            at += 1;
        }
        assert!(at > first && at < first + 19, "a number of 18 digits at most");
        // What ends a number belongs to it, but for the newline after all that is read.
        self.at = self.end.min(at + 1);
        if negative { -(number as i64) } else { number as i64 }
    }

    fn point(&mut self) -> Point {
        [self.number(), self.number(), self.number()]
    }

    /// The next word; none at the end.
    fn word(&mut self, word: &mut Vec<u8>) -> bool {
        word.clear();
        self.look_ahead();
        let bytes = &self.piece[self.at..self.end];
        let is_blank = |byte: &u8| matches!(byte, b' ' | b'\n');
        let Some(start) = bytes.iter().position(|byte| !is_blank(byte)) else {
            self.at = self.end;
            return false;
        };
        let length = bytes[start..].iter().position(is_blank).unwrap_or(bytes.len() - start);
        word.extend_from_slice(&bytes[start..start + length]);
        self.at += start + length;
        true
    }
}

struct Output<W: Write> {
    to: W,
    piece: Vec<u8>,
}

/// The digits of the numbers below 100, two for each.
const PAIRS: [u8; 200] = {
    let mut pairs = [b'0'; 200];
    let mut number = 0;
    while number < 100 {
        pairs[2 * number] += (number / 10) as u8;
        pairs[2 * number + 1] += (number % 10) as u8;
        number += 1;
    }
    pairs
};

impl<W: Write> Output<W> {
    fn new(to: W) -> Output<W> {
        Output { to, piece: Vec::with_capacity(PIECE + 512) }
    }

    #[inline(always)]
    fn number(&mut self, number: i64) {
        let mut rest = number.unsigned_abs();
        if number < 0 {
            self.piece.push(b'-');
        }
        if rest < 10 {
            self.piece.push(b'0' + rest as u8);
            return;
        }
        let mut digits = [0u8; 20];
        let mut at = 20;
        while rest >= 100 {
            let pair = 2 * (rest % 100) as usize;
            rest /= 100;
            at -= 2;
            digits[at] = PAIRS[pair];
            digits[at + 1] = PAIRS[pair + 1];
        }
        if rest >= 10 {
            let pair = 2 * rest as usize;
            at -= 2;
            digits[at] = PAIRS[pair];
            digits[at + 1] = PAIRS[pair + 1];
        } else {
            at -= 1;
            digits[at] = b'0' + rest as u8;
        }
        self.piece.extend_from_slice(&digits[at..]);
    }

    fn text(&mut self, text: &[u8]) {
        self.piece.extend_from_slice(text);
    }

    /// Numbers with a blank before each, which may be more than a piece has room for.
    fn spaced(&mut self, numbers: impl Iterator<Item = u32>) {
        for number in numbers {
            self.text(b" ");
            self.number(number.into());
            self.flush_full();
        }
    }

    fn end_line(&mut self) {
        self.piece.push(b'\n');
        self.flush_full();
    }

    fn flush_full(&mut self) {
        if self.piece.len() > PIECE {
            self.flush();
        }
    }

    fn flush(&mut self) {
        self.to.write_all(&self.piece).expect("write");
        self.piece.clear();
    }
}

/// The darts in slots, as in the proved program.
#[derive(Default)]
struct Map {
    has_points: bool,
    names: Vec<u32>,
    neighbours: Vec<[u32; 3]>,
    points: Vec<Point>,
    slots: Vec<u32>,
    free: Vec<u32>,
    next: u32,
}

impl Map {
    fn load(path: &str, held: Held) -> Map {
        let mut input = Input::open(path, held);
        let mut map = Map::default();
        let mut word = Vec::new();
        while input.word(&mut word) && word != b"darts" {
            map.has_points |= word == b"embed";
        }
        let count = input.number() as usize;
        map.names.reserve_exact(count);
        map.neighbours.reserve_exact(count);
        map.points.reserve_exact(if map.has_points { count } else { 0 });
        for _ in 0..count {
            map.names.push(input.number() as u32);
            map.neighbours.push([(); 3].map(|()| input.number() as u32));
            if map.has_points {
                map.points.push(input.point());
            }
        }
        drop(input);
        map.sort();
        map.link();
        map.check();
        map
    }

    /// Brings the darts into the order of their names.
    fn sort(&mut self) {
        if self.names.windows(2).all(|pair| pair[0] < pair[1]) {
            return;
        }
        let mut order: Vec<u32> = (0..self.names.len() as u32).collect();
        order.sort_unstable_by_key(|slot| self.names[*slot as usize]);
        self.neighbours = order.iter().map(|slot| self.neighbours[*slot as usize]).collect();
        if self.has_points {
            self.points = order.iter().map(|slot| self.points[*slot as usize]).collect();
        }
        self.names = order.iter().map(|slot| self.names[*slot as usize]).collect();
        assert!(self.names.windows(2).all(|pair| pair[0] < pair[1]), "a name twice");
    }

    /// Puts slots in the places of names.
    fn link(&mut self) {
        self.next = self.names.last().map_or(0, |name| name + 1);
        self.slots = vec![NONE; self.next as usize];
        for (slot, name) in self.names.iter().enumerate() {
            self.slots[*name as usize] = slot as u32;
        }
        for neighbour in self.neighbours.iter_mut().flatten() {
            *neighbour = self.slots[*neighbour as usize];
            assert!(*neighbour != NONE, "no such dart");
        }
    }

    fn alpha(&self, label: usize, slot: u32) -> u32 {
        self.neighbours[slot as usize][label]
    }

    fn check(&self) {
        for slot in 0..self.neighbours.len() as u32 {
            for label in 0..3 {
                assert!(self.alpha(label, self.alpha(label, slot)) == slot, "an involution");
            }
            let across = self.alpha(2, self.alpha(0, slot));
            assert!(self.alpha(2, self.alpha(0, across)) == slot, "a square");
            for label in 1..3 {
                let other = self.alpha(label, slot) as usize;
                assert!(!self.has_points || self.points[other] == self.points[slot as usize], "a point");
            }
        }
    }

    fn print<W: Write>(&self, to: W) {
        let mut output = Output::new(to);
        let embed = if self.has_points { "embed pos <1 2> vec3\n" } else { "" };
        let count = self.names.len() - self.free.len();
        output.text(format!("gmap 1\ndim 2\n{embed}darts {count}\n").as_bytes());
        for slot in self.slots.iter().filter(|slot| **slot != NONE) {
            output.number(self.names[*slot as usize].into());
            for neighbour in self.neighbours[*slot as usize] {
                output.text(b" ");
                output.number(self.names[neighbour as usize].into());
            }
            if self.has_points {
                let [x, y, z] = self.points[*slot as usize];
                for (before, number) in [(" (", x), (" ", y), (" ", z)] {
                    output.text(before.as_bytes());
                    output.number(number);
                }
                output.text(b")");
            }
            output.end_line();
        }
        output.flush();
    }

    fn save<W: Write>(&self, mut to: W, held: Held) {
        match held {
            Held::Pieces => self.print(to),
            Held::Whole => {
                let mut text = Vec::new();
                self.print(&mut text);
                to.write_all(&text).expect("write");
            }
        }
    }

    fn slot_of(&self, name: u32) -> Option<u32> {
        self.slots.get(name as usize).copied().filter(|slot| *slot != NONE)
    }

    fn add(&mut self, point: Point) -> u32 {
        let slot = self.free.pop().unwrap_or_else(|| {
            self.names.push(0);
            self.neighbours.push([0; 3]);
            if self.has_points {
                self.points.push([0; 3]);
            }
            self.names.len() as u32 - 1
        });
        self.names[slot as usize] = self.next;
        self.neighbours[slot as usize] = [slot; 3];
        if self.has_points {
            self.points[slot as usize] = point;
        }
        self.slots.push(slot);
        self.next += 1;
        slot
    }

    /// Gives the point to each dart of a corner, which is a path or a ring and is followed along its two
    /// ends, so that nothing is marked: a dart comes again only where the ring is closed.
    fn set_corner(&mut self, from: u32, point: Point) {
        self.points[from as usize] = point;
        for first in [1, 2] {
            let (mut slot, mut label) = (from, first);
            loop {
                let next = self.alpha(label, slot);
                if next == slot {
                    break;
                }
                if next == from {
                    return;
                }
                self.points[next as usize] = point;
                (slot, label) = (next, 3 - label);
            }
        }
    }

    /// The point midway between two darts, rounded down; none where their sum passes 64 bits.
    fn midway(&self, slot: u32, other: u32) -> Option<Point> {
        let mut point = self.points[slot as usize];
        for (number, more) in point.iter_mut().zip(self.points[other as usize]) {
            *number = number.checked_add(more)?.div_euclid(2);
        }
        Some(point)
    }

    fn remove(&mut self, slot: u32) {
        self.slots[self.names[slot as usize] as usize] = NONE;
        self.free.push(slot);
    }
}

/// The room for walks.
#[derive(Default)]
struct Walk {
    slots: Vec<u32>,
    /// One more than the place of each slot; 0 where it isn't among them.
    places: Vec<u32>,
    /// Where each place turns, by the two labels.
    turns: Vec<[usize; 2]>,
}

impl Walk {
    fn begin(&mut self, map: &Map, from: u32, labels: [usize; 2]) {
        for slot in self.slots.drain(..) {
            self.places[slot as usize] = 0;
        }
        self.places.resize(self.places.len().max(map.names.len()), 0);
        self.meet(from);
        let mut at = 0;
        while at < self.slots.len() {
            let [first, second] = labels.map(|label| map.alpha(label, self.slots[at]));
            self.meet(first);
            self.meet(second);
            at += 1;
        }
        self.turns.clear();
        for slot in &self.slots {
            self.turns.push(labels.map(|label| self.places[map.alpha(label, *slot) as usize] as usize - 1));
        }
    }

    fn meet(&mut self, slot: u32) {
        if self.places[slot as usize] == 0 {
            self.slots.push(slot);
            self.places[slot as usize] = self.slots.len() as u32;
        }
    }
}

/// Puts a corner into the face of the dart, in the middle of its corners.
fn triangulate(map: &mut Map, walk: &mut Walk, dart: u32) -> Option<(usize, usize)> {
    walk.begin(map, map.slot_of(dart)?, [0, 1]);
    let positions = walk.slots.len();
    let mut middle = [0i64; 3];
    for slot in walk.slots.iter().filter(|_| map.has_points) {
        for (sum, number) in middle.iter_mut().zip(map.points[*slot as usize]) {
            *sum = sum.checked_add(number)?;
        }
    }
    middle = middle.map(|sum| sum.div_euclid(positions as i64));
    if map.names.len() - map.free.len() + 2 * positions > MOST_DARTS {
        return None;
    }
    let mut made = Vec::with_capacity(2 * positions);
    for slot in &walk.slots {
        let point = if map.has_points { map.points[*slot as usize] } else { middle };
        made.push(map.add(point));
    }
    for _ in 0..positions {
        made.push(map.add(middle));
    }
    let (spokes, centres) = made.split_at(positions);
    for (position, slot) in walk.slots.iter().enumerate() {
        let [along, around] = walk.turns[position];
        map.neighbours[*slot as usize][1] = spokes[position];
        map.neighbours[spokes[position] as usize] = [centres[position], *slot, spokes[around]];
        map.neighbours[centres[position] as usize] = [spokes[position], centres[along], centres[around]];
    }
    Some((2 * positions, 0))
}

/// Takes the corner of the dart out again, with the edges that lead to it.
fn merge(map: &mut Map, walk: &mut Walk, dart: u32) -> Option<(usize, usize)> {
    walk.begin(map, map.slot_of(dart)?, [1, 2]);
    let spokes: Vec<u32> = walk.slots.iter().map(|slot| map.alpha(0, *slot)).collect();
    let rim: Vec<u32> = spokes.iter().map(|spoke| map.alpha(1, *spoke)).collect();
    for (position, [along, around]) in walk.turns.iter().enumerate() {
        if map.alpha(2, spokes[position]) != spokes[*around] || map.alpha(0, rim[position]) != rim[*along] {
            return None;
        }
    }
    for slot in spokes.iter().chain(&rim) {
        let before = walk.slots.len();
        walk.meet(*slot);
        if walk.slots.len() == before {
            return None;
        }
    }
    for (position, [_, around]) in walk.turns.iter().enumerate() {
        map.neighbours[rim[position] as usize][1] = rim[*around];
        map.remove(walk.slots[position]);
        map.remove(spokes[position]);
    }
    Some((0, 2 * spokes.len()))
}

/// Goes round the face of the dart and leaves it as it is.
fn keep(map: &Map, walk: &mut Walk, dart: u32) -> Option<(usize, usize)> {
    walk.begin(map, map.slot_of(dart)?, [0, 1]);
    Some((0, 0))
}

/// Moves the corner of the dart.
fn shift(map: &mut Map, walk: &mut Walk, dart: u32, by: Point) -> Option<(usize, usize)> {
    let from = map.slot_of(dart)?;
    walk.begin(map, from, [1, 2]);
    let mut point = map.points[from as usize];
    for (number, more) in point.iter_mut().zip(by) {
        *number = number.checked_add(more)?;
    }
    for slot in &walk.slots {
        map.points[*slot as usize] = point;
    }
    Some((0, 0))
}

/// Sews the edges of two darts, which are free along 2. Their ends come midway between the two.
fn sew(map: &mut Map, dart: u32, other: u32) -> Option<(usize, usize)> {
    let (from, to) = (map.slot_of(dart)?, map.slot_of(other)?);
    let (far_from, far_to) = (map.alpha(0, from), map.alpha(0, to));
    let is_free = [from, far_from, to, far_to].iter().all(|slot| map.alpha(2, *slot) == *slot);
    // An edge isn't sewn to itself, and one of two darts not to one of a single dart.
    if !is_free || from == to || far_from == to || (far_from == from) != (far_to == to) {
        return None;
    }
    let (near, far) = (map.midway(from, to)?, map.midway(far_from, far_to)?);
    for (slot, across) in [(from, to), (far_from, far_to)] {
        map.neighbours[slot as usize][2] = across;
        map.neighbours[across as usize][2] = slot;
    }
    // Where both ends are one corner, it gets the point of the near one, which is put there last.
    map.set_corner(far_from, far);
    map.set_corner(from, near);
    Some((0, 0))
}

fn run(map_path: &str, script_path: &str, out: &str, held: Held) {
    let mut map = Map::load(map_path, held);
    let mut walk = Walk::default();
    let mut script = Input::open(script_path, held);
    let mut report = Output::new(Vec::new());
    let mut word = Vec::new();
    let mut line = 0;
    while script.word(&mut word) {
        line += 1;
        script.word(&mut word);
        let dart = script.number() as u32;
        let applied = match word.as_slice() {
            b"T" | b"split" => triangulate(&mut map, &mut walk, dart),
            b"merge" => merge(&mut map, &mut walk, dart),
            b"keep" => keep(&map, &mut walk, dart),
            b"sew" => sew(&mut map, dart, script.number() as u32),
            _ => {
                script.word(&mut word);
                let by = script.point();
                shift(&mut map, &mut walk, dart, by)
            }
        };
        report.number(line);
        match applied {
            Some((added, removed)) => {
                report.text(b" done ");
                report.number(added as i64);
                report.text(b" ");
                report.number(removed as i64);
            }
            None => report.text(b" refused"),
        }
        report.end_line();
    }
    map.save(File::create(out).expect("create"), held);
    report.flush();
    io::stdout().write_all(&report.to).expect("write");
}

/// How many orbits two labels have: each is a path or a ring, and is followed along its two ends.
fn count_orbits(neighbours: &[[u32; 3]], [first, second]: [usize; 2], seen: &mut [u8], mark: u8) -> usize {
    let mut orbits = 0;
    for from in 0..neighbours.len() {
        if seen[from] == mark {
            continue;
        }
        orbits += 1;
        seen[from] = mark;
        for (mut label, mut other) in [(first, second), (second, first)] {
            let mut next = neighbours[from][label] as usize;
            while seen[next] != mark {
                seen[next] = mark;
                next = neighbours[next][other] as usize;
                (label, other) = (other, label);
            }
        }
    }
    orbits
}

/// How many edges there are, and how many darts are free along each label. An edge has four darts at
/// most, since 0 and 2 commute, so its least one is known without marks.
fn count_edges_and_free(neighbours: &[[u32; 3]]) -> (usize, [usize; 3]) {
    let (mut edges, mut free) = (0, [0; 3]);
    for (slot, turns) in (0..).zip(neighbours) {
        let [along, _, across] = *turns;
        let least: u32 = along.min(across).min(neighbours[across as usize][0]);
        edges += usize::from(slot <= least);
        for (count, turn) in free.iter_mut().zip(turns) {
            *count += usize::from(*turn == slot);
        }
    }
    (edges, free)
}

/// The first of two colours, and what turns either into the other. A dart without one yet has 0.
const FIRST: u8 = 1;
const TURN: u8 = 3;

/// The faces and components, and the colours of the darts.
struct Colouring {
    faces: usize,
    components: usize,
    /// By slot. A neighbour that is another dart has the other colour, but in odd components.
    colours: Vec<u8>,
    /// The least dart of the first component that has no two colours.
    odd: Option<u32>,
}

/// Goes through each component face by face. Within a face, a path or a ring, the colours change from
/// dart to dart and always fit, so only what lies across 2 is compared.
fn colour(neighbours: &[[u32; 3]]) -> Colouring {
    let (mut faces, mut components, mut odd) = (0, 0, None);
    let mut colours = vec![0; neighbours.len()];
    let mut waiting = Vec::new();
    for least in 0..neighbours.len() as u32 {
        if colours[least as usize] != 0 {
            continue;
        }
        components += 1;
        waiting.push((least, FIRST));
        while let Some((from, colour)) = waiting.pop() {
            let mut reach = |slot: u32, colour: u8| {
                if colours[slot as usize] != 0 {
                    return false;
                }
                let across = neighbours[slot as usize][2];
                let beyond = colours[across as usize];
                colours[slot as usize] = colour;
                if beyond == colour {
                    odd.get_or_insert(least);
                } else if beyond == 0 && across != slot {
                    waiting.push((across, colour ^ TURN));
                }
                true
            };
            if !reach(from, colour) {
                continue;
            }
            faces += 1;
            for first in [0, 1] {
                let (mut label, mut colour) = (first, colour ^ TURN);
                let mut next = neighbours[from as usize][label];
                while reach(next, colour) {
                    (label, colour) = (1 - label, colour ^ TURN);
                    next = neighbours[next as usize][label];
                }
            }
        }
    }
    Colouring { faces, components, colours, odd }
}

/// The least walk of odd length from a dart back to it that never stays where it is: the shortest, and of
/// these the one with the lesser labels. It must have one.
fn least_odd_walk(neighbours: &[[u32; 3]], start: u32) -> Vec<u32> {
    // A slot has a place for each parity, where the length of the shortest such walk to it stands.
    let (even, odd) = (2 * start, 2 * start + 1);
    let mut lengths = vec![NONE; 2 * neighbours.len()];
    lengths[even as usize] = 0;
    let (mut queue, mut at) = (vec![even], 0);
    while lengths[odd as usize] == NONE {
        let (slot, parity) = (queue[at] / 2, queue[at] % 2);
        let length = lengths[queue[at] as usize] + 1;
        for next in neighbours[slot as usize] {
            let place = 2 * next + 1 - parity;
            if next != slot && lengths[place as usize] == NONE {
                lengths[place as usize] = length;
                queue.push(place);
            }
        }
        at += 1;
    }
    let mut labels = Vec::new();
    let mut slot = start;
    for left in (0..lengths[odd as usize]).rev() {
        let is_nearer = |next: u32| next != slot && lengths[(2 * next + left % 2) as usize] == left;
        let label = (0..3).find(|label| is_nearer(neighbours[slot as usize][*label])).expect("a step");
        labels.push(label as u32);
        slot = neighbours[slot as usize][label];
    }
    labels
}

fn cells(path: &str, held: Held) {
    let Map { names, neighbours, .. } = Map::load(path, held);
    let corners = count_orbits(&neighbours, [1, 2], &mut vec![0; names.len()], 1);
    let (edges, free) = count_edges_and_free(&neighbours);
    let Colouring { faces, components, colours, odd } = colour(&neighbours);
    let mut output = Output::new(io::stdout().lock());
    output.text(format!("darts {}\n", names.len()).as_bytes());
    for (label, count) in [corners, edges, faces].iter().enumerate() {
        output.text(format!("cells {label} {count}\n").as_bytes());
    }
    output.text(format!("components {components}\n").as_bytes());
    for (label, count) in free.iter().enumerate() {
        output.text(format!("free {label} {count}\n").as_bytes());
    }
    if let Some(start) = odd {
        output.text(format!("orientable no\nodd {} labels", names[start as usize]).as_bytes());
        output.spaced(least_odd_walk(&neighbours, start).into_iter());
    } else {
        output.text(b"orientable yes\nfirst");
        let is_first = |(_, colour): &(&u32, &u8)| **colour == FIRST;
        output.spaced(names.iter().zip(&colours).filter(is_first).map(|(name, _)| *name));
    }
    output.end_line();
    output.flush();
}

/// A map of squares, for `grid` alone: a dart is its place in the vectors, so that none has a name, and
/// no face is bounded, so that its darts lie in a ring.
struct Squares {
    neighbours: Vec<[u32; 3]>,
    points: Vec<Point>,
}

impl Squares {
    fn new(size: i64) -> Squares {
        const ALONG: [u32; 8] = [1, 0, 3, 2, 5, 4, 7, 6];
        const AROUND: [u32; 8] = [7, 2, 1, 4, 3, 6, 5, 0];
        const FACING: [u32; 8] = [5, 4, 7, 6, 1, 0, 3, 2];
        const BEYOND: [(i64, i64); 8] = [(0, -1), (0, -1), (1, 0), (1, 0), (0, 1), (0, 1), (-1, 0), (-1, 0)];
        const CORNER: [(i64, i64); 8] = [(0, 0), (1, 0), (1, 0), (1, 1), (1, 1), (0, 1), (0, 1), (0, 0)];
        let darts = 24 * (size * size) as usize;
        let mut map = Squares { neighbours: Vec::with_capacity(darts), points: Vec::with_capacity(darts) };
        for square in 0..size * size {
            let (row, column, first) = (square / size, square % size, 8 * square as u32);
            for dart in 0..8 {
                let (x, y) = (column + BEYOND[dart].0, row + BEYOND[dart].1);
                let is_inside = (0..size).contains(&x) && (0..size).contains(&y);
                let across = if is_inside { 8 * (y * size + x) as u32 + FACING[dart] } else { first + dart as u32 };
                map.neighbours.push([first + ALONG[dart], first + AROUND[dart], across]);
                map.points.push([1000 * (column + CORNER[dart].0), 1000 * (row + CORNER[dart].1), 0]);
            }
        }
        map
    }

    /// Puts a corner into the face of the dart, in the middle of its corners.
    fn triangulate(&mut self, dart: u32, face: &mut Vec<u32>) {
        face.clear();
        let (mut next, mut label, mut middle) = (dart, 0, [0i64; 3]);
        loop {
            face.push(next);
            for (sum, number) in middle.iter_mut().zip(self.points[next as usize]) {
                *sum += number;
            }
            next = self.neighbours[next as usize][label];
            label ^= 1;
            if next == dart {
                break;
            }
        }
        let length = face.len();
        let middle = middle.map(|sum| sum.div_euclid(length as i64));
        let spokes = self.neighbours.len() as u32;
        let centres = spokes + length as u32;
        for place in 0..length {
            let around = Squares::turn(place, 1, length);
            self.neighbours.push([centres + place as u32, face[place], spokes + around]);
            self.points.push(self.points[face[place] as usize]);
            self.neighbours[face[place] as usize][1] = spokes + place as u32;
        }
        for place in 0..length {
            let (along, around) = (Squares::turn(place, 0, length), Squares::turn(place, 1, length));
            self.neighbours.push([spokes + place as u32, centres + along, centres + around]);
            self.points.push(middle);
        }
    }

    /// Where a label leads from a place of a ring that begins along the label 0.
    fn turn(place: usize, label: usize, length: usize) -> u32 {
        let is_onward = place % 2 == label;
        (if is_onward { place + 1 } else { place + length - 1 } % length) as u32
    }
}

fn grid(size: i64) {
    let mut map = Squares::new(size);
    let mut face = Vec::new();
    let faces = (size * size) as u32;
    for dart in 0..faces {
        map.triangulate(8 * dart, &mut face);
    }
    let darts = map.neighbours.len();
    let mut seen = vec![0; darts];
    let points = count_orbits(&map.neighbours, [1, 2], &mut seen, 1);
    let edges = count_orbits(&map.neighbours, [0, 2], &mut seen, 2);
    let corners = count_orbits(&map.neighbours, [0, 1], &mut seen, 3);
    println!("grid {size} applied {faces} darts {darts} next {darts} cells {points} {edges} {corners}");
}

fn main() {
    let words: Vec<String> = env::args().skip(1).collect();
    let words: Vec<&str> = words.iter().map(String::as_str).collect();
    let (held, words) = match words.as_slice() {
        ["whole", rest @ ..] => (Held::Whole, rest),
        all => (Held::Pieces, all),
    };
    match *words {
        ["show", map] => Map::load(map, held).save(io::stdout().lock(), held),
        ["cells", map] => cells(map, held),
        ["run", map, script, out] => run(map, script, out, held),
        ["grid", size] => grid(size.parse().expect("a number")),
        _ => panic!("show MAP, cells MAP, run MAP SCRIPT OUT, these after whole, or grid M"),
    }
}
