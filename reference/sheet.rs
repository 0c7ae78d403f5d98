// The delay sheet, written a second time.
//
// Reads a table from standard input and prints its sheet, or the E line of its refusal. It is written from docs/, shares
// nothing with the crates, and finds a delay in another way, so that agreement of the two says something.
//
// Build: rustc -O --edition 2021 reference/sheet.rs -o PLACE

use std::cmp::Reverse;
use std::collections::{BTreeMap, BinaryHeap};
use std::io::{self, Read, Write};
use std::ops::RangeInclusive;

const TEXT_LIMIT: usize = 16_384;
const FIRST_LINE: &[u8] = b"FDT 0001";

// Ranges, docs/limits.md. A bus has G, S, L, Q; all other figures belong to nodes and messages.

type Range = RangeInclusive<i64>;

const CYCLE: Range = 10..=16_000;
const OFFSET: Range = 0..=15_999;
const MINISLOT: Range = 2..=63;
const MINISLOTS: Range = 1..=7_994;
const NODE: Range = 1..=64;
const NUMBER: Range = 1..=128;
const FRAME: Range = 1..=2_047;
const PRIORITY: Range = 1..=255;
const TIME: Range = 1..=4_000_000;
const JITTER: Range = 0..=4_000_000;
const RELEASES: Range = 1..=16;

const BUS_LINE: [Range; 4] = [CYCLE, OFFSET, MINISLOT, MINISLOTS];
const NODE_LINE: [Range; 2] = [NODE, MINISLOTS];
const PERIODIC_LINE: [Range; 8] = [NUMBER, FRAME, NODE, PRIORITY, MINISLOTS, TIME, TIME, JITTER];
const WINDOW_LINE: [Range; 8] = [NUMBER, FRAME, NODE, PRIORITY, MINISLOTS, TIME, RELEASES, TIME];

// No range reaches ten digits, so a field with more stands for this value, which lies outside all of them.
const LONGEST_DIGITS: usize = 10;
const PAST_EVERY_RANGE: i64 = i64::MAX;

struct Fault {
    number: u32,
    line: usize,
}

struct Bus {
    cycle: i64,
    offset: i64,
    minislot: i64,
    minislots: i64,
}

// How often a message may be released: `burst` releases for every started stretch of `every`, in a length made longer by `jitter`.
// A periodic message has burst 1, a window message jitter 0.
struct Releases {
    burst: i64,
    every: i64,
    jitter: i64,
}

impl Releases {
    // The number of started stretches in a length of at least 1.
    fn stretches(&self, length: i64) -> i64 {
        (length + self.jitter + self.every - 1) / self.every
    }
}

struct Message {
    number: i64,
    frame: i64,
    node: i64,
    priority: i64,
    size: i64,
    deadline: i64,
    releases: Releases,
    line: usize,
}

struct Cluster {
    bus: Bus,
    last_starts: BTreeMap<i64, i64>,
    messages: Vec<Message>,
}

struct SheetLine {
    number: i64,
    frame: i64,
    delay: i64,
    response: i64,
}

// Reading, docs/formats.md

// Which lines are in their turn.
#[derive(Clone, Copy)]
enum Turn {
    Bus,
    NodesOrMessages,
    Messages,
}

fn read_table(text: &[u8]) -> Result<Cluster, Fault> {
    if text.len() > TEXT_LIMIT {
        return Err(Fault { number: 1, line: 0 });
    }
    let mut lines = text.split_inclusive(|&byte| byte == b'\n');
    if lines.next().and_then(ended) != Some(FIRST_LINE) {
        return Err(Fault { number: 2, line: 1 });
    }
    let bus = read_bus(lines.next()).map_err(|number| Fault { number, line: 2 })?;
    let mut cluster = Cluster { bus, last_starts: BTreeMap::new(), messages: Vec::new() };
    let mut turn = Turn::NodesOrMessages;
    for (at, piece) in lines.enumerate() {
        let line = at + 3;
        turn = read_line(&mut cluster, turn, piece, line).map_err(|number| Fault { number, line })?;
    }
    Ok(cluster)
}

// The line without its line feed; none if it has no line feed.
fn ended(piece: &[u8]) -> Option<&[u8]> {
    piece.strip_suffix(b"\n")
}

fn read_bus(piece: Option<&[u8]>) -> Result<Bus, u32> {
    let (letter, values) = piece.and_then(form).ok_or(3u32)?;
    let ranges = admitted(letter, Turn::Bus, values.len()).ok_or(3u32)?;
    check_ranges(&values, ranges)?;
    let bus = Bus { cycle: values[0], offset: values[1], minislot: values[2], minislots: values[3] };
    if bus.offset + bus.minislots * bus.minislot > bus.cycle {
        return Err(7);
    }
    Ok(bus)
}

// Takes a line after the bus line into the cluster, and answers whose turn is next.
fn read_line(cluster: &mut Cluster, turn: Turn, piece: &[u8], line: usize) -> Result<Turn, u32> {
    let (letter, values) = form(piece).ok_or(3u32)?;
    let ranges = admitted(letter, turn, values.len()).ok_or(3u32)?;
    check_ranges(&values, ranges)?;
    if letter == b'N' {
        add_node(cluster, values[0], values[1])?;
        return Ok(turn);
    }
    add_message(cluster, message_of(letter, &values, line))?;
    Ok(Turn::Messages)
}

// A letter and the fields after it; none if the line has another form.
fn form(piece: &[u8]) -> Option<(u8, Vec<i64>)> {
    let mut words = ended(piece)?.split(|&byte| byte == b' ');
    let letter = match words.next()? {
        [letter] => *letter,
        _ => return None,
    };
    let values: Option<Vec<i64>> = words.map(value).collect();
    Some((letter, values?))
}

// The value of a field; none if it is empty, has a leading zero, or anything but digits.
fn value(word: &[u8]) -> Option<i64> {
    if word.is_empty() || !word.iter().all(u8::is_ascii_digit) || (word[0] == b'0' && word.len() > 1) {
        return None;
    }
    if word.len() > LONGEST_DIGITS {
        return Some(PAST_EVERY_RANGE);
    }
    Some(word.iter().fold(0, |sum, &digit| sum * 10 + i64::from(digit - b'0')))
}

// The ranges of a line that may stand here; none if it is not its turn or it has another number of fields.
fn admitted(letter: u8, turn: Turn, fields: usize) -> Option<&'static [Range]> {
    let ranges: &'static [Range] = match (letter, turn) {
        (b'B', Turn::Bus) => &BUS_LINE,
        (b'N', Turn::NodesOrMessages) => &NODE_LINE,
        (b'P', Turn::NodesOrMessages | Turn::Messages) => &PERIODIC_LINE,
        (b'W', Turn::NodesOrMessages | Turn::Messages) => &WINDOW_LINE,
        _ => return None,
    };
    (ranges.len() == fields).then_some(ranges)
}

fn check_ranges(values: &[i64], ranges: &[Range]) -> Result<(), u32> {
    let fits = values.iter().zip(ranges).all(|(value, range)| range.contains(value));
    if fits { Ok(()) } else { Err(4) }
}

fn message_of(letter: u8, values: &[i64], line: usize) -> Message {
    let releases = if letter == b'P' {
        Releases { burst: 1, every: values[6], jitter: values[7] }
    } else {
        Releases { burst: values[6], every: values[7], jitter: 0 }
    };
    Message {
        number: values[0],
        frame: values[1],
        node: values[2],
        priority: values[3],
        size: values[4],
        deadline: values[5],
        releases,
        line,
    }
}

// The conditions of a draft, docs/refusals.md

fn add_node(cluster: &mut Cluster, node: i64, last_start: i64) -> Result<(), u32> {
    match cluster.last_starts.insert(node, last_start) {
        None => Ok(()),
        Some(_) => Err(5),
    }
}

fn add_message(cluster: &mut Cluster, new: Message) -> Result<(), u32> {
    let others = &cluster.messages;
    if others.iter().any(|other| other.number == new.number) {
        return Err(5);
    }
    let last_start = *cluster.last_starts.get(&new.node).ok_or(6u32)?;
    if others.iter().any(|other| other.frame == new.frame && other.node != new.node) {
        return Err(8);
    }
    if others.iter().any(|other| other.frame == new.frame && other.priority == new.priority) {
        return Err(9);
    }
    if last_start + new.size - 1 > cluster.bus.minislots {
        return Err(10);
    }
    if new.frame > last_start {
        return Err(11);
    }
    cluster.messages.push(new);
    Ok(())
}

// The sheet, docs/delay.md

fn sheet_of(mut cluster: Cluster) -> Result<Vec<SheetLine>, Fault> {
    cluster.messages.sort_by_key(|message| (message.frame, message.priority));
    let mut delays: Vec<i64> = Vec::new();
    let mut sheet = Vec::new();
    for (place, message) in cluster.messages.iter().enumerate() {
        let delay = least_delay(&cluster, place, &delays).ok_or(Fault { number: 13, line: message.line })?;
        delays.push(delay);
        sheet.push(SheetLine {
            number: message.number,
            frame: message.frame,
            delay,
            response: message.releases.jitter + delay,
        });
    }
    Ok(sheet)
}

// One count in the right side of the inequality, as D grows: at `next` it grows by `gain`, and again after each `every`.
struct Growth {
    next: i64,
    every: i64,
    gain: i64,
    fills: bool, // true for U, false for H and O
}

// The figures U and H + O at the present D, and the counts that move them.
struct Sweep {
    filled: i64,
    used: i64,
    growths: Vec<Growth>,
    order: BinaryHeap<Reverse<(i64, usize)>>,
}

impl Sweep {
    // Adds a message's count of D + beyond, `weight` for each release, with its value at D = 1.
    fn add(&mut self, releases: &Releases, beyond: i64, weight: i64, fills: bool) {
        let stretches = releases.stretches(1 + beyond);
        let next = stretches * releases.every - releases.jitter - beyond + 1;
        let gain = releases.burst * weight;
        // A lower frame's message of size 1 moves nothing.
        if gain == 0 {
            return;
        }
        self.grow(stretches * gain, fills);
        self.order.push(Reverse((next, self.growths.len())));
        self.growths.push(Growth { next, every: releases.every, gain, fills });
    }

    fn grow(&mut self, gain: i64, fills: bool) {
        if fills {
            self.filled += gain;
        } else {
            self.used += gain;
        }
    }

    // The first D after the present one at which a count grows. The message's own count is always among them.
    fn next(&self) -> i64 {
        self.order.peek().map_or(i64::MAX, |Reverse((next, _))| *next)
    }

    // Moves on to D = at, the first D at which a count grows.
    fn advance(&mut self, at: i64) {
        while let Some(&Reverse((next, index))) = self.order.peek() {
            if next > at {
                return;
            }
            self.order.pop();
            let growth = &mut self.growths[index];
            growth.next += growth.every;
            let (after, gain, fills) = (growth.next, growth.gain, growth.fills);
            self.order.push(Reverse((after, index)));
            self.grow(gain, fills);
        }
    }
}

fn sweep_of(cluster: &Cluster, place: usize, delays: &[i64]) -> Sweep {
    let message = &cluster.messages[place];
    let before_slot = (message.frame - 1) * cluster.bus.minislot;
    // O is the own count less 1.
    let mut sweep = Sweep { filled: 0, used: -1, growths: Vec::new(), order: BinaryHeap::new() };
    sweep.add(&message.releases, 0, 1, false);
    for (other, &delay) in cluster.messages.iter().zip(delays) {
        if other.frame < message.frame {
            sweep.add(&other.releases, delay + before_slot, other.size - 1, true);
        } else {
            sweep.add(&other.releases, delay, 1, false);
        }
    }
    sweep
}

// The least D within the deadline that satisfies the inequality; `delays` are those of the messages before this one.
//
// D goes up from 1, stretch by stretch: within a stretch no count changes, so the right side is one number. If that number is
// not past the end of the stretch, the least solution in it is that number or the stretch's start, whichever is later. No D is
// left out, so the first one found is the least. The right side never falls; once it is past the limit, nothing can follow.
//
// All figures stay below 2^62: U is at most 127 · 7,993 · 16 · 12,200,000 < 2^48, and is multiplied by G < 2^14.
fn least_delay(cluster: &Cluster, place: usize, delays: &[i64]) -> Option<i64> {
    let bus = &cluster.bus;
    let message = &cluster.messages[place];
    let room = cluster.last_starts[&message.node] - message.frame + 1;
    let limit = message.deadline - message.releases.jitter;
    let mut sweep = sweep_of(cluster, place, delays);
    let mut from = 1;
    loop {
        let until = (sweep.next() - 1).min(limit);
        let blocked = sweep.filled / room + sweep.used;
        let right_side = (blocked + 1) * bus.cycle + (room - 1 + message.size) * bus.minislot - 1;
        if right_side <= until {
            return Some(from.max(right_side));
        }
        if right_side > limit {
            return None;
        }
        from = until + 1;
        sweep.advance(from);
    }
}

// Printing

fn answer(text: &[u8]) -> String {
    match read_table(text).and_then(sheet_of) {
        Ok(sheet) => {
            let mut out = String::from("FDS 0001\n");
            for line in sheet {
                out += &format!("{} {} {} {}\n", line.number, line.frame, line.delay, line.response);
            }
            out
        }
        Err(fault) => format!("E {} {}\n", fault.number, fault.line),
    }
}

fn main() -> io::Result<()> {
    let mut text = Vec::new();
    // One byte more than the limit is enough to see that the text is too long.
    io::stdin().lock().take(TEXT_LIMIT as u64 + 1).read_to_end(&mut text)?;
    io::stdout().lock().write_all(answer(&text).as_bytes())
}
