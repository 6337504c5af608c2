//! A twin of the proved fault simulation in plain Rust, to compare times with, and a serial simulator beside it.
//!
//!     rustc -C opt-level=3 --edition 2021 -o twin bench/twin.rs
//!     twin make DIR     writes the largest work: DIR/largest.bench, DIR/largest.faults, DIR/largest.vectors
//!     twin run DIR      reads it and prints, for `parallel`, `deductive` and `serial`: METHOD MICROSECONDS CHECKSUM
//!
//! Every method simulates all faults at all vectors. The time of `parallel` and `deductive` is the best of three runs, that
//! of `serial` is one run's.

use std::collections::HashMap;
use std::error::Error;
use std::fmt::Write as _;
use std::fs;
use std::ops::{BitAnd, BitOr, BitXor, Not};
use std::path::Path;
use std::process::ExitCode;
use std::time::Instant;

const MOST_LINES: usize = 1_024;
const MOST_PINS: usize = 4;
const MOST_LANES: usize = 64;

// Circuits and faults.

#[derive(Clone, Copy, PartialEq, Eq)]
enum Kind {
    And,
    Nand,
    Or,
    Nor,
    Xor,
    Xnor,
    Not,
    Buff,
}

const KINDS: [(Kind, &str); 8] = [
    (Kind::And, "AND"),
    (Kind::Nand, "NAND"),
    (Kind::Or, "OR"),
    (Kind::Nor, "NOR"),
    (Kind::Xor, "XOR"),
    (Kind::Xnor, "XNOR"),
    (Kind::Not, "NOT"),
    (Kind::Buff, "BUFF"),
];

impl Kind {
    /// What a pin that the gate lacks is taken to be, so that it does not matter.
    fn filler(self) -> bool {
        matches!(self, Kind::And | Kind::Nand)
    }

    /// The gate's value on four pins; a `bool` is one machine, a `u64` is 64 of them.
    fn value<T>(self, a: T, b: T, c: T, d: T) -> T
    where
        T: BitAnd<Output = T> + BitOr<Output = T> + BitXor<Output = T> + Not<Output = T>,
    {
        match self {
            Kind::And => a & b & c & d,
            Kind::Nand => !(a & b & c & d),
            Kind::Or => a | b | c | d,
            Kind::Nor => !(a | b | c | d),
            Kind::Xor => a ^ b ^ c ^ d,
            Kind::Xnor => !(a ^ b ^ c ^ d),
            Kind::Not => !a,
            Kind::Buff => a,
        }
    }
}

#[derive(Clone, Copy)]
struct Gate {
    kind: Kind,
    pins: [u16; MOST_PINS],
    count: u8,
}

#[derive(Clone, Copy)]
enum Line {
    Input(u8),
    Gate(Gate),
}

struct Circuit {
    lines: Vec<Line>,
    outputs: Vec<u16>,
}

#[derive(Clone, Copy, PartialEq, Eq)]
enum Site {
    Stem(u16),
    Pin(u16, u8),
}

impl Site {
    fn line(self) -> usize {
        match self {
            Site::Stem(line) | Site::Pin(line, _) => line as usize,
        }
    }
}

#[derive(Clone, Copy)]
struct Fault {
    site: Site,
    stuck: bool,
}

fn bit(vector: u64, input: u8) -> bool {
    vector >> input & 1 == 1
}

// Many machines at once.

/// The values of one line in several machines: lane 0 is the fault-free one, lanes 1 to K have a fault each.
trait Method: Copy {
    const K: usize;
    fn spread(bit: bool) -> Self;
    fn gate(kind: Kind, a: Self, b: Self, c: Self, d: Self) -> Self;
    fn stick(self, lane: usize, bit: bool) -> Self;
    fn look(self, lane: usize) -> bool;
}

fn spread_word(bit: bool) -> u64 {
    if bit {
        !0
    } else {
        0
    }
}

/// Lane l is bit l.
#[derive(Clone, Copy)]
struct Parallel(u64);

impl Method for Parallel {
    const K: usize = 63;

    fn spread(bit: bool) -> Self {
        Parallel(spread_word(bit))
    }

    fn gate(kind: Kind, a: Self, b: Self, c: Self, d: Self) -> Self {
        Parallel(kind.value(a.0, b.0, c.0, d.0))
    }

    fn stick(self, lane: usize, bit: bool) -> Self {
        let mask = 1u64 << lane;
        Parallel(if bit { self.0 | mask } else { self.0 & !mask })
    }

    fn look(self, lane: usize) -> bool {
        self.0 >> lane & 1 == 1
    }
}

/// The fault-free value, and the set of lanes that differ from it: lane l is bit l - 1.
#[derive(Clone, Copy)]
struct Deductive {
    good: bool,
    differ: u64,
}

impl Deductive {
    /// The values of the lanes 1 to 64.
    fn word(self) -> u64 {
        spread_word(self.good) ^ self.differ
    }
}

impl Method for Deductive {
    const K: usize = 64;

    fn spread(bit: bool) -> Self {
        Deductive { good: bit, differ: 0 }
    }

    fn gate(kind: Kind, a: Self, b: Self, c: Self, d: Self) -> Self {
        let good = kind.value(a.good, b.good, c.good, d.good);
        let word = kind.value(a.word(), b.word(), c.word(), d.word());
        Deductive { good, differ: word ^ spread_word(good) }
    }

    fn stick(self, lane: usize, bit: bool) -> Self {
        let mask = 1u64 << (lane - 1);
        let differ = if bit == self.good { self.differ & !mask } else { self.differ | mask };
        Deductive { differ, ..self }
    }

    fn look(self, lane: usize) -> bool {
        if lane == 0 {
            self.good
        } else {
            self.good ^ (self.differ >> (lane - 1) & 1 == 1)
        }
    }
}

/// The faults of a batch, the first in lane 1, chained by the lines they are at.
struct Batch<'a> {
    faults: &'a [Fault],
    /// The last lane with a fault at each line, or 0.
    heads: [u8; MOST_LINES],
    /// The lane before each lane at the same line, or 0.
    links: [u8; MOST_LANES + 1],
}

impl<'a> Batch<'a> {
    fn new(faults: &'a [Fault]) -> Self {
        let mut heads = [0; MOST_LINES];
        let mut links = [0; MOST_LANES + 1];
        for (place, fault) in faults.iter().enumerate() {
            let lane = place + 1;
            let line = fault.site.line();
            links[lane] = heads[line];
            heads[line] = lane as u8;
        }
        Batch { faults, heads, links }
    }

    /// The value with the lanes stuck whose fault, in the chain from the first lane, is at the site.
    fn hold<M: Method>(&self, mut value: M, first: u8, site: Site) -> M {
        let mut lane = first as usize;
        while lane != 0 {
            let fault = self.faults[lane - 1];
            if fault.site == site {
                value = value.stick(lane, fault.stuck);
            }
            lane = self.links[lane] as usize;
        }
        value
    }

    /// The values of all lines at a vector.
    fn evaluate<M: Method>(&self, circuit: &Circuit, vector: u64, work: &mut [M]) {
        for (number, line) in circuit.lines.iter().enumerate() {
            let first = self.heads[number];
            let number16 = number as u16;
            let value = match line {
                Line::Input(input) => M::spread(bit(vector, *input)),
                Line::Gate(gate) => {
                    let filler = M::spread(gate.kind.filler());
                    let free = |pin: u8| if pin < gate.count { work[gate.pins[pin as usize] as usize] } else { filler };
                    let held = |pin: u8| if pin < gate.count { self.hold(free(pin), first, Site::Pin(number16, pin)) } else { filler };
                    if first == 0 {
                        M::gate(gate.kind, free(0), free(1), free(2), free(3))
                    } else {
                        M::gate(gate.kind, held(0), held(1), held(2), held(3))
                    }
                }
            };
            work[number] = self.hold(value, first, Site::Stem(number16));
        }
    }
}

/// The output word of a lane.
fn word<M: Method>(circuit: &Circuit, work: &[M], lane: usize) -> u64 {
    let mut word = 0;
    for (place, line) in circuit.outputs.iter().enumerate() {
        word |= (work[*line as usize].look(lane) as u64) << place;
    }
    word
}

/// Fills the row with the fail word of each fault at a vector, and returns the fault-free word.
fn simulate<M: Method>(circuit: &Circuit, vector: u64, faults: &[Fault], work: &mut [M], row: &mut [u64]) -> u64 {
    let mut good = 0;
    for (faults, row) in faults.chunks(M::K).zip(row.chunks_mut(M::K)) {
        Batch::new(faults).evaluate(circuit, vector, work);
        good = word(circuit, work, 0);
        for (place, entry) in row.iter_mut().enumerate() {
            *entry = word(circuit, work, place + 1) ^ good;
        }
    }
    good
}

fn add_to_sum(sum: u64, good: u64, row: &[u64]) -> u64 {
    let add = |sum: u64, x: u64| sum.wrapping_mul(31).wrapping_add(x);
    row.iter().fold(add(sum, good), |sum, fail| add(sum, *fail))
}

fn by_batches<M: Method>(work: &Work) -> u64 {
    let mut values = vec![M::spread(false); work.circuit.lines.len()];
    let mut row = vec![0; work.faults.len()];
    work.vectors.iter().fold(0, |sum, vector| {
        let good = simulate(&work.circuit, *vector, &work.faults, &mut values, &mut row);
        add_to_sum(sum, good, &row)
    })
}

// One machine at a time.

/// The value of a line in a machine whose fault is elsewhere.
fn plain_value(line: &Line, vector: u64, values: &[bool]) -> bool {
    match line {
        Line::Input(input) => bit(vector, *input),
        Line::Gate(gate) => {
            let mut pins = [gate.kind.filler(); MOST_PINS];
            for (pin, from) in pins.iter_mut().zip(&gate.pins[..gate.count as usize]) {
                *pin = values[*from as usize];
            }
            gate.kind.value(pins[0], pins[1], pins[2], pins[3])
        }
    }
}

/// The value of the line that the fault is at.
fn faulty_value(line: &Line, fault: Fault, vector: u64, values: &[bool]) -> bool {
    match (fault.site, line) {
        (Site::Pin(_, stuck_pin), Line::Gate(gate)) => {
            let mut pins = [gate.kind.filler(); MOST_PINS];
            for (pin, from) in pins.iter_mut().zip(&gate.pins[..gate.count as usize]) {
                *pin = values[*from as usize];
            }
            pins[stuck_pin as usize] = fault.stuck;
            gate.kind.value(pins[0], pins[1], pins[2], pins[3])
        }
        (Site::Pin(..), Line::Input(_)) => plain_value(line, vector, values),
        (Site::Stem(_), _) => fault.stuck,
    }
}

/// The output word of one machine.
fn serial_word(circuit: &Circuit, vector: u64, fault: Option<Fault>, values: &mut [bool]) -> u64 {
    let site = fault.map_or(circuit.lines.len(), |fault| fault.site.line());
    for number in 0..site {
        values[number] = plain_value(&circuit.lines[number], vector, values);
    }
    if let Some(fault) = fault {
        values[site] = faulty_value(&circuit.lines[site], fault, vector, values);
        for number in site + 1..circuit.lines.len() {
            values[number] = plain_value(&circuit.lines[number], vector, values);
        }
    }
    let mut word = 0;
    for (place, line) in circuit.outputs.iter().enumerate() {
        word |= (values[*line as usize] as u64) << place;
    }
    word
}

fn serial(work: &Work) -> u64 {
    let mut values = vec![false; work.circuit.lines.len()];
    let mut row = vec![0; work.faults.len()];
    work.vectors.iter().fold(0, |sum, vector| {
        let good = serial_word(&work.circuit, *vector, None, &mut values);
        for (entry, fault) in row.iter_mut().zip(&work.faults) {
            *entry = serial_word(&work.circuit, *vector, Some(*fault), &mut values) ^ good;
        }
        add_to_sum(sum, good, &row)
    })
}

// Making the largest work.

struct Random(u64);

impl Random {
    fn next(&mut self) -> u64 {
        self.0 ^= self.0 << 13;
        self.0 ^= self.0 >> 7;
        self.0 ^= self.0 << 17;
        self.0.wrapping_mul(0x2545_f491_4f6c_dd1d)
    }

    /// A number from 0 up to, not with, the limit.
    fn below(&mut self, limit: usize) -> usize {
        ((self.next() >> 32) % limit as u64) as usize
    }
}

const INPUTS: usize = 64;
const OUTPUTS: usize = 63;
const FAULTS: usize = 2_048;
const VECTORS: usize = 512;
const SEED: u64 = 0x5afd_1985;

/// Three of four pins are fed by one of this many lines before the gate, the others by any earlier line.
const NEAR: usize = 128;

fn make_circuit(random: &mut Random) -> Circuit {
    let mut lines: Vec<Line> = (0..INPUTS).map(|input| Line::Input(input as u8)).collect();
    while lines.len() < MOST_LINES {
        let kind = KINDS[random.below(KINDS.len())].0;
        let count = if matches!(kind, Kind::Not | Kind::Buff) { 1 } else { 2 + random.below(3) };
        let mut pins = [0; MOST_PINS];
        for pin in &mut pins[..count] {
            let reach = if random.below(4) == 0 { lines.len() } else { NEAR.min(lines.len()) };
            *pin = (lines.len() - 1 - random.below(reach)) as u16;
        }
        lines.push(Line::Gate(Gate { kind, pins, count: count as u8 }));
    }
    let outputs = (MOST_LINES - OUTPUTS..MOST_LINES).map(|line| line as u16).collect();
    Circuit { lines, outputs }
}

/// Every fault: line by line the stem, then the pins, each stuck at 0 and then at 1.
fn all_faults(circuit: &Circuit) -> Vec<Fault> {
    let mut sites = Vec::new();
    for (number, line) in circuit.lines.iter().enumerate() {
        sites.push(Site::Stem(number as u16));
        if let Line::Gate(gate) = line {
            sites.extend((0..gate.count).map(|pin| Site::Pin(number as u16, pin)));
        }
    }
    sites.iter().flat_map(|site| [false, true].map(|stuck| Fault { site: *site, stuck })).collect()
}

/// A choice of so many faults, in their order.
fn choose(all: &[Fault], wanted: usize, random: &mut Random) -> Vec<Fault> {
    let mut chosen = Vec::new();
    for (place, fault) in all.iter().enumerate() {
        if random.below(all.len() - place) < wanted - chosen.len() {
            chosen.push(*fault);
        }
    }
    chosen
}

fn name(circuit: &Circuit, line: u16) -> String {
    match circuit.lines[line as usize] {
        Line::Input(input) => format!("i{}", input),
        Line::Gate(_) => format!("g{}", line),
    }
}

fn netlist_text(circuit: &Circuit) -> String {
    let mut text = String::new();
    for (number, line) in circuit.lines.iter().enumerate() {
        let driven = name(circuit, number as u16);
        match line {
            Line::Input(_) => writeln!(text, "INPUT({})", driven).unwrap(),
            Line::Gate(gate) => {
                let kind = KINDS.iter().find(|entry| entry.0 == gate.kind).unwrap().1;
                let pins: Vec<String> = gate.pins[..gate.count as usize].iter().map(|pin| name(circuit, *pin)).collect();
                writeln!(text, "{} = {}({})", driven, kind, pins.join(", ")).unwrap();
            }
        }
    }
    for output in &circuit.outputs {
        writeln!(text, "OUTPUT({})", name(circuit, *output)).unwrap();
    }
    text
}

fn faults_text(circuit: &Circuit, faults: &[Fault]) -> String {
    let mut text = String::new();
    for fault in faults {
        match fault.site {
            Site::Stem(line) => writeln!(text, "{}/{}", name(circuit, line), fault.stuck as u8).unwrap(),
            Site::Pin(line, pin) => writeln!(text, "{}.{}/{}", name(circuit, line), pin, fault.stuck as u8).unwrap(),
        }
    }
    text
}

fn vectors_text(vectors: &[u64]) -> String {
    let mut text = String::new();
    for vector in vectors {
        text.extend((0..INPUTS as u8).map(|input| if bit(*vector, input) { '1' } else { '0' }));
        text.push('\n');
    }
    text
}

fn make(folder: &Path) -> Result<(), Box<dyn Error>> {
    let mut random = Random(SEED);
    let circuit = make_circuit(&mut random);
    let faults = choose(&all_faults(&circuit), FAULTS, &mut random);
    let vectors: Vec<u64> = (0..VECTORS).map(|_| random.next()).collect();
    fs::write(folder.join("largest.bench"), netlist_text(&circuit))?;
    fs::write(folder.join("largest.faults"), faults_text(&circuit, &faults))?;
    fs::write(folder.join("largest.vectors"), vectors_text(&vectors))?;
    Ok(())
}

// Reading it.

struct Work {
    circuit: Circuit,
    faults: Vec<Fault>,
    vectors: Vec<u64>,
}

/// The lines of a text without comments and blanks around, those that are not empty.
fn items(text: &str) -> impl Iterator<Item = &str> {
    text.lines().map(|line| line.split('#').next().unwrap_or("").trim()).filter(|line| !line.is_empty())
}

fn read_netlist(text: &str) -> Result<(Circuit, HashMap<&str, u16>), Box<dyn Error>> {
    let mut lines = Vec::new();
    let mut shown = Vec::new();
    let mut numbers: HashMap<&str, u16> = HashMap::new();
    let mut inputs = 0;
    for item in items(text) {
        let (head, rest) = item.split_once('(').ok_or("a statement without (")?;
        let (inside, _) = rest.split_once(')').ok_or("a statement without )")?;
        if let Some((driven, kind)) = head.split_once('=') {
            let kind = KINDS.iter().find(|entry| entry.1 == kind.trim()).ok_or("an unknown kind")?.0;
            let mut gate = Gate { kind, pins: [0; MOST_PINS], count: 0 };
            for pin in inside.split(',') {
                *gate.pins.get_mut(gate.count as usize).ok_or("too many pins")? =
                    *numbers.get(pin.trim()).ok_or("a pin fed by no line")?;
                gate.count += 1;
            }
            numbers.insert(driven.trim(), lines.len() as u16);
            lines.push(Line::Gate(gate));
        } else if head.trim() == "INPUT" {
            numbers.insert(inside.trim(), lines.len() as u16);
            lines.push(Line::Input(inputs));
            inputs += 1;
        } else {
            shown.push(inside.trim());
        }
    }
    if lines.len() > MOST_LINES {
        return Err("too many lines".into());
    }
    let mut outputs = Vec::new();
    for name in shown {
        outputs.push(*numbers.get(name).ok_or("an output of no line")?);
    }
    Ok((Circuit { lines, outputs }, numbers))
}

fn read_fault(item: &str, circuit: &Circuit, numbers: &HashMap<&str, u16>) -> Result<Fault, Box<dyn Error>> {
    let (place, value) = item.split_once('/').ok_or("a fault without /")?;
    let number = |name: &str| numbers.get(name.trim()).copied().ok_or("a fault at no line");
    let site = match place.split_once('.') {
        None => Site::Stem(number(place)?),
        Some((name, pin)) => {
            let line = number(name)?;
            let pin: u8 = pin.trim().parse()?;
            match circuit.lines[line as usize] {
                Line::Gate(gate) if pin < gate.count => Site::Pin(line, pin),
                _ => return Err("a fault at no pin".into()),
            }
        }
    };
    Ok(Fault { site, stuck: value == "1" })
}

fn read_vector(item: &str) -> u64 {
    item.bytes().enumerate().fold(0, |vector, (input, digit)| vector | ((digit == b'1') as u64) << input)
}

fn read(folder: &Path) -> Result<Work, Box<dyn Error>> {
    let text = |name: &str| fs::read_to_string(folder.join(name));
    let netlist = text("largest.bench")?;
    let (circuit, numbers) = read_netlist(&netlist)?;
    let mut faults = Vec::new();
    for item in items(&text("largest.faults")?) {
        faults.push(read_fault(item, &circuit, &numbers)?);
    }
    let vectors = items(&text("largest.vectors")?).map(read_vector).collect();
    Ok(Work { circuit, faults, vectors })
}

/// Runs a method several times and prints its best time and its checksum.
fn time(method: &str, runs: usize, work: &Work, simulate: fn(&Work) -> u64) {
    let mut best = u128::MAX;
    let mut sum = 0;
    for _ in 0..runs {
        let start = Instant::now();
        sum = simulate(work);
        best = best.min(start.elapsed().as_micros());
    }
    println!("{} {} {}", method, best, sum);
}

fn run(folder: &Path) -> Result<(), Box<dyn Error>> {
    let work = read(folder)?;
    time("parallel", 3, &work, by_batches::<Parallel>);
    time("deductive", 3, &work, by_batches::<Deductive>);
    time("serial", 1, &work, serial);
    Ok(())
}

fn main() -> ExitCode {
    let words: Vec<String> = std::env::args().skip(1).collect();
    let words: Vec<&str> = words.iter().map(String::as_str).collect();
    let done = match words[..] {
        ["make", folder] => make(Path::new(folder)),
        ["run", folder] => run(Path::new(folder)),
        _ => Err("usage: twin make DIR, or twin run DIR".into()),
    };
    match done {
        Ok(()) => ExitCode::SUCCESS,
        Err(error) => {
            eprintln!("twin: {}", error);
            ExitCode::FAILURE
        }
    }
}
