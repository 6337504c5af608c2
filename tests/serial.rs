//! Tests the program that simulates (`safd_next`) on random circuits against a plain serial simulator: one machine and one vector at a time.
//!
//!     rustc -O --edition 2021 -o serial tests/serial.rs
//!     serial SAFD [--circuits N] [--seed S] [--jobs J]
//!
//! Circuit number i is made from the seed S + i alone, so `--circuits 1 --seed X` tries the circuit of seed X again.
//! On each circuit it runs
//!
//!     SAFD faults NETLIST                      against its own list of faults
//!     SAFD simulate NETLIST VECTORS            against its own log of the fault-free machine
//!     SAFD simulate NETLIST VECTORS FAULT      the same with a fault, for three faults
//!     SAFD bench NETLIST FAULTS VECTORS        against the checksum of all machines of a list of faults
//!     one of them on a wrong text, twice       which must fail and print nothing
//!
//! Lines of the output that begin with `#` are remarks and are left out of the comparison.

use std::collections::HashSet;
use std::fmt::Write as _;
use std::fs;
use std::path::{Path, PathBuf};
use std::process::{exit, Command};
use std::sync::atomic::{AtomicU64, Ordering};
use std::sync::Mutex;
use std::thread;

const LONGEST_NETLIST: usize = 65_536;
const MOST_LINES: usize = 1_024;
const MOST_INPUTS: usize = 64;
const MOST_OUTPUTS: usize = 63;
const MOST_FAULTS: usize = 2_048;
const LONGEST_NAME: usize = 16;
const SIMULATED_FAULTS: usize = 3;
const WRONG_TEXTS: usize = 2;

/// The list of faults for `bench` is cut so that its machines evaluate about this many lines at most.
const BENCH_WORK: usize = 8_000_000;

// Circuits, faults and what their machines show.

#[derive(Clone, Copy, PartialEq, Eq)]
enum Kind {
    And,
    Nand,
    Or,
    Nor,
    Xor,
    Xnor,
    Not,
    Buff,
}

const KINDS: [(Kind, &str); 8] = [
    (Kind::And, "AND"),
    (Kind::Nand, "NAND"),
    (Kind::Or, "OR"),
    (Kind::Nor, "NOR"),
    (Kind::Xor, "XOR"),
    (Kind::Xnor, "XNOR"),
    (Kind::Not, "NOT"),
    (Kind::Buff, "BUFF"),
];

enum Driver {
    Input,
    /// A gate, and the lines that feed its pins.
    Gate(Kind, Vec<usize>),
}

struct Line {
    name: String,
    driver: Driver,
}

struct Circuit {
    lines: Vec<Line>,
    /// The line that each output shows.
    outputs: Vec<usize>,
}

impl Circuit {
    fn inputs(&self) -> usize {
        self.lines.iter().filter(|line| matches!(line.driver, Driver::Input)).count()
    }

    /// The lines that feed the pins of the gate that drives this line; none for an input.
    fn pins(&self, line: usize) -> &[usize] {
        match &self.lines[line].driver {
            Driver::Input => &[],
            Driver::Gate(_, pins) => pins,
        }
    }

    fn name(&self, line: usize) -> &str {
        &self.lines[line].name
    }

    fn has_name(&self, name: &str) -> bool {
        self.lines.iter().any(|line| line.name == name)
    }
}

#[derive(Clone, Copy, PartialEq, Eq)]
enum Site {
    Stem(usize),
    /// A line and a pin of the gate that drives it.
    Pin(usize, usize),
}

#[derive(Clone, Copy, PartialEq, Eq)]
struct Fault {
    site: Site,
    stuck: bool,
}

/// Every fault: line by line the stem, then the pins, each stuck at 0 and then at 1.
fn all_faults(circuit: &Circuit) -> Vec<Fault> {
    let mut faults = Vec::new();
    for line in 0..circuit.lines.len() {
        for stuck in [false, true] {
            faults.push(Fault { site: Site::Stem(line), stuck });
        }
        for pin in 0..circuit.pins(line).len() {
            for stuck in [false, true] {
                faults.push(Fault { site: Site::Pin(line, pin), stuck });
            }
        }
    }
    faults
}

/// What the outputs of one machine show at one vector.
fn outputs(circuit: &Circuit, vector: &[bool], fault: Option<Fault>) -> Vec<bool> {
    let stuck_at = |site: Site| match fault {
        Some(fault) if fault.site == site => Some(fault.stuck),
        _ => None,
    };
    let mut bits = vector.iter();
    let mut values: Vec<bool> = Vec::with_capacity(circuit.lines.len());
    for (number, line) in circuit.lines.iter().enumerate() {
        let value = match &line.driver {
            Driver::Input => *bits.next().expect("a bit for each input"),
            Driver::Gate(kind, pins) => {
                let mut ones = 0;
                for (pin, from) in pins.iter().enumerate() {
                    if stuck_at(Site::Pin(number, pin)).unwrap_or(values[*from]) {
                        ones += 1;
                    }
                }
                match kind {
                    Kind::And => ones == pins.len(),
                    Kind::Nand => ones != pins.len(),
                    Kind::Or => ones > 0,
                    Kind::Nor => ones == 0,
                    Kind::Xor => ones % 2 == 1,
                    Kind::Xnor => ones % 2 == 0,
                    Kind::Not => ones == 0,
                    Kind::Buff => ones == 1,
                }
            }
        };
        values.push(stuck_at(Site::Stem(number)).unwrap_or(value));
    }
    circuit.outputs.iter().map(|line| values[*line]).collect()
}

/// Output j at bit j.
fn word(bits: &[bool]) -> u64 {
    let mut word = 0;
    for (place, bit) in bits.iter().enumerate() {
        if *bit {
            word += 1u64 << place;
        }
    }
    word
}

/// The checksum that `bench` prints: at each vector the fault-free word, then the fail word of each fault.
fn checksum(circuit: &Circuit, vectors: &[Vec<bool>], faults: &[Fault]) -> u64 {
    let mut sum: u64 = 0;
    for vector in vectors {
        let good = word(&outputs(circuit, vector, None));
        sum = sum.wrapping_mul(31).wrapping_add(good);
        for fault in faults {
            let fail = word(&outputs(circuit, vector, Some(*fault))) ^ good;
            sum = sum.wrapping_mul(31).wrapping_add(fail);
        }
    }
    sum
}

/// Whether some vector shows the fault at an output.
fn shows(circuit: &Circuit, vectors: &[Vec<bool>], fault: Fault) -> bool {
    vectors.iter().any(|vector| outputs(circuit, vector, Some(fault)) != outputs(circuit, vector, None))
}

// Texts.

fn digits(bits: &[bool]) -> String {
    bits.iter().map(|bit| if *bit { '1' } else { '0' }).collect()
}

fn log(circuit: &Circuit, vectors: &[Vec<bool>], fault: Option<Fault>) -> String {
    let mut text = String::new();
    for vector in vectors {
        text += &format!("{} {}\n", digits(vector), digits(&outputs(circuit, vector, fault)));
    }
    text
}

/// The notation that `faults` prints.
fn notation(circuit: &Circuit, fault: Fault) -> String {
    let value = fault.stuck as u8;
    match fault.site {
        Site::Stem(line) => format!("{}/{}", circuit.name(line), value),
        Site::Pin(line, pin) => format!("{}.{}/{}", circuit.name(line), pin, value),
    }
}

/// A notation of the fault, any of those that are read.
fn any_notation(circuit: &Circuit, fault: Fault, random: &mut Random) -> String {
    let value = fault.stuck as u8;
    let blanks = random.pick(&["", "", "", " ", "\t", "  ", " \t "]);
    match fault.site {
        Site::Stem(line) => format!("{}{}/{}", circuit.name(line), blanks, value),
        Site::Pin(line, pin) => {
            let pins = circuit.pins(line);
            let alone = pins.iter().filter(|from| **from == pins[pin]).count() == 1;
            if alone && random.chance(1, 2) {
                format!("{}->{}{}/{}", circuit.name(pins[pin]), circuit.name(line), blanks, value)
            } else {
                format!("{}.{}{}/{}", circuit.name(line), pin, blanks, value)
            }
        }
    }
}

/// How a text is laid out.
struct Layout {
    blanks: bool,
    comments: bool,
    line_end: &'static str,
    last_line_ends: bool,
}

impl Layout {
    fn plain() -> Layout {
        Layout { blanks: false, comments: false, line_end: "\n", last_line_ends: true }
    }

    fn any(random: &mut Random) -> Layout {
        Layout {
            blanks: random.chance(1, 3),
            comments: random.chance(1, 3),
            line_end: if random.chance(1, 4) { "\r\n" } else { "\n" },
            last_line_ends: !random.chance(1, 8),
        }
    }

    fn blanks(&self, random: &mut Random) -> &'static str {
        if self.blanks {
            random.pick(&["", "", " ", "\t", "  ", "\t "])
        } else {
            ""
        }
    }

    fn comment(&self, random: &mut Random) -> &'static str {
        random.pick(&["#", "# a comment", "#INPUT(no)", "## 0101 = # (no/0", "#\t1"])
    }

    /// The items one a line, with blanks around them, empty lines and comments between and behind them.
    fn text(&self, items: &[String], random: &mut Random) -> String {
        let mut lines = Vec::new();
        for item in items {
            if self.comments && random.chance(1, 6) {
                lines.push(format!("{}{}", self.blanks(random), self.comment(random)));
            }
            if self.blanks && random.chance(1, 6) {
                lines.push(self.blanks(random).to_string());
            }
            let mut line = format!("{}{}{}", self.blanks(random), item, self.blanks(random));
            if self.comments && random.chance(1, 6) {
                line += self.comment(random);
            }
            lines.push(line);
        }
        let mut text = lines.join(self.line_end);
        if self.last_line_ends {
            text += self.line_end;
        }
        text
    }
}

/// The statements of a circuit; each output's statement is put before the line of the place that belongs to it.
fn statements(circuit: &Circuit, output_places: &[usize], layout: &Layout, random: &mut Random) -> Vec<String> {
    let mut gap = |plain: &'static str| if layout.blanks { layout.blanks(random) } else { plain };
    let mut statements = Vec::new();
    let mut shown = 0;
    for place in 0..=circuit.lines.len() {
        while shown < output_places.len() && output_places[shown] == place {
            let name = circuit.name(circuit.outputs[shown]);
            statements.push(format!("OUTPUT{}({}{}{})", gap(""), gap(""), name, gap("")));
            shown += 1;
        }
        let line = match circuit.lines.get(place) {
            Some(line) => line,
            None => break,
        };
        match &line.driver {
            Driver::Input => statements.push(format!("INPUT{}({}{}{})", gap(""), gap(""), line.name, gap(""))),
            Driver::Gate(kind, pins) => {
                let word = KINDS.iter().find(|entry| entry.0 == *kind).expect("a word for each kind").1;
                let mut text = format!("{}{}={}{}{}(", line.name, gap(" "), gap(" "), word, gap(""));
                for (pin, from) in pins.iter().enumerate() {
                    if pin > 0 {
                        text += &format!(",{}", gap(" "));
                    }
                    text += &format!("{}{}{}", gap(""), circuit.name(*from), gap(""));
                }
                statements.push(text + ")");
            }
        }
    }
    statements
}

// Random circuits, vectors and faults.

struct Random(u64);

impl Random {
    fn next(&mut self) -> u64 {
        self.0 = self.0.wrapping_add(0x9e37_79b9_7f4a_7c15);
        let mut x = self.0;
        x = (x ^ (x >> 30)).wrapping_mul(0xbf58_476d_1ce4_e5b9);
        x = (x ^ (x >> 27)).wrapping_mul(0x94d0_49bb_1331_11eb);
        x ^ (x >> 31)
    }

    /// A number from 0 up to, not with, the limit.
    fn below(&mut self, limit: usize) -> usize {
        (self.next() % limit as u64) as usize
    }

    /// A number from the first to the last.
    fn between(&mut self, first: usize, last: usize) -> usize {
        first + self.below(last - first + 1)
    }

    fn chance(&mut self, part: usize, whole: usize) -> bool {
        self.below(whole) < part
    }

    fn pick<T: Copy>(&mut self, from: &[T]) -> T {
        from[self.below(from.len())]
    }

    fn shuffle<T>(&mut self, items: &mut [T]) {
        for place in (1..items.len()).rev() {
            items.swap(place, self.below(place + 1));
        }
    }
}

/// Inputs, gates and outputs of the circuit of a seed. The seed's remainder by 16 tells the sort, so that 16 seeds in a row
/// try every sort.
fn size(seed: u64, random: &mut Random) -> (usize, usize, usize) {
    let outputs = random.between(1, MOST_OUTPUTS);
    match seed % 16 {
        0 => (1, 0, random.between(1, 3)),
        1 => (MOST_INPUTS, MOST_LINES - MOST_INPUTS, MOST_OUTPUTS),
        2 => (1, MOST_LINES - 1, outputs),
        3 => {
            let inputs = random.between(1, MOST_INPUTS);
            (inputs, MOST_LINES - inputs, outputs)
        }
        4 => (MOST_INPUTS, random.between(0, 40), outputs),
        5 => (random.between(1, 6), random.between(0, 10), MOST_OUTPUTS),
        6 => (random.between(1, MOST_INPUTS), 0, outputs),
        7 | 8 => (random.between(1, MOST_INPUTS), random.between(1, 400), outputs),
        9 => (random.between(1, 3), random.between(1, 4), random.between(1, 2)),
        _ => (random.between(1, 10), random.between(1, 60), random.between(1, 12)),
    }
}

fn make_circuit(seed: u64, random: &mut Random) -> Circuit {
    let (inputs, gates, outputs) = size(seed, random);
    let mut is_input: Vec<bool> = (0..inputs + gates).map(|line| line < inputs).collect();
    if random.chance(1, 4) {
        random.shuffle(&mut is_input[1..]);
    }
    let near = random.pick(&[4, 20, 100, MOST_LINES]);
    let mut lines = Vec::new();
    for number in 0..is_input.len() {
        let driver = if is_input[number] {
            Driver::Input
        } else {
            let kind = random.pick(&KINDS).0;
            let count = if matches!(kind, Kind::Not | Kind::Buff) { 1 } else { random.between(2, 4) };
            let mut pins: Vec<usize> = Vec::new();
            while pins.len() < count {
                let from = if !pins.is_empty() && random.chance(1, 12) {
                    pins[random.below(pins.len())]
                } else if random.chance(1, 4) {
                    random.below(number)
                } else {
                    random.between(number.saturating_sub(near), number - 1)
                };
                pins.push(from);
            }
            Driver::Gate(kind, pins)
        };
        lines.push(Line { name: String::new(), driver });
    }
    // An output shows any line, or one of the last, or the line that the output before it shows.
    let last = is_input.len() - 1;
    let mut shown: Vec<usize> = Vec::new();
    while shown.len() < outputs {
        let line = if !shown.is_empty() && random.chance(1, 12) {
            shown[shown.len() - 1]
        } else if random.chance(1, 3) {
            random.below(last + 1)
        } else {
            random.between(last.saturating_sub(2 * outputs), last)
        };
        shown.push(line);
    }
    Circuit { lines, outputs: shown }
}

const NAME_BYTES: &[u8] = b"ABCDEFGHIJKLMNOPQRSTUVWXYZabcdefghijklmnopqrstuvwxyz0123456789_";

fn random_name(longest: usize, random: &mut Random) -> String {
    let length = random.between(1, longest);
    (0..length).map(|_| random.pick(NAME_BYTES) as char).collect()
}

/// Gives each line a name of its own, now and then a word of the notation or a name that continues another.
fn name_lines(circuit: &mut Circuit, longest: usize, random: &mut Random) {
    let mut used: HashSet<String> = HashSet::new();
    let mut before = String::new();
    for line in &mut circuit.lines {
        let gate = matches!(line.driver, Driver::Gate(..));
        loop {
            let name = match random.below(40) {
                0 => random.pick(&["INPUT", "OUTPUT", "AND", "BUFF", "0", "1", "01", "_", "and"]).to_string(),
                1 | 2 => format!("{}{}", before, random.pick(NAME_BYTES) as char),
                _ => random_name(longest, random),
            };
            // A statement that begins with INPUT or OUTPUT drives no gate.
            let keyword = name == "INPUT" || name == "OUTPUT";
            if name.len() <= LONGEST_NAME && !(gate && keyword) && used.insert(name.clone()) {
                before = name.clone();
                line.name = name;
                break;
            }
        }
    }
}

/// Names the circuit's lines and writes it down, in a text that is not too long.
fn write_netlist(circuit: &mut Circuit, random: &mut Random) -> String {
    let lines = circuit.lines.len();
    let places = circuit.outputs.len();
    for longest in [LONGEST_NAME, 9, 5] {
        name_lines(circuit, longest, random);
        let output_places = match random.below(4) {
            0 => vec![0; places],
            1 => vec![lines; places],
            _ => {
                let mut some: Vec<usize> = (0..places).map(|_| random.below(lines + 1)).collect();
                some.sort();
                some
            }
        };
        for layout in [Layout::any(random), Layout::plain()] {
            let items = statements(circuit, &output_places, &layout, random);
            let text = layout.text(&items, random);
            if text.len() <= LONGEST_NETLIST {
                return text;
            }
        }
    }
    panic!("no short names for the circuit");
}

fn make_vectors(inputs: usize, random: &mut Random) -> Vec<Vec<bool>> {
    let count = random.between(1, 20);
    let mut vectors: Vec<Vec<bool>> = Vec::new();
    for number in 0..count {
        vectors.push(match number {
            1 => vec![false; inputs],
            2 => vec![true; inputs],
            _ => (0..inputs).map(|_| random.chance(1, 2)).collect(),
        });
    }
    random.shuffle(&mut vectors);
    vectors
}

/// Faults to simulate each by itself; two of three are looked for among those that show.
fn choose_faults(circuit: &Circuit, vectors: &[Vec<bool>], all: &[Fault], random: &mut Random) -> Vec<Fault> {
    let mut chosen = Vec::new();
    for number in 0..SIMULATED_FAULTS {
        let mut fault = random.pick(all);
        let mut tries = 0;
        while number % 3 != 2 && tries < 20 && !shows(circuit, vectors, fault) {
            fault = random.pick(all);
            tries += 1;
        }
        chosen.push(fault);
    }
    chosen
}

/// Distinct faults for `bench`, in the order of the full list or in any.
fn choose_list(circuit: &Circuit, vectors: &[Vec<bool>], all: &[Fault], random: &mut Random) -> Vec<Fault> {
    let most = (BENCH_WORK / (circuit.lines.len() * vectors.len())).clamp(1, MOST_FAULTS);
    let wanted = match random.below(3) {
        0 => random.pick(&[1, 2, 62, 63, 64, 65, 126, 127, 128, 129, 189, 192]),
        1 => random.between(1, all.len()),
        _ => all.len(),
    };
    let mut numbers: Vec<usize> = (0..all.len()).collect();
    random.shuffle(&mut numbers);
    numbers.truncate(wanted.min(most));
    if random.chance(1, 2) {
        numbers.sort();
    }
    numbers.iter().map(|number| all[*number]).collect()
}

// Wrong texts.

/// A vector that is none, if there is one of this sort.
fn wrong_vector(inputs: usize, random: &mut Random) -> Option<Vec<u8>> {
    let bits: Vec<bool> = (0..inputs).map(|_| random.chance(1, 2)).collect();
    let mut text = digits(&bits).into_bytes();
    match random.below(4) {
        0 => {
            // One digit alone would leave an empty line, which is no wrong one.
            if inputs < 2 {
                return None;
            }
            text.truncate(random.between(1, inputs - 1));
        }
        1 => {
            for _ in 0..random.between(1, 3) {
                text.push(random.pick(b"01"));
            }
        }
        2 => text[random.below(inputs)] = random.pick(&[b'2', b'x', b'X', b'O', b'-', b'/', b'.', b'_', 0, 0xb1]),
        _ => {
            if inputs < 2 {
                return None;
            }
            text.insert(random.between(1, inputs - 1), random.pick(b" \tx,"));
        }
    }
    Some(text)
}

/// A name that no line has, often near to one that a line has.
fn unknown_name(circuit: &Circuit, random: &mut Random) -> String {
    loop {
        let near = circuit.name(random.below(circuit.lines.len())).to_string();
        let name = match random.below(5) {
            0 => near[..near.len() - 1].to_string(),
            1 => format!("{}{}", near, random.pick(NAME_BYTES) as char),
            2 => near.to_lowercase(),
            3 => "long_and_unknown_name".to_string(),
            _ => random_name(LONGEST_NAME, random),
        };
        if !name.is_empty() && !circuit.has_name(&name) {
            return name;
        }
    }
}

/// The notation of no fault, if there is one of this sort.
fn wrong_fault(circuit: &Circuit, random: &mut Random) -> Option<String> {
    let lines = circuit.lines.len();
    let line = random.below(lines);
    let other = random.below(lines);
    let name = circuit.name(line);
    let pins = circuit.pins(line);
    let value = random.pick(&["0", "1"]);
    let blanks = random.pick(&["", " "]);
    Some(match random.below(12) {
        0 => format!("{}{}/{}", unknown_name(circuit, random), blanks, value),
        1 => format!("{}.0{}/{}", unknown_name(circuit, random), blanks, value),
        2 => format!("{}.{}{}/{}", name, pins.len() + random.below(3), blanks, value),
        3 => {
            let far = random.pick(&["9", "16", "256", "65536", "4294967296", "18446744073709551616"]);
            format!("{}.{}{}/{}", name, far, blanks, value)
        }
        4 => format!("{}.{}/{}", name, random.pick(&["", "x", "-1"]), value),
        5 => {
            let twice = (0..lines).find_map(|to| {
                let pins = circuit.pins(to);
                let from = pins.iter().find(|from| pins.iter().filter(|same| same == from).count() > 1)?;
                Some((*from, to))
            });
            let (from, to) = twice?;
            format!("{}->{}{}/{}", circuit.name(from), circuit.name(to), blanks, value)
        }
        6 | 7 => {
            if pins.contains(&other) {
                return None;
            }
            format!("{}->{}{}/{}", circuit.name(other), name, blanks, value)
        }
        8 => format!("{}->{}{}/{}", unknown_name(circuit, random), name, blanks, value),
        9 => format!("{}->{}{}/{}", name, unknown_name(circuit, random), blanks, value),
        10 => {
            let site = if pins.is_empty() || random.chance(1, 2) {
                name.to_string()
            } else {
                format!("{}.{}", name, random.below(pins.len()))
            };
            format!("{}{}", site, random.pick(&["", "/", " /"]))
        }
        _ => format!("{}/{}", name, random.pick(&["2", "x", "00", "10", "1x", "-1", "/1"])),
    })
}

// Running the program.

struct Run {
    command: String,
    status: Option<i32>,
    output: Vec<u8>,
    errors: Vec<u8>,
}

fn run(program: &str, arguments: &[&str]) -> Run {
    match Command::new(program).args(arguments).output() {
        Ok(done) => Run {
            command: format!("{} {:?}", program, arguments),
            status: done.status.code(),
            output: done.stdout,
            errors: done.stderr,
        },
        Err(error) => {
            eprintln!("serial: cannot run {}: {}", program, error);
            exit(2);
        }
    }
}

fn without_remarks(output: &[u8]) -> Vec<u8> {
    output.split_inclusive(|byte| *byte == b'\n').filter(|line| !line.starts_with(b"#")).flatten().copied().collect()
}

struct Difference {
    run: Run,
    expected: String,
}

/// The program must succeed and print this text.
fn must_print(run: Run, expected: String) -> Result<(), Difference> {
    if run.status == Some(0) && without_remarks(&run.output) == expected.as_bytes() {
        Ok(())
    } else {
        Err(Difference { run, expected: format!("status 0 and\n{}", expected) })
    }
}

/// The program must fail by itself, not be killed, and print nothing.
fn must_fail(run: Run) -> Result<(), Difference> {
    match run.status {
        Some(status) if status != 0 && run.output.is_empty() => Ok(()),
        _ => Err(Difference { run, expected: "a status that is not 0, and no output\n".to_string() }),
    }
}

/// The program must print this checksum for both methods, and some time.
fn must_sum(run: Run, sum: u64) -> Result<(), Difference> {
    let text = String::from_utf8_lossy(&run.output).into_owned();
    let lines: Vec<Vec<&str>> = text.lines().map(|line| line.split(' ').collect()).collect();
    let fits = |line: &[&str], method: &str| {
        line.len() == 3 && line[0] == method && line[1].parse::<u64>().is_ok() && line[2] == sum.to_string()
    };
    if run.status == Some(0) && lines.len() == 2 && fits(&lines[0], "parallel") && fits(&lines[1], "deductive") {
        Ok(())
    } else {
        let expected = format!("status 0 and\nparallel MICROSECONDS {}\ndeductive MICROSECONDS {}\n", sum, sum);
        Err(Difference { run, expected })
    }
}

#[derive(Default)]
struct Counts {
    machines: u64,
    vectors: u64,
}

fn write(path: &Path, text: &[u8]) -> String {
    if let Err(error) = fs::write(path, text) {
        eprintln!("serial: cannot write {}: {}", path.display(), error);
        exit(2);
    }
    path.to_str().expect("a path of characters").to_string()
}

/// Tries the circuit of one seed, with its files in the folder.
fn try_seed(program: &str, seed: u64, folder: &Path) -> Result<Counts, Difference> {
    let random = &mut Random(seed.wrapping_mul(0xd134_2543_de82_ef95));
    random.next();
    let mut circuit = make_circuit(seed, random);
    let netlist = write(&folder.join("netlist"), write_netlist(&mut circuit, random).as_bytes());
    let inputs = circuit.inputs();
    let vectors = make_vectors(inputs, random);
    let vector_items: Vec<String> = vectors.iter().map(|vector| digits(vector)).collect();
    let vector_file = write(&folder.join("vectors"), Layout::any(random).text(&vector_items, random).as_bytes());
    let all = all_faults(&circuit);
    let list = choose_list(&circuit, &vectors, &all, random);
    let list_items: Vec<String> = list.iter().map(|fault| any_notation(&circuit, *fault, random)).collect();
    let list_file = write(&folder.join("faults"), Layout::any(random).text(&list_items, random).as_bytes());

    let every: String = all.iter().map(|fault| notation(&circuit, *fault) + "\n").collect();
    must_print(run(program, &["faults", &netlist]), every)?;

    must_print(run(program, &["simulate", &netlist, &vector_file]), log(&circuit, &vectors, None))?;
    for fault in choose_faults(&circuit, &vectors, &all, random) {
        let text = any_notation(&circuit, fault, random);
        let expected = log(&circuit, &vectors, Some(fault));
        must_print(run(program, &["simulate", &netlist, &vector_file, &text]), expected)?;
    }

    let sum = checksum(&circuit, &vectors, &list);
    must_sum(run(program, &["bench", &netlist, &list_file, &vector_file]), sum)?;

    for _ in 0..WRONG_TEXTS {
        if random.chance(1, 3) {
            let wrong = match wrong_vector(inputs, random) {
                Some(wrong) => wrong,
                None => continue,
            };
            let mut lines: Vec<Vec<u8>> = vector_items.iter().map(|item| item.clone().into_bytes()).collect();
            lines.insert(random.below(lines.len() + 1), wrong);
            let file = write(&folder.join("wrong_vectors"), &lines.join(&b'\n'));
            must_fail(run(program, &["simulate", &netlist, &file]))?;
        } else {
            let wrong = match wrong_fault(&circuit, random) {
                Some(wrong) => wrong,
                None => continue,
            };
            if random.chance(1, 3) {
                let mut items = list_items.clone();
                // Room for the wrong one, so that it is all that is wrong.
                items.truncate(MOST_FAULTS - 1);
                items.insert(random.below(items.len() + 1), wrong);
                let file = write(&folder.join("wrong_faults"), Layout::plain().text(&items, random).as_bytes());
                must_fail(run(program, &["bench", &netlist, &file, &vector_file]))?;
            } else {
                must_fail(run(program, &["simulate", &netlist, &vector_file, &wrong]))?;
            }
        }
    }

    Ok(Counts { machines: (1 + SIMULATED_FAULTS + list.len()) as u64, vectors: vectors.len() as u64 })
}

/// What is shown of a text on the screen: all, or its beginning where it is long.
fn shown(text: &str, file: &Path) -> String {
    const MOST: usize = 8_000;
    if text.len() <= MOST {
        return text.to_string();
    }
    let mut end = MOST;
    while !text.is_char_boundary(end) {
        end -= 1;
    }
    format!("{}\n... the rest is in {}\n", &text[..end], file.display())
}

fn report(seed: u64, folder: &Path, difference: &Difference) -> String {
    let run = &difference.run;
    let status = match run.status {
        Some(status) => format!("status {}", status),
        None => "no status: killed by a signal".to_string(),
    };
    let got = format!("{} and\n{}", status, String::from_utf8_lossy(&run.output));
    let expected_file = folder.join("expected");
    let got_file = folder.join("got");
    write(&expected_file, difference.expected.as_bytes());
    write(&got_file, got.as_bytes());
    let mut text = format!("seed {}: a difference; the files are in {}\n", seed, folder.display());
    let _ = writeln!(text, "command: {}", run.command);
    if let Some(place) = difference.expected.lines().zip(got.lines()).position(|(one, other)| one != other) {
        let _ = writeln!(text, "first line that differs: {}", place + 1);
    }
    let _ = writeln!(text, "--- expected\n{}--- got", shown(&difference.expected, &expected_file));
    let _ = writeln!(text, "{}--- standard error\n{}", shown(&got, &got_file), String::from_utf8_lossy(&run.errors));
    text
}

fn usage() -> ! {
    eprintln!("usage: serial SAFD [--circuits N] [--seed S] [--jobs J]");
    exit(2);
}

fn number(word: Option<String>) -> u64 {
    word.and_then(|word| word.parse().ok()).unwrap_or_else(|| usage())
}

fn main() {
    let mut words = std::env::args().skip(1);
    let program = words.next().unwrap_or_else(|| usage());
    let (mut circuits, mut first, mut jobs) = (200, 1_985, 1);
    while let Some(word) = words.next() {
        match word.as_str() {
            "--circuits" => circuits = number(words.next()),
            "--seed" => first = number(words.next()),
            "--jobs" => jobs = number(words.next()).max(1),
            _ => usage(),
        }
    }
    // Without words the program refuses; here it only matters that it can be run.
    run(&program, &[]);
    let root: PathBuf = std::env::temp_dir().join(format!("safd-serial-{}", std::process::id()));
    if let Err(error) = fs::create_dir(&root) {
        eprintln!("serial: cannot make {}: {}", root.display(), error);
        exit(2);
    }

    let next = AtomicU64::new(0);
    let total = Mutex::new(Counts::default());
    let failure: Mutex<Option<String>> = Mutex::new(None);
    thread::scope(|scope| {
        for _ in 0..jobs {
            scope.spawn(|| loop {
                let place = next.fetch_add(1, Ordering::Relaxed);
                if place >= circuits || failure.lock().unwrap().is_some() {
                    break;
                }
                let seed = first.wrapping_add(place);
                let folder = root.join(seed.to_string());
                if let Err(error) = fs::create_dir(&folder) {
                    eprintln!("serial: cannot make {}: {}", folder.display(), error);
                    exit(2);
                }
                match try_seed(&program, seed, &folder) {
                    Ok(counts) => {
                        let mut total = total.lock().unwrap();
                        total.machines += counts.machines;
                        total.vectors += counts.vectors;
                        let _ = fs::remove_dir_all(&folder);
                    }
                    Err(difference) => {
                        let mut failure = failure.lock().unwrap();
                        if failure.is_none() {
                            *failure = Some(report(seed, &folder, &difference));
                        }
                    }
                }
            });
        }
    });

    if let Some(text) = failure.into_inner().unwrap() {
        print!("{}", text);
        exit(1);
    }
    let _ = fs::remove_dir_all(&root);
    let total = total.into_inner().unwrap();
    println!("{} circuits, {} machines, {} vectors: all equal", circuits, total.machines, total.vectors);
}
