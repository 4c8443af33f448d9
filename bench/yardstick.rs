//! Marks a plan sheet, as `marksheet` does, in plain Rust. Written from `docs/FORMAT.md` and `docs/TIMING.md` alone.
//!
//!     rustc --edition 2021 -O bench/yardstick.rs -o yardstick
//!     ./yardstick < examples/sample.sheet

use std::io::{self, Read, Write};
use std::process::ExitCode;

const LONGEST_SHEET: usize = 16_384;
const LARGEST_NUMBER: u64 = 1_000_000;
const MOST_PAIRS: usize = 64;
const MOST_INTERRUPTS: usize = 8;
const MOST_TASKS: usize = 16;
const MOST_COSTS: usize = 8;

/// A refusal: its number, and the line of the sheet, 0 for none.
struct Refusal {
    number: u8,
    line: usize,
}

impl Refusal {
    fn layer(&self) -> &'static str {
        match self.number {
            1..=3 => "words",
            4 => "lines",
            5..=8 => "plan",
            _ => "judge",
        }
    }
}

/// Work that comes at a pace: an interrupt, or the jobs of a task.
struct Paced {
    period: u64,
    jitter: u64,
    count: usize,
    /// The costs twice over, so that a run round the end is a slice.
    costs: [u64; 2 * MOST_COSTS],
    sum: u64,
}

impl Paced {
    fn new(period: u64, jitter: u64, numbers: &[u64]) -> Paced {
        let count = numbers.len();
        let mut costs = [0; 2 * MOST_COSTS];
        costs[..count].copy_from_slice(numbers);
        costs[count..2 * count].copy_from_slice(numbers);
        Paced { period, jitter, count, costs, sum: numbers.iter().sum() }
    }

    fn largest_cost(&self) -> u64 {
        self.costs[..self.count].iter().copied().max().unwrap_or(0)
    }

    /// The most that can come in `window` ticks, of which there is at least one.
    fn demand(&self, window: u64) -> u64 {
        let arrivals = (self.jitter + window - 1) / self.period + 1;
        if self.count == 1 {
            return arrivals * self.sum;
        }
        let count = self.count as u64;
        let rounds = arrivals / count;
        let rest = (arrivals % count) as usize;
        rounds * self.sum + self.largest_run(rest)
    }

    /// The largest sum of so many successive costs, fewer than there are.
    fn largest_run(&self, length: usize) -> u64 {
        let mut run: u64 = self.costs[..length].iter().sum();
        let mut largest = run;
        let leaving = &self.costs[..self.count];
        let coming = &self.costs[length..];
        for (gone, come) in leaving.iter().zip(coming) {
            run = run + come - gone;
            largest = largest.max(run);
        }
        largest
    }

    fn load(&self) -> u64 {
        (10_000 * self.sum).div_ceil(self.period * self.count as u64)
    }
}

/// The fixed schedule.
struct Schedule {
    cycle: u64,
    /// The offsets in the order of the sheet.
    offsets: Vec<u64>,
    lengths: Vec<u64>,
}

/// A schedule made ready for the question of its demand.
struct Calendar {
    cycle: u64,
    sum: u64,
    pairs: usize,
    /// The offsets of two cycles.
    offsets: Vec<u64>,
    /// At each place the sum of the lengths before it, over two cycles.
    before: Vec<u64>,
}

impl Schedule {
    fn calendar(&self) -> Calendar {
        let pairs = self.offsets.len();
        let mut offsets = Vec::with_capacity(2 * pairs);
        let mut before = Vec::with_capacity(2 * pairs + 1);
        let mut sum = 0;
        for start in [0, self.cycle] {
            for (offset, length) in self.offsets.iter().zip(&self.lengths) {
                offsets.push(start + offset);
                before.push(sum);
                sum += length;
            }
        }
        before.push(sum);
        Calendar { cycle: self.cycle, sum: sum / 2, pairs, offsets, before }
    }
}

impl Calendar {
    /// Whole cycles, and the largest sum of a broken one. A broken cycle may begin where a pair stands and lose nothing.
    fn demand(&self, window: u64) -> u64 {
        let cycles = window / self.cycle;
        let rest = window % self.cycle;
        let mut largest = 0;
        let mut end = 0;
        for (offset, before) in self.offsets[..self.pairs].iter().zip(&self.before) {
            // a rest is less than a cycle, so the end stays within the two cycles
            while self.offsets[end] < offset + rest {
                end += 1;
            }
            largest = largest.max(self.before[end] - before);
        }
        cycles * self.sum + largest
    }

    fn load(&self) -> u64 {
        (10_000 * self.sum).div_ceil(self.cycle)
    }
}

struct Task {
    line: usize,
    paced: Paced,
    blocking: u64,
    deadline: u64,
}

struct Plan {
    schedule: Schedule,
    interrupts: Vec<Paced>,
    tasks: Vec<Task>,
}

// Reading a sheet

/// Room for the numbers of the longest row.
const MOST_NUMBERS: usize = 5 + MOST_COSTS;

/// The words of one line: the first one, and the numbers behind it.
struct Words<'a> {
    first: &'a [u8],
    numbers: [u64; MOST_NUMBERS],
    /// How many words stand behind the first, also if they are more than there is room for.
    count: usize,
    /// Whether all of these are numbers.
    only_numbers: bool,
    /// The bytes behind the line.
    rest: &'a [u8],
}

/// Reads the line with which the text begins, or gives the number of its refusal.
fn read_words(text: &[u8]) -> Result<Words<'_>, u8> {
    let mut words = Words { first: &[], numbers: [0; MOST_NUMBERS], count: 0, only_numbers: true, rest: &[] };
    let mut at = 0;
    loop {
        let start = at;
        let mut number = None;
        match text.get(at) {
            Some(b'a'..=b'z') => {
                while let Some(b'a'..=b'z') = text.get(at) {
                    at += 1;
                }
            }
            Some(b'0'..=b'9') => {
                let mut value = 0;
                while let Some(digit @ b'0'..=b'9') = text.get(at) {
                    value = 10 * value + u64::from(digit - b'0');
                    at += 1;
                    if value > LARGEST_NUMBER {
                        return Err(bad_word(&text[at..]));
                    }
                }
                if text[start] == b'0' && at > start + 1 {
                    return Err(bad_word(&text[at..]));
                }
                number = Some(value);
            }
            _ => return Err(bad_word(&text[at..])),
        }

        if start == 0 {
            words.first = &text[..at];
        } else {
            match number {
                Some(value) if words.count < MOST_NUMBERS => words.numbers[words.count] = value,
                Some(_) => {}
                None => words.only_numbers = false,
            }
            words.count += 1;
        }

        match text.get(at) {
            Some(b' ') => at += 1,
            Some(b'\n') => {
                words.rest = &text[at + 1..];
                return Ok(words);
            }
            _ => return Err(bad_word(&text[at..])),
        }
    }
}

/// The refusal of a line with a bad word, of which this is the rest: a foreign byte further on, or a missing line feed, comes
/// before the bad word.
fn bad_word(rest: &[u8]) -> u8 {
    for byte in rest {
        match byte {
            b'a'..=b'z' | b'0'..=b'9' | b' ' => {}
            b'\n' => return 3,
            _ => return 2,
        }
    }
    2
}

/// The rows of a sheet in their order.
#[derive(Clone, Copy, PartialEq, PartialOrd)]
enum Row {
    Cycle,
    At,
    Irq,
    Task,
}

/// What has been read of a sheet so far.
struct Reader {
    last: Option<Row>,
    plan: Plan,
    /// The smallest blocking of the tasks so far.
    least_blocking: u64,
}

impl Reader {
    fn new() -> Reader {
        Reader {
            last: None,
            plan: Plan {
                schedule: Schedule {
                    cycle: 0,
                    offsets: Vec::with_capacity(MOST_PAIRS),
                    lengths: Vec::with_capacity(MOST_PAIRS),
                },
                interrupts: Vec::with_capacity(MOST_INTERRUPTS),
                tasks: Vec::with_capacity(MOST_TASKS),
            },
            least_blocking: LARGEST_NUMBER,
        }
    }

    /// Takes the words of one line, or gives the smallest number of a refusal that applies.
    fn take(&mut self, words: &Words, line: usize) -> Result<(), u8> {
        let Words { ref numbers, count, .. } = *words;
        let row = match words.first {
            b"cycle" => Row::Cycle,
            b"at" => Row::At,
            b"irq" => Row::Irq,
            b"task" => Row::Task,
            _ => return Err(4),
        };
        let in_order = match self.last {
            None => row == Row::Cycle,
            Some(last) => row != Row::Cycle && row >= last,
        };
        let (before_costs, has_costs) = match row {
            Row::Cycle => (1, false),
            Row::At => (2, false),
            Row::Irq => (2, true),
            Row::Task => (5, true),
        };
        let enough = if has_costs { count > before_costs } else { count == before_costs };
        if !words.only_numbers || !in_order || !enough {
            return Err(4);
        }

        let full = match row {
            Row::Cycle => false,
            Row::At => self.plan.schedule.offsets.len() == MOST_PAIRS,
            Row::Irq => self.plan.interrupts.len() == MOST_INTERRUPTS,
            Row::Task => self.plan.tasks.len() == MOST_TASKS,
        };
        if full || (has_costs && count - before_costs > MOST_COSTS) {
            return Err(5);
        }

        self.last = Some(row);
        let costs = &numbers[before_costs..count];
        match row {
            Row::Cycle => self.take_cycle(numbers[0]),
            Row::At => self.take_pair(numbers[0], numbers[1]),
            Row::Irq => self.take_interrupt(numbers[0], numbers[1], costs),
            Row::Task => {
                let [period, jitter, blocking, deadline, hold, ..] = *numbers;
                let task = Task { line, paced: Paced::new(period, jitter, costs), blocking, deadline };
                self.take_task(task, hold)
            }
        }
    }

    fn take_cycle(&mut self, cycle: u64) -> Result<(), u8> {
        if cycle == 0 {
            return Err(6);
        }
        self.plan.schedule.cycle = cycle;
        Ok(())
    }

    fn take_pair(&mut self, offset: u64, length: u64) -> Result<(), u8> {
        if length == 0 {
            return Err(6);
        }
        let schedule = &mut self.plan.schedule;
        if offset >= schedule.cycle || schedule.offsets.last().is_some_and(|last| offset <= *last) {
            return Err(7);
        }
        schedule.offsets.push(offset);
        schedule.lengths.push(length);
        Ok(())
    }

    fn take_interrupt(&mut self, period: u64, jitter: u64, costs: &[u64]) -> Result<(), u8> {
        if period == 0 || costs.contains(&0) {
            return Err(6);
        }
        if jitter >= period {
            return Err(7);
        }
        self.plan.interrupts.push(Paced::new(period, jitter, costs));
        Ok(())
    }

    fn take_task(&mut self, task: Task, hold: u64) -> Result<(), u8> {
        let Paced { period, jitter, count, costs, .. } = &task.paced;
        if *period == 0 || task.deadline == 0 || costs[..*count].contains(&0) {
            return Err(6);
        }
        if jitter >= period || task.deadline > period - jitter {
            return Err(7);
        }
        if hold > self.least_blocking {
            return Err(8);
        }
        self.least_blocking = self.least_blocking.min(task.blocking);
        self.plan.tasks.push(task);
        Ok(())
    }
}

fn read_sheet(sheet: &[u8]) -> Result<Plan, Refusal> {
    if sheet.len() > LONGEST_SHEET {
        return Err(Refusal { number: 1, line: 0 });
    }
    if sheet.is_empty() {
        return Err(Refusal { number: 4, line: 1 });
    }
    let mut reader = Reader::new();
    let mut text = sheet;
    let mut line = 0;
    while !text.is_empty() {
        line += 1;
        let refused = |number| Refusal { number, line };
        let words = read_words(text).map_err(refused)?;
        reader.take(&words, line).map_err(refused)?;
        text = words.rest;
    }
    Ok(reader.plan)
}

// Judging a plan

/// What stands above the task that is judged, and the task.
struct Judged<'a> {
    calendar: &'a Calendar,
    interrupts: &'a [Paced],
    above: &'a [Task],
    /// The blocking and the largest cost of the task.
    own: u64,
}

impl Judged<'_> {
    fn need(&self, window: u64) -> u64 {
        let mut need = self.own + self.calendar.demand(window);
        for interrupt in self.interrupts {
            need += interrupt.demand(window);
        }
        for task in self.above {
            need += task.paced.demand(window);
        }
        need
    }

    /// The smallest window, up to the deadline, that holds what it needs. Need never falls, so no window from here up to the
    /// need of this one holds its own, and all of these may be left out.
    fn bound(&self, deadline: u64) -> Option<u64> {
        let mut window = 1;
        while window <= deadline {
            let need = self.need(window);
            if need <= window {
                return Some(window);
            }
            window = need;
        }
        None
    }
}

fn list_sheet(sheet: &[u8]) -> Result<Vec<u8>, Refusal> {
    let plan = read_sheet(sheet)?;
    if plan.tasks.is_empty() {
        return Err(Refusal { number: 9, line: 0 });
    }
    let calendar = plan.schedule.calendar();

    let mut bounds = Vec::with_capacity(plan.tasks.len());
    for (place, task) in plan.tasks.iter().enumerate() {
        let judged = Judged {
            calendar: &calendar,
            interrupts: &plan.interrupts,
            above: &plan.tasks[..place],
            own: task.blocking + task.paced.largest_cost(),
        };
        let bound = judged.bound(task.deadline).ok_or(Refusal { number: 10, line: task.line })?;
        bounds.push(bound);
    }

    let mut listing = Vec::with_capacity(2_048);
    put(&mut listing, "accepted ", plan.tasks.len() as u64);
    listing.push(b'\n');
    let loads = plan.interrupts.iter().map(Paced::load).chain([calendar.load()]);
    for (part, load) in (1..).zip(loads) {
        put(&mut listing, "part ", part);
        put(&mut listing, " load ", load);
        listing.push(b'\n');
    }
    for ((number, task), bound) in (1..).zip(&plan.tasks).zip(bounds) {
        put(&mut listing, "task ", number);
        put(&mut listing, " bound ", bound);
        put(&mut listing, " deadline ", task.deadline);
        put(&mut listing, " load ", task.paced.load());
        listing.push(b'\n');
    }
    Ok(listing)
}

/// Adds words and a number to a listing.
fn put(listing: &mut Vec<u8>, words: &str, number: u64) {
    listing.extend_from_slice(words.as_bytes());
    let mut digits = [0; 20];
    let mut first = digits.len();
    let mut left = number;
    loop {
        first -= 1;
        digits[first] = b'0' + (left % 10) as u8;
        left /= 10;
        if left == 0 {
            break;
        }
    }
    listing.extend_from_slice(&digits[first..]);
}

fn mark() -> io::Result<()> {
    // one byte more than a sheet may have is enough to see that it is too long
    let mut sheet = Vec::with_capacity(LONGEST_SHEET + 2);
    io::stdin().lock().take(LONGEST_SHEET as u64 + 1).read_to_end(&mut sheet)?;
    let listing = list_sheet(&sheet).unwrap_or_else(|refusal| {
        format!("refused {} {} {}\n", refusal.number, refusal.layer(), refusal.line).into_bytes()
    });
    let mut output = io::stdout().lock();
    output.write_all(&listing)?;
    output.flush()
}

fn main() -> ExitCode {
    match mark() {
        Ok(()) => ExitCode::SUCCESS,
        Err(error) => {
            eprintln!("yardstick: {error}");
            ExitCode::FAILURE
        }
    }
}
