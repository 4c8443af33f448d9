//! Writes random plan sheets into a folder, as files 000000.sheet, 000001.sheet and so on. The same seed gives the same sheets.
//!
//!     rustc --edition 2021 -O bench/random_sheets.rs -o random_sheets
//!     ./random_sheets FOLDER HOW-MANY SEED

use std::{env, fs, io, path::Path, process::ExitCode};

const LONGEST_SHEET: usize = 16_384;
const LARGEST_NUMBER: u64 = 1_000_000;

/// A xorshift generator of 64 bits.
struct Dice(u64);

impl Dice {
    fn new(seed: u64) -> Dice {
        // the state must not be 0
        let mut dice = Dice(seed.wrapping_mul(0x9E37_79B9_7F4A_7C15) | 1);
        for _ in 0..8 {
            dice.next();
        }
        dice
    }

    fn next(&mut self) -> u64 {
        self.0 ^= self.0 << 13;
        self.0 ^= self.0 >> 7;
        self.0 ^= self.0 << 17;
        self.0
    }

    /// A number from `least` to `most`, both included.
    fn between(&mut self, least: u64, most: u64) -> u64 {
        least + (self.next() >> 11) % (most - least + 1)
    }

    fn index(&mut self, count: usize) -> usize {
        self.between(0, count as u64 - 1) as usize
    }

    fn percent(&mut self, chance: u64) -> bool {
        self.between(1, 100) <= chance
    }

    /// A number from 0 up to, but without, 1.
    fn share(&mut self) -> f64 {
        (self.next() >> 11) as f64 / (1u64 << 53) as f64
    }

    /// A number from `least` to `most` that is as likely to be small as large.
    fn spread(&mut self, least: f64, most: f64) -> u64 {
        (least * (most / least).powf(self.share())).round().clamp(least, most) as u64
    }

    fn one_of<T: Copy>(&mut self, choices: &[T]) -> T {
        choices[self.index(choices.len())]
    }
}

/// A number that a sheet can have.
fn fit(number: f64) -> u64 {
    (number.round() as u64).clamp(1, LARGEST_NUMBER)
}

/// Splits a whole at random.
fn split(dice: &mut Dice, whole: f64, pieces: usize) -> Vec<f64> {
    let weights: Vec<f64> = (0..pieces).map(|_| 0.05 + dice.share()).collect();
    let sum: f64 = weights.iter().sum();
    weights.iter().map(|weight| whole * weight / sum).collect()
}

/// Costs, 1 to 8 of them, of which the mean is about this much.
fn some_costs(dice: &mut Dice, mean: f64) -> Vec<u64> {
    let count = if dice.percent(40) { 1 } else { dice.between(1, 8) as usize };
    if dice.percent(20) {
        return vec![fit(mean); count];
    }
    split(dice, mean * count as f64, count).into_iter().map(fit).collect()
}

fn jitter(dice: &mut Dice, period: u64) -> u64 {
    match dice.between(0, 39) {
        0..=15 => 0,
        16..=37 => dice.between(0, period / 4),
        38 => dice.between(0, period - 1),
        _ => period - 1,
    }
}

// A sheet is lines, a line is words, a word is bytes, so that a fault can be planted in any of them

type Word = Vec<u8>;
type Line = Vec<Word>;
type Sheet = Vec<Line>;

fn line(keyword: &str, numbers: &[u64]) -> Line {
    let mut line = vec![keyword.as_bytes().to_vec()];
    line.extend(numbers.iter().map(|number| number.to_string().into_bytes()));
    line
}

fn text(sheet: &Sheet) -> Vec<u8> {
    let mut text = Vec::new();
    for line in sheet {
        text.extend(line.join(&b' '));
        text.push(b'\n');
    }
    text
}

struct Task {
    period: u64,
    jitter: u64,
    costs: Vec<u64>,
}

/// A sheet that can be read.
fn legal_sheet(dice: &mut Dice) -> Sheet {
    // the numbers are up to this large
    let scale = match dice.between(0, 9) {
        0..=2 => dice.spread(4.0, 60.0),
        3..=7 => dice.spread(60.0, 20_000.0),
        _ => LARGEST_NUMBER,
    };
    let pairs = match dice.between(0, 9) {
        0 => 0,
        1..=5 => dice.between(1, 6),
        6..=8 => dice.between(1, 64),
        _ => 64,
    };
    let interrupts = if dice.percent(10) { 8 } else { dice.between(0, 8).min(dice.between(0, 8)) as usize };
    let tasks = match dice.between(0, 9) {
        0..=4 => dice.between(1, 4),
        5..=8 => dice.between(1, 16),
        _ => 16,
    } as usize;

    // how much of the processor everything asks for, and the shares of schedule, interrupts and tasks
    let asked = match dice.between(0, 19) {
        0 => 0.9 + 0.2 * dice.share(),
        1 => 1.0 + 0.3 * dice.share(),
        2..=11 => 0.2 + 0.7 * dice.share(),
        _ => 0.05 + 0.4 * dice.share(),
    };
    let shares = split(dice, asked, 3);

    let mut cycle = if dice.percent(5) { dice.between(1, 4) } else { dice.spread(1.0, scale as f64) };
    if dice.percent(85) {
        // room for the pairs, each with a length of at least 1
        cycle = cycle.max(fit(pairs as f64 / shares[0]));
    }
    let mut sheet = vec![line("cycle", &[cycle])];
    let most = if dice.percent(90) { (shares[0] * cycle as f64).ceil() as u64 } else { cycle };
    schedule(dice, &mut sheet, cycle, pairs.min(most).min(cycle) as usize, shares[0]);

    for share in split(dice, shares[1], interrupts) {
        let period = dice.spread(1.0, scale as f64).max(fit(1.0 / share).min(8 * scale));
        let mut numbers = vec![period, jitter(dice, period)];
        numbers.extend(some_costs(dice, share * period as f64));
        sheet.push(line("irq", &numbers));
    }

    let mut rows: Vec<Task> = Vec::new();
    // tasks that come less often than all else have more room
    let longest = sheet.iter().filter(|line| !is(line, "at")).map(|line| number(line, 1)).max().unwrap_or(1);
    let room = if dice.percent(85) { 1.0 + 2.0 * dice.share() } else { 0.2 };
    let least = (room * longest as f64).max(4.0 * tasks as f64).min(LARGEST_NUMBER as f64 / 2.0);
    let most = (8.0 * scale as f64).max(2.0 * least).min(LARGEST_NUMBER as f64);
    for share in split(dice, shares[2], tasks) {
        let period = dice.spread(least, most).max(fit(1.0 / share));
        rows.push(Task { period, jitter: jitter(dice, period), costs: some_costs(dice, share * period as f64) });
    }
    if dice.percent(85) {
        rows.sort_by_key(|task| task.period - task.jitter);
    }

    let hurry = dice.percent(30);
    let mut least_blocking = LARGEST_NUMBER;
    for task in rows {
        let span = task.period - task.jitter;
        let deadline = match dice.between(0, 9) {
            0 if hurry => dice.between(1, span),
            0..=4 if hurry => dice.between(span.div_ceil(2), span),
            _ => span,
        };
        let blocking = match dice.between(0, 9) {
            0..=3 => 0,
            4..=8 => dice.between(0, task.costs[0]),
            _ => dice.between(0, deadline),
        };
        let hold = if dice.percent(50) { 0 } else { dice.between(0, least_blocking) };
        least_blocking = least_blocking.min(blocking);
        let mut numbers = vec![task.period, task.jitter, blocking, deadline, hold];
        numbers.extend(task.costs);
        sheet.push(line("task", &numbers));
    }
    sheet
}

/// Adds the pairs of a schedule that asks for this share of the cycle.
fn schedule(dice: &mut Dice, sheet: &mut Sheet, cycle: u64, pairs: usize, share: f64) {
    let mut offsets = Vec::new();
    if dice.percent(15) {
        offsets.extend(0..pairs as u64);
    } else {
        while offsets.len() < pairs {
            let offset = dice.between(0, cycle - 1);
            if let Err(place) = offsets.binary_search(&offset) {
                offsets.insert(place, offset);
            }
        }
    }
    for (offset, length) in offsets.into_iter().zip(split(dice, share * cycle as f64, pairs)) {
        sheet.push(line("at", &[offset, fit(length)]));
    }
}

// Faults

/// The place in a line of its first cost, for the lines that have any.
fn first_cost(line: &Line) -> Option<usize> {
    match line[0].as_slice() {
        b"irq" => Some(3),
        b"task" => Some(6),
        _ => None,
    }
}

fn number(line: &Line, place: usize) -> u64 {
    line.get(place).and_then(|word| std::str::from_utf8(word).ok()?.parse().ok()).unwrap_or(0)
}

fn set(line: &mut Line, place: usize, number: u64) {
    if let Some(word) = line.get_mut(place) {
        *word = number.to_string().into_bytes();
    }
}

fn is(line: &Line, keyword: &str) -> bool {
    line[0] == keyword.as_bytes()
}

/// The lines with one keyword.
fn all(sheet: &Sheet, keyword: &str) -> Vec<usize> {
    (0..sheet.len()).filter(|place| is(&sheet[*place], keyword)).collect()
}

/// Plants a fault in one line, if the line can have it.
fn spoil_line(dice: &mut Dice, sheet: &mut Sheet, at: usize) {
    let before = if at > 0 { number(&sheet[at - 1], 1) } else { 0 };
    let cycle = number(&sheet[0], 1);
    let line = &mut sheet[at];
    let place = dice.index(line.len());
    match dice.between(0, 17) {
        0 | 1 => {
            // among these are the bytes next to the letters and the digits
            let byte = dice.one_of(b"ATZ-+._,#/:@[`{\t\r\0\x7f\x80\xc3\xff");
            let word = &mut line[place];
            let inside = dice.index(word.len() + 1);
            word.insert(inside, byte);
        }
        // an empty word makes two spaces, or one at an end of the line
        2 => line.insert(place + dice.index(2), Word::new()),
        3 => *line = vec![Word::new()],
        4 => {
            let byte = if place == 0 { b'7' } else { b'x' };
            let inside = dice.index(line[place].len() + 1);
            line[place].insert(inside, byte);
        }
        5 if place > 0 => line[place].insert(0, b'0'),
        6 if place > 0 => {
            // the last two are 7 and 1,000 beyond what 64 and 32 bits hold
            let large = dice.one_of(&["1000001", "9999999", "10000000", "18446744073709551623", "4294968296"]);
            line[place] = large.as_bytes().to_vec();
        }
        7 => {
            // too few numbers, or none
            let most = first_cost(line).unwrap_or(line.len() - 1);
            let left = dice.between(1, most.clamp(1, line.len()) as u64);
            line.truncate(left as usize);
        }
        8 if first_cost(line).is_none() => line.push(b"1".to_vec()),
        9 if place > 0 => line[place] = dice.one_of(&["x", "at", "task", "zero"]).as_bytes().to_vec(),
        10 => line[0] = dice.one_of(&["tasks", "ir", "a", "12", "cycles", "end", "atat"]).as_bytes().to_vec(),
        11 => line[0] = dice.one_of(&["cycle", "at", "irq", "task"]).as_bytes().to_vec(),
        12 => {
            if let Some(first) = first_cost(line) {
                let cost = line.last().cloned().unwrap_or_default();
                line.resize(first + dice.between(9, 11) as usize, cost);
            }
        }
        13 | 14 => {
            // one that must not be 0
            let first = first_cost(line).unwrap_or(line.len());
            let costs = first..line.len();
            let places = match line[0].as_slice() {
                b"cycle" => vec![1],
                b"at" => vec![2],
                b"irq" => [1].into_iter().chain(costs).collect(),
                _ => [1, 4].into_iter().chain(costs).collect(),
            };
            set(line, dice.one_of(&places), 0);
        }
        15 | 16 => {
            let more = dice.one_of(&[0, 0, 1, 10]);
            let period = number(line, 1);
            if is(line, "at") {
                let offset = if dice.percent(50) { cycle + more } else { before.saturating_sub(more) };
                set(line, 1, offset);
            } else if is(line, "task") && dice.percent(50) {
                let span = period.saturating_sub(number(line, 2));
                set(line, 4, span + 1 + more);
            } else {
                set(line, 2, period + more);
            }
        }
        _ => spoil_hold(dice, sheet),
    }
}

/// Lets a task hold longer than an earlier one may be blocked.
fn spoil_hold(dice: &mut Dice, sheet: &mut Sheet) {
    let tasks = all(sheet, "task");
    if tasks.len() > 1 {
        let spoiled = 1 + dice.index(tasks.len() - 1);
        let earlier = dice.index(spoiled);
        let hold = number(&sheet[tasks[earlier]], 3) + 1;
        set(&mut sheet[tasks[spoiled]], 5, hold);
    }
}

/// Plants a fault that takes more than one line.
fn spoil_lines(dice: &mut Dice, sheet: &mut Sheet) {
    match dice.between(0, 8) {
        0 => {
            let one = dice.index(sheet.len());
            let other = dice.index(sheet.len());
            sheet.swap(one, other);
        }
        1 => {
            sheet.remove(dice.index(sheet.len()));
        }
        2 => {
            let again = sheet[dice.index(sheet.len())].clone();
            sheet.insert(dice.index(sheet.len() + 1), again);
        }
        // one too many of a kind
        3 => {
            let cycle = LARGEST_NUMBER;
            sheet.retain(|line| !is(line, "at"));
            set(&mut sheet[0], 1, cycle);
            for place in 0..dice.between(64, 66) {
                sheet.insert(1 + place as usize, line("at", &[place * 3, 1]));
            }
        }
        4 => many(dice, sheet, "irq", 8),
        5 => many(dice, sheet, "task", 16),
        6 | 7 => sheet.retain(|line| !is(line, "task")),
        _ => spoil_hold(dice, sheet),
    }
}

/// Repeats lines until there are the most that are allowed, or one or two more.
fn many(dice: &mut Dice, sheet: &mut Sheet, keyword: &str, most: usize) {
    let wanted = most + dice.between(0, 2) as usize;
    while let (Some(&last), true) = (all(sheet, keyword).last(), all(sheet, keyword).len() < wanted) {
        let again = sheet[last].clone();
        sheet.insert(last, again);
    }
}

/// Plants a fault in the bytes of a sheet.
fn spoil_text(dice: &mut Dice, text: &mut Vec<u8>) {
    match dice.between(0, 5) {
        0 => text.clear(),
        1 => {
            text.pop();
        }
        2 => text.push(dice.one_of(b"\n 0a")),
        3 => {
            let place = dice.index(text.len());
            text[place] = dice.one_of(b"\n 0a");
        }
        4 => text.truncate(dice.index(text.len())),
        // about as long as a sheet may be
        _ => {
            let length = LONGEST_SHEET + dice.one_of(&[0, 0, 1, 1, 2, 5000]);
            while text.len() < length {
                text.extend(b"task 1000000 0 0 1000000 0 1\n");
            }
            text.truncate(length);
        }
    }
}

fn random_sheet(dice: &mut Dice) -> Vec<u8> {
    let mut sheet = legal_sheet(dice);
    if dice.percent(80) {
        return text(&sheet);
    }
    let at = if dice.percent(20) { 0 } else { dice.index(sheet.len()) };
    match dice.between(0, 19) {
        0..=11 => spoil_line(dice, &mut sheet, at),
        12 | 13 => {
            // two faults in one line
            spoil_line(dice, &mut sheet, at);
            spoil_line(dice, &mut sheet, at);
        }
        14 => {
            // two faults in two lines
            spoil_line(dice, &mut sheet, at);
            let other = dice.index(sheet.len());
            spoil_line(dice, &mut sheet, other);
        }
        15..=17 => spoil_lines(dice, &mut sheet),
        _ => {
            let mut text = text(&sheet);
            spoil_text(dice, &mut text);
            return text;
        }
    }
    text(&sheet)
}

fn write_sheets(folder: &Path, count: u64, seed: u64) -> io::Result<()> {
    let mut dice = Dice::new(seed);
    for place in 0..count {
        fs::write(folder.join(format!("{place:06}.sheet")), random_sheet(&mut dice))?;
    }
    Ok(())
}

fn main() -> ExitCode {
    let words: Vec<String> = env::args().skip(1).collect();
    let (folder, count, seed) = match words.as_slice() {
        [folder, count, seed] => (folder, count.parse(), seed.parse()),
        _ => {
            eprintln!("usage: random_sheets FOLDER HOW-MANY SEED");
            return ExitCode::FAILURE;
        }
    };
    let (Ok(count), Ok(seed)) = (count, seed) else {
        eprintln!("random_sheets: HOW-MANY and SEED are numbers");
        return ExitCode::FAILURE;
    };
    match write_sheets(Path::new(folder), count, seed) {
        Ok(()) => ExitCode::SUCCESS,
        Err(error) => {
            eprintln!("random_sheets: {error}");
            ExitCode::FAILURE
        }
    }
}
