// An independent model of the program sheet: standard input to standard output, the same steps in 64-bit numbers with
// range tests.

use std::io::{self, Read, Write};

const UNKNOWNS: usize = 24;
const NUMBERS: usize = UNKNOWNS + 1;
const LAST_LINE: u32 = 1_000_000;
const HANDED_ON: usize = 205;
const LARGEST: i64 = 2_147_483_647;
const LOWEST: u32 = 0x8000_0000;

/// How the numbers of a kind are worked with.
trait Kind {
    fn admits(word: i64) -> bool;
    fn negative(a: i64) -> i64;
    /// c + q × d, or none where that cannot be stored.
    fn add_product(c: i64, q: i64, d: i64) -> Option<i64>;
    fn size(a: i64) -> i64;
    /// What to take of d, which is not 0, from c.
    fn quotient(c: i64, d: i64) -> i64;
    fn unit(a: i64) -> i64;
}

struct Whole;

impl Kind for Whole {
    fn admits(word: i64) -> bool {
        (-LARGEST..=LARGEST).contains(&word)
    }

    fn negative(a: i64) -> i64 {
        -a
    }

    fn add_product(c: i64, q: i64, d: i64) -> Option<i64> {
        // Three stored numbers: 64 bits hold every step of this.
        let sum = c + q * d;
        (-LARGEST..=LARGEST).contains(&sum).then_some(sum)
    }

    fn size(a: i64) -> i64 {
        a.abs()
    }

    fn quotient(c: i64, d: i64) -> i64 {
        let (q, rest) = (c / d, c % d);
        if rest != 0 && (rest < 0) != (d < 0) { q - 1 } else { q }
    }

    fn unit(a: i64) -> i64 {
        if a < 0 { -1 } else { 1 }
    }
}

struct Weekday;

/// The remainder by 7 of a^5: the inverse of a, and 0 for 0.
const FIFTH_POWER: [i64; 7] = [0, 1, 4, 5, 2, 3, 6];

impl Kind for Weekday {
    fn admits(word: i64) -> bool {
        (0..7).contains(&word)
    }

    fn negative(a: i64) -> i64 {
        (7 - a) % 7
    }

    fn add_product(c: i64, q: i64, d: i64) -> Option<i64> {
        Some((c + q * d) % 7)
    }

    fn size(a: i64) -> i64 {
        i64::from(a != 0)
    }

    fn quotient(c: i64, d: i64) -> i64 {
        c * FIFTH_POWER[d as usize] % 7
    }

    fn unit(a: i64) -> i64 {
        if a == 0 { 1 } else { FIFTH_POWER[a as usize] }
    }
}

/// A refusal: the answer and the place.
type Refusal = (u32, i32);

const NO_PLACE: i32 = -1;
const OVERFLOW: Refusal = (15, NO_PLACE);
const CONTRADICTED: Refusal = (16, NO_PLACE);

/// The running sum from `start` of factor × entry.
fn running_sum<K: Kind>(start: i64, factors: &[i64], entries: &[i64]) -> Option<i64> {
    let mut sum = start;
    for (&q, &d) in factors.iter().zip(entries) {
        sum = K::add_product(sum, q, d)?;
    }
    Some(sum)
}

/// Takes `by` × the quotient of the tops from a column, from the top down.
fn reduce<K: Kind>(column: &mut [i64], by: &[i64]) -> Option<()> {
    let q = K::negative(K::quotient(column[0], by[0]));
    for (c, &d) in column.iter_mut().zip(by) {
        *c = K::add_product(*c, q, d)?;
    }
    Some(())
}

/// The places of the pivot, the column with the largest top, and of the runner-up, the largest of the others, if its
/// size is not 0; the lower place wins a tie.
fn choose<K: Kind>(columns: &[Column]) -> (usize, Option<usize>) {
    let (mut pivot, mut largest) = (0, K::size(columns[0][0]));
    let (mut runner_up, mut next_largest) = (None, -1);
    for (place, column) in columns.iter().enumerate().skip(1) {
        let size = K::size(column[0]);
        if size > largest {
            (runner_up, next_largest) = (Some(pivot), largest);
            (pivot, largest) = (place, size);
        } else if size > next_largest {
            (runner_up, next_largest) = (Some(place), size);
        }
    }
    (pivot, if next_largest > 0 { runner_up } else { None })
}

/// The top, then the entries of the unknowns.
type Column = [i64; NUMBERS];

/// The fixed plan and the moves; while an equation is posted, column B and the moves' columns.
struct Columns {
    plan: Column,
    moves: [Column; UNKNOWNS],
}

impl Columns {
    fn new() -> Box<Self> {
        Box::new(Columns { plan: [0; NUMBERS], moves: [[0; NUMBERS]; UNKNOWNS] })
    }
}

/// What is done: taken, opened or cleared; implied; and what writes lines after the answer.
enum Done {
    Quiet,
    Implied,
    Picked,
    Shown,
}

struct Sheet {
    n: usize,
    k: usize,
    main: Box<Columns>,
    spare: Box<Columns>,
}

impl Sheet {
    fn new() -> Self {
        Sheet { n: 0, k: 0, main: Columns::new(), spare: Columns::new() }
    }

    /// The new sheet of n unknowns: every plan is made.
    fn open(&mut self, n: usize) {
        (self.n, self.k) = (n, n);
        self.main.plan = [0; NUMBERS];
        for (j, column) in self.main.moves[..n].iter_mut().enumerate() {
            *column = [0; NUMBERS];
            column[j + 1] = 1;
        }
    }

    /// Posts n coefficients and the right side. The work is done in the spare columns, which take the main ones' place
    /// when the equation is taken.
    fn post<K: Kind>(&mut self, words: &[i64]) -> Result<Done, Refusal> {
        let (n, k) = (self.n, self.k);
        let (coefficients, right) = (&words[..n], words[n]);
        let Columns { plan: b, moves } = &mut *self.spare;
        let (b, moves) = (&mut b[..=n], &mut moves[..k]);

        for (column, from) in moves.iter_mut().zip(&self.main.moves) {
            column[0] = running_sum::<K>(0, coefficients, &from[1..=n]).ok_or(OVERFLOW)?;
            column[1..=n].copy_from_slice(&from[1..=n]);
        }
        b[0] = running_sum::<K>(K::negative(right), coefficients, &self.main.plan[1..=n]).ok_or(OVERFLOW)?;
        b[1..].copy_from_slice(&self.main.plan[1..=n]);

        if moves.iter().all(|column| K::size(column[0]) == 0) {
            return if K::size(b[0]) == 0 { Ok(Done::Implied) } else { Err(CONTRADICTED) };
        }

        for column in moves.iter_mut() {
            let unit = K::unit(column[0]);
            for entry in &mut column[..=n] {
                *entry = K::add_product(0, *entry, unit).ok_or(OVERFLOW)?;
            }
        }

        let pivot = loop {
            match choose::<K>(moves) {
                (pivot, None) => break pivot,
                (pivot, Some(runner_up)) => {
                    let [column, by] = moves.get_disjoint_mut([pivot, runner_up]).expect("two places");
                    let column = &mut column[..=n];
                    reduce::<K>(b, column).ok_or(OVERFLOW)?;
                    reduce::<K>(column, &by[..=n]).ok_or(OVERFLOW)?;
                }
            }
        };

        let by = &moves[pivot][..=n];
        let q = K::negative(K::quotient(b[0], by[0]));
        b[0] = K::add_product(b[0], q, by[0]).ok_or(OVERFLOW)?;
        if K::size(b[0]) != 0 {
            return Err(CONTRADICTED);
        }
        for (c, &d) in b.iter_mut().zip(by).skip(1) {
            *c = K::add_product(*c, q, d).ok_or(OVERFLOW)?;
        }
        moves.copy_within(pivot + 1.., pivot);
        self.k -= 1;
        std::mem::swap(&mut self.main, &mut self.spare);
        Ok(Done::Quiet)
    }

    /// The plan of a choice, a number for each move.
    fn pick<K: Kind>(&self, choice: &[i64], plan: &mut [i64]) -> Result<(), Refusal> {
        for (i, entry) in plan.iter_mut().enumerate() {
            let mut sum = self.main.plan[i + 1];
            for (column, &number) in self.main.moves[..self.k].iter().zip(choice) {
                sum = K::add_product(sum, column[i + 1], number).ok_or(OVERFLOW)?;
            }
            *entry = sum;
        }
        Ok(())
    }
}

const NO_DIGIT: u8 = 0xFF;
/// The value of a hexadecimal digit; NO_DIGIT for any other byte.
const DIGIT: [u8; 256] = {
    let mut table = [NO_DIGIT; 256];
    let mut value = 0;
    while value < 16 {
        table[b"0123456789ABCDEF"[value] as usize] = value as u8;
        value += 1;
    }
    table
};

fn value(digits: &[u8]) -> u32 {
    digits.iter().fold(0, |sum, &digit| sum << 4 | u32::from(DIGIT[digit as usize]))
}

enum Frame {
    Open,
    OnSheet(Call),
}

/// What can be asked of an open sheet.
enum Call {
    Post,
    Clear,
    Pick,
    Show,
}

/// The place of a number's first digit.
fn place_of(index: usize) -> i32 {
    4 + 8 * index as i32
}

/// Reads a line's frame and its numbers; gives the frame and their count.
fn read_line(line: &[u8], words: &mut [i64; NUMBERS]) -> Result<(Frame, usize), Refusal> {
    if !(4..=204).contains(&line.len()) {
        return Err((3, NO_PLACE));
    }
    if let Some(place) = line.iter().position(|&byte| DIGIT[byte as usize] == NO_DIGIT) {
        return Err((4, place as i32));
    }
    let count = value(&line[2..4]) as usize;
    if line.len() != 4 + 8 * count {
        return Err((5, 2));
    }
    let frame = match value(&line[..2]) {
        0x01 => Frame::Open,
        0x02 => Frame::OnSheet(Call::Post),
        0x03 => Frame::OnSheet(Call::Clear),
        0x04 => Frame::OnSheet(Call::Pick),
        0x05 => Frame::OnSheet(Call::Show),
        _ => return Err((6, 0)),
    };
    for (index, (word, digits)) in words.iter_mut().zip(line[4..].chunks_exact(8)).enumerate() {
        let number = value(digits);
        if number == LOWEST {
            return Err((7, place_of(index)));
        }
        *word = i64::from(number as i32);
    }
    Ok((frame, count))
}

fn put_byte(out: &mut Vec<u8>, byte: u8) {
    const DIGITS: &[u8; 16] = b"0123456789ABCDEF";
    out.extend_from_slice(&[DIGITS[usize::from(byte >> 4)], DIGITS[usize::from(byte & 15)]]);
}

fn put_line(out: &mut Vec<u8>, frame: u8, numbers: &[i64]) {
    put_byte(out, frame);
    put_byte(out, numbers.len() as u8);
    for &number in numbers {
        for byte in (number as u32).to_be_bytes() {
            put_byte(out, byte);
        }
    }
    out.push(b'\n');
}

#[derive(Clone, Copy)]
enum State {
    NoSheet,
    Whole,
    Weekday,
}

struct Session {
    state: State,
    sheet: Sheet,
    words: [i64; NUMBERS],
    picked: [i64; UNKNOWNS],
}

impl Session {
    fn new() -> Self {
        Session { state: State::NoSheet, sheet: Sheet::new(), words: [0; NUMBERS], picked: [0; UNKNOWNS] }
    }

    fn line(&mut self, number: u32, line: &[u8], out: &mut Vec<u8>) {
        let done = self.work(line);
        let (answer, place) = match done {
            Ok(Done::Implied) => (1, NO_PLACE),
            Ok(_) => (0, NO_PLACE),
            Err(refusal) => refusal,
        };
        put_line(out, 0x81, &[i64::from(number), i64::from(answer), i64::from(place)]);
        let Sheet { n, k, main, .. } = &self.sheet;
        match done {
            Ok(Done::Picked) => put_line(out, 0x82, &self.picked[..*n]),
            Ok(Done::Shown) => {
                put_line(out, 0x83, &main.plan[1..=*n]);
                for column in &main.moves[..*k] {
                    put_line(out, 0x84, &column[1..=*n]);
                }
            }
            _ => {}
        }
    }

    fn work(&mut self, line: &[u8]) -> Result<Done, Refusal> {
        let (frame, count) = read_line(line, &mut self.words)?;
        match (self.state, frame) {
            (_, Frame::Open) => self.open(count),
            (State::NoSheet, Frame::OnSheet(_)) => Err((8, NO_PLACE)),
            (State::Whole, Frame::OnSheet(call)) => self.call::<Whole>(call, count),
            (State::Weekday, Frame::OnSheet(call)) => self.call::<Weekday>(call, count),
        }
    }

    fn open(&mut self, count: usize) -> Result<Done, Refusal> {
        if count != 3 {
            return Err((9, 2));
        }
        let [modulus, unknowns, list, ..] = self.words;
        let state = match modulus {
            0 => State::Whole,
            7 => State::Weekday,
            _ => return Err((10, 4)),
        };
        if !(1..=UNKNOWNS as i64).contains(&unknowns) {
            return Err((11, 12));
        }
        if !(0..=65_535).contains(&list) {
            return Err((12, 20));
        }
        self.state = state;
        self.sheet.open(unknowns as usize);
        Ok(Done::Quiet)
    }

    fn call<K: Kind>(&mut self, call: Call, count: usize) -> Result<Done, Refusal> {
        let n = self.sheet.n;
        let needed = match call {
            Call::Post => n + 1,
            Call::Pick => self.sheet.k,
            Call::Clear | Call::Show => 0,
        };
        if count != needed {
            return Err((9, 2));
        }
        let words = &self.words[..count];
        if let Some(index) = words.iter().position(|&word| !K::admits(word)) {
            return Err((14, place_of(index)));
        }
        match call {
            Call::Post => self.sheet.post::<K>(words),
            Call::Clear => {
                self.sheet.open(n);
                Ok(Done::Quiet)
            }
            Call::Pick => self.sheet.pick::<K>(words, &mut self.picked[..n]).map(|()| Done::Picked),
            Call::Show => Ok(Done::Shown),
        }
    }
}

fn main() -> io::Result<()> {
    const CHUNK: usize = 1 << 16;
    let mut session = Session::new();
    let (mut input, mut output) = (io::stdin().lock(), io::stdout().lock());
    let mut chunk = vec![0; CHUNK];
    let mut out = Vec::with_capacity(2 * CHUNK);
    // The first bytes of a line whose end is not read yet.
    let mut begun: Vec<u8> = Vec::with_capacity(HANDED_ON);
    let mut number = 0;
    while number < LAST_LINE {
        let read = match input.read(&mut chunk) {
            Ok(0) => break,
            Ok(read) => read,
            Err(error) if error.kind() == io::ErrorKind::Interrupted => continue,
            Err(error) => return Err(error),
        };
        let mut rest = &chunk[..read];
        while number < LAST_LINE {
            let end = rest.iter().position(|&byte| byte == b'\n');
            let part = &rest[..end.unwrap_or(rest.len())];
            let part = &part[..part.len().min(HANDED_ON - begun.len())];
            let Some(end) = end else {
                begun.extend_from_slice(part);
                break;
            };
            number += 1;
            if begun.is_empty() {
                session.line(number, part, &mut out);
            } else {
                begun.extend_from_slice(part);
                session.line(number, &begun, &mut out);
                begun.clear();
            }
            rest = &rest[end + 1..];
            if out.len() >= CHUNK {
                output.write_all(&out)?;
                out.clear();
            }
        }
        output.write_all(&out)?;
        output.flush()?;
        out.clear();
    }
    if number < LAST_LINE && !begun.is_empty() {
        session.line(number + 1, &begun, &mut out);
        output.write_all(&out)?;
    }
    output.flush()
}
