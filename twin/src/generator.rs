//! A fixed stream of calls with good and bad numbers. Everything is a plain function on u64 and no sum or product goes
//! past 64 bits, so that a program in another language can make the same stream.
//!
//! The recurrence: x' = 48271 x mod 2147483647, from x = 1. (The 10,000th number is 399268537.)
//! Call i, from 0, draws the next twelve numbers r0 to r11, whatever its kind. They, the phase (i div 256) and a guess
//! at which transactions are open give everything about the call; the mode is the phase mod 10.

#![allow(clippy::manual_is_multiple_of, clippy::manual_range_contains)] // plain arithmetic is wanted here

use crate::scripts::{Scripts, NO_SCRIPT};

pub const SEED: u64 = 1;

const DRAWS: usize = 12;
const PHASE: u64 = 256;
const MODES: u64 = 10;

// The modes. Two differ by the tables below alone: 1, crowded, has few descriptors and transactions and many Commits; 6,
// scattered, has few descriptors and transactions and few Commits, so that lists of places get long.
const MIXED: u64 = 0;
const MANY_RECORDS: u64 = 2; // Writes of 0 to 2 bytes, until the log has 64 records
const LONG_WRITES: u64 = 3; // until the log has 4,096 bytes
const NEAR_END: u64 = 4; // Seeks around 4,096
const LONG_READS: u64 = 5;
const SHORT_FILES: u64 = 7; // Seeks and Writes near the start, mostly in steps of 4, so that ends meet; more Freshes
const QUIET: u64 = 8; // begins with a Fresh, and has few transactions, so that often none is open; Undos and dispatchers
const READY: u64 = 9; // begins with a Fresh; a descriptor a transaction, so that few writes have no place; best orders

// The kinds of calls.
pub const FRESH: u64 = 0;
pub const BEGIN: u64 = 1;
pub const SEEK: u64 = 2;
pub const WRITE: u64 = 3;
pub const GET_FILE_POINTER: u64 = 4;
pub const READ: u64 = 5;
pub const PLACES: u64 = 6;
pub const COMMIT: u64 = 7;
pub const ABORT: u64 = 8;
pub const WINDOW: u64 = 9;
pub const UNDO: u64 = 10;
pub const DISPATCH: u64 = 11;
pub const BEST: u64 = 12;

const KINDS: u64 = 13;

/// How many of 1,000 calls are of each kind, for each mode (thirteen numbers a mode).
const WEIGHTS: [u64; 130] = [
    4, 20, 200, 250, 80, 207, 40, 102, 43, 40, 5, 5, 4, // mixed
    4, 20, 155, 215, 120, 186, 40, 162, 44, 40, 5, 5, 4, // crowded
    4, 10, 60, 787, 10, 56, 40, 12, 8, 10, 1, 1, 1, // many records
    4, 20, 208, 419, 30, 91, 40, 92, 53, 40, 1, 1, 1, // long writes
    4, 20, 200, 260, 80, 141, 40, 151, 50, 40, 5, 5, 4, // near the end
    4, 20, 190, 240, 60, 251, 40, 102, 39, 40, 5, 5, 4, // long reads
    4, 20, 333, 335, 20, 100, 146, 16, 10, 10, 1, 1, 4, // scattered
    24, 20, 50, 310, 10, 316, 16, 180, 30, 30, 5, 5, 4, // short files
    4, 10, 210, 392, 20, 70, 10, 110, 20, 20, 65, 65, 4, // quiet
    4, 10, 200, 240, 50, 160, 6, 20, 40, 20, 5, 5, 240, // ready
];

/// How many transaction numbers a mode mostly uses.
const TRANSACTIONS_USED: [u64; 10] = [8, 4, 2, 3, 6, 8, 2, 4, 1, 8];
/// Through how many files of the usual arrangement a mode goes (each by two descriptors).
const FILES_USED: [u64; 10] = [8, 2, 8, 8, 3, 4, 2, 2, 2, 2];

#[derive(Clone, Copy, Debug)]
pub struct Generator {
    /// The last number drawn.
    x: u64,
    /// How many calls were made.
    made: u64,
    /// Which transactions are open, as far as the calls made let guess (not looking at what was refused).
    open: [bool; 8],
    /// Which of them made a Seek since they seemed begun.
    sought: [bool; 8],
}

/// A call as numbers. A number that its kind doesn't use is there all the same.
#[derive(Clone, Copy, Debug)]
pub struct Request {
    pub kind: u64,
    pub transaction: u64,
    pub descriptor: u64,
    /// The file that Places asks about, or whose window is set.
    pub file: u64,
    /// Where a Seek goes, how many bytes a Write has or a Read wants.
    pub number: u64,
    /// The minute of a Commit, a dispatcher or a best order, or a window's start.
    pub minute: u64,
    /// A window's end.
    pub end: u64,
    /// The length of a Read's, Places' or dispatcher's buffer. It is filled with `BLANK` before the call.
    pub buffer: u64,
    /// Byte i of a Write, or of a dispatcher's data, is (data_first + data_step i) mod 256.
    pub data_first: u64,
    pub data_step: u64,
    /// Fresh's list is the first `list_length` numbers.
    pub list: [u8; 17],
    pub list_length: u64,
    pub scripts: Scripts,
    /// The transactions of a best order are the first `members_length` numbers.
    pub members: [u64; 10],
    pub members_length: u64,
    pub budget: u64,
    pub damage: Damage,
}

pub const BLANK: u8 = 165;

/// Fresh's list in which descriptor d belongs to file d mod 8.
const USUAL: [u8; 17] = [0, 1, 2, 3, 4, 5, 6, 7, 0, 1, 2, 3, 4, 5, 6, 7, 0];

/// What is wrong with the buffers or the record lent to the call: `short` and `forgery` are 0 where nothing is.
#[derive(Clone, Copy, Debug)]
pub struct Damage {
    /// 1, 2, 3, 4: of the files, logs, marks, undo buffer only the first `short_length` bytes are lent.
    pub short: u64,
    pub short_length: u64,
    /// 1 to 27: the call gets a copy of the record with a field out of range (see forge.rs).
    pub forgery: u64,
    pub forged_transaction: u64,
    pub forged_index: u64,
    pub excess: u64,
}

impl Damage {
    pub fn is_any(&self) -> bool {
        self.short > 0 || self.forgery > 0
    }
}

impl Generator {
    pub fn new() -> Generator {
        Generator { x: SEED, made: 0, open: [false; 8], sought: [false; 8] }
    }

    /// Another stream for each seed. It begins with the phase, and so in the mode, that the seed picks.
    pub fn seeded(seed: u64) -> Generator {
        let spread = seed % 2147483647 * 69621;
        Generator { x: 1 + spread % 2147483646, made: PHASE * (seed % (8 * MODES)), ..Generator::new() }
    }

    pub fn next_call(&mut self) -> Request {
        let mut r = [0; DRAWS];
        for draw in &mut r {
            self.x = step(self.x);
            *draw = self.x;
        }
        let phase = self.made / PHASE;
        let mode = phase % MODES;
        let request = if mode >= QUIET && self.made % PHASE == 0 {
            Request { list: USUAL, list_length: 16, ..request(FRESH, 0, mode, self.open, &r) }
        } else {
            let transaction = transaction(phase, r[1]);
            let kind = sought_first(mode, kind(mode, r[0]), transaction, self.sought);
            let (kind, transaction) = fitted(mode, kind, transaction, self.open, &r);
            request(kind, transaction, mode, self.open, &r)
        };
        self.made += 1;
        self.open = guess(self.open, &request);
        self.sought = guess_sought(self.sought, &request);
        request
    }
}

impl Default for Generator {
    fn default() -> Self {
        Generator::new()
    }
}

/// The recurrence.
pub fn step(x: u64) -> u64 {
    x * 48271 % 2147483647
}

fn request(kind: u64, transaction: u64, mode: u64, open: [bool; 8], r: &[u64; DRAWS]) -> Request {
    let zeros = r[6] / 256 % 4 == 0;
    let (members, members_length) = members(open, r);
    Request {
        kind,
        transaction,
        descriptor: descriptor(mode, transaction, r[2]),
        file: file(mode, r[2]),
        number: number(kind, mode, r[3], r[4]),
        minute: if kind >= DISPATCH { minute(r[7] / 128, r[8]) } else { minute(r[3], r[4]) },
        end: if r[10] % 2 == 0 { minute(r[3], r[4]) } else { minute(r[5], r[6]) },
        buffer: buffer(kind, mode, r),
        data_first: if zeros { 0 } else { r[5] % 256 },
        data_step: if zeros { 0 } else { r[6] % 256 },
        list: list(r),
        list_length: list_length(r[3], r[4]),
        scripts: scripts(r),
        members,
        members_length,
        budget: budget(members_length, r[6]),
        damage: damage(kind, r),
    }
}

fn kind(mode: u64, r: u64) -> u64 {
    let mut rest = r % 1000;
    for kind in FRESH..BEST {
        let weight = WEIGHTS[(KINDS * mode + kind) as usize];
        if rest < weight {
            return kind;
        }
        rest -= weight;
    }
    BEST
}

/// In the ready mode the first Write of a transaction is made a Seek.
fn sought_first(mode: u64, kind: u64, transaction: u64, sought: [bool; 8]) -> u64 {
    if mode == READY && kind == WRITE && transaction < 8 && !sought[transaction as usize] {
        SEEK
    } else {
        kind
    }
}

/// Seven times out of eight, a call on a transaction that seems not to be open is made a Begin (in the quiet mode, while none
/// seems open, as often an Undo or a dispatcher), and one of these two while one seems open a Commit or an Abort of the
/// first such.
fn fitted(mode: u64, kind: u64, transaction: u64, open: [bool; 8], r: &[u64; DRAWS]) -> (u64, u64) {
    let first = first_open(open);
    let on_transaction = SEEK <= kind && kind <= ABORT && transaction < 8;
    if r[11] % 8 == 0 {
        (kind, transaction)
    } else if on_transaction && !open[transaction as usize] {
        (if mode == QUIET && first == 8 { at_rest(r[10]) } else { BEGIN }, transaction)
    } else if (kind == UNDO || kind == DISPATCH) && first < 8 {
        (if r[9] % 4 == 0 { ABORT } else { COMMIT }, first)
    } else {
        (kind, transaction)
    }
}

fn at_rest(r: u64) -> u64 {
    if r % 3 == 0 {
        UNDO
    } else if r % 3 == 1 {
        DISPATCH
    } else {
        BEGIN
    }
}

/// The lowest number of a transaction that seems open, 8 where none does.
fn first_open(open: [bool; 8]) -> u64 {
    let mut t = 0;
    while t < 8 && !open[t as usize] {
        t += 1;
    }
    t
}

/// The transactions that seem open after the call.
fn guess(open: [bool; 8], request: &Request) -> [bool; 8] {
    let mut open = open;
    if request.damage.is_any() {
        return open;
    }
    if request.kind == FRESH && is_good(&request.list, request.list_length) {
        return [false; 8];
    }
    if request.transaction > 7 {
        return open;
    }
    if request.kind == BEGIN {
        open[request.transaction as usize] = true;
    }
    if request.kind == ABORT || request.kind == COMMIT && request.minute < 1440 {
        open[request.transaction as usize] = false;
    }
    open
}

/// The transactions that seem to have made a Seek since their Begin.
fn guess_sought(sought: [bool; 8], request: &Request) -> [bool; 8] {
    let mut sought = sought;
    let counts = request.kind == BEGIN || request.kind == SEEK;
    if counts && request.transaction < 8 && !request.damage.is_any() {
        sought[request.transaction as usize] = request.kind == SEEK;
    }
    sought
}

/// Sixteen numbers up to 7.
fn is_good(list: &[u8; 17], length: u64) -> bool {
    let mut good = length == 16;
    for &number in &list[..16] {
        good = good && number < 8;
    }
    good
}

/// Mostly one of a few that follow the phase, sometimes (not in the quiet mode) any of the eight, now and then 8 or 9.
fn transaction(phase: u64, r: u64) -> u64 {
    let class = r % 40;
    let value = r / 40;
    if class == 0 {
        8 + value % 2
    } else if class < 4 && phase % MODES != QUIET {
        value % 8
    } else {
        (phase + phase / 8 + value % TRANSACTIONS_USED[(phase % MODES) as usize]) % 8
    }
}

/// One of the mode's descriptors (in the ready mode mostly that of the transaction), now and then 16 or 17.
fn descriptor(mode: u64, transaction: u64, r: u64) -> u64 {
    let class = r % 40;
    let value = r / 40;
    if class == 0 {
        16 + value % 2
    } else if mode == READY && class > 3 {
        transaction % 2 + 8 * (transaction / 2 % 2)
    } else {
        value % FILES_USED[mode as usize] + 8 * (value / 64 % 2)
    }
}

/// One of the mode's files, now and then 8 or 9.
fn file(mode: u64, r: u64) -> u64 {
    let class = r % 40;
    let value = r / 40;
    if class == 0 {
        8 + value % 2
    } else {
        value % FILES_USED[mode as usize]
    }
}

fn number(kind: u64, mode: u64, class: u64, value: u64) -> u64 {
    if kind == SEEK {
        seek_to(mode, class % 16, value)
    } else if kind == WRITE {
        write_length(mode, class % 16, value)
    } else {
        read_count(mode, class % 16, value)
    }
}

fn seek_to(mode: u64, class: u64, value: u64) -> u64 {
    if mode == NEAR_END && class < 10 {
        4084 + value % 14
    } else if mode >= SHORT_FILES {
        if class < 12 {
            4 * (value % 4)
        } else {
            value % 16
        }
    } else if class < 6 {
        value % 4
    } else if class < 11 {
        value % 64
    } else if class < 13 {
        value % 4096
    } else if class < 15 {
        4088 + value % 14
    } else {
        value % 65536
    }
}

fn write_length(mode: u64, class: u64, value: u64) -> u64 {
    if mode == MANY_RECORDS && class < 15 {
        if class < 10 {
            0
        } else {
            value % 3
        }
    } else if mode == LONG_WRITES && class < 14 {
        if class < 12 {
            200 + value % 1300
        } else {
            3000 + value % 1098
        }
    } else if mode >= SHORT_FILES {
        if class < 12 {
            4
        } else {
            value % 9
        }
    } else if class < 3 {
        0
    } else if class < 13 {
        value % 9
    } else if class < 15 {
        value % 200
    } else {
        value % 4098
    }
}

/// Mostly around midnight and noon, sometimes any, now and then 1,440 or more.
fn minute(class: u64, value: u64) -> u64 {
    if class % 16 == 0 {
        1440 + value % 2 * (value / 2 % 64096)
    } else if class % 16 < 12 {
        (720 * (value % 2) + 1439 + value / 2 % 3) % 1440
    } else {
        value % 1440
    }
}

fn buffer(kind: u64, mode: u64, r: &[u64; DRAWS]) -> u64 {
    if kind == PLACES {
        list_room(r[3] % 16, r[4])
    } else if kind == DISPATCH {
        reader_length(mode, r[2])
    } else {
        reader_length(mode, r[3])
    }
}

/// Often room for a pair or two, always below five; otherwise 64 bytes, or 300, which every list fits.
fn list_room(class: u64, value: u64) -> u64 {
    if class < 10 {
        value % 20
    } else if class < 13 {
        64
    } else {
        300
    }
}

/// Classes 0 to 11: a buffer of 16; then 64, 300, 4,096 (or 16) and 5,000 (or none).
fn reader_length(mode: u64, class: u64) -> u64 {
    let class = class % 16;
    let long = mode == LONG_READS || mode == MIXED;
    if class == 12 {
        64
    } else if class == 13 {
        300
    } else if class == 14 && long {
        4096
    } else if class == 15 {
        if mode == LONG_READS {
            5000
        } else {
            0
        }
    } else {
        16
    }
}

fn read_count(mode: u64, class: u64, value: u64) -> u64 {
    let length = reader_length(mode, class);
    if length == 4096 {
        4080 + value % 20
    } else if length == 0 {
        value % 2
    } else if class == 10 || class == 11 {
        12 + value % 9
    } else {
        value % (length + 1)
    }
}

/// Descriptor d belongs to file d mod 8, or to another by a line through d; often one number is above 7.
fn list(r: &[u64; DRAWS]) -> [u8; 17] {
    let usual = r[10] % 4 != 0;
    let factor = if usual { 1 } else { r[10] / 4 % 8 };
    let shift = if usual { 0 } else { r[11] % 8 };
    let mut list = [0; 17];
    for d in 0..17 {
        list[d as usize] = ((factor * d + shift) % 8) as u8;
    }
    if r[3] / 8 % 8 < 5 {
        list[(r[8] % 16) as usize] = (8 + r[9] % 248) as u8;
    }
    list
}

fn list_length(class: u64, value: u64) -> u64 {
    if class % 8 == 0 {
        15 + 2 * (value % 2)
    } else {
        16
    }
}

/// One to eight scripts, sometimes none or too many; now and then one is too long or writes past the data.
fn scripts(r: &[u64; DRAWS]) -> Scripts {
    let class = r[3] % 16;
    Scripts {
        count: if class == 0 {
            9 + r[4] % 8
        } else if class == 1 {
            0
        } else {
            1 + r[4] % 8
        },
        data: r[5] / 256 % 64,
        long: if r[8] % 32 == 0 { r[8] / 32 % 8 } else { NO_SCRIPT },
        past: if r[9] % 16 == 0 { r[9] / 16 % 8 } else { NO_SCRIPT },
        base: r[4],
        stride: r[5],
    }
}

/// Up to eight of the transactions that seem open, in a changing order; now and then others, none, a repeat, a number above 7
/// or too many.
fn members(open: [bool; 8], r: &[u64; DRAWS]) -> ([u64; 10], u64) {
    let class = r[3] % 32;
    let any = class == 0 || class == 3 || class == 5;
    let most = if class == 5 { 8 } else { 1 + r[4] % 8 };
    let mut members = [8 + r[4] / 8 % 2; 10];
    let mut length = 0;
    for i in 0..8 {
        let t = (r[5] % 8 + (1 + 2 * (r[5] / 8 % 4)) * i) % 8;
        if (open[t as usize] || any) && length < most {
            members[length as usize] = t;
            length += 1;
        }
    }
    if class == 1 {
        length = 0;
    } else if class == 2 {
        members[length as usize] = members[0];
        length += 1;
    } else if class == 3 || class == 5 {
        length += 1;
    } else if class == 4 {
        length += 2;
    }
    (members, length)
}

/// Mostly up to 30 orders, often as many as there are of one to five; now and then 0, or 40,320 and more. A larger budget is
/// given to short lists only.
fn budget(length: u64, r: u64) -> u64 {
    let value = r / 16;
    match r % 16 {
        0 => 0,
        1 => 40321 + value % 25000,
        2 if length < 5 => 40320,
        2 | 3 => 120,
        4 => 24,
        5 => 6,
        6 => 2,
        7 => 1,
        _ => 1 + value % 30,
    }
}

/// Of 128 calls two get a short buffer, two a forged record (Fresh doesn't), one has both.
fn damage(kind: u64, r: &[u64; DRAWS]) -> Damage {
    let class = r[7] % 128;
    let short = if class < 3 { 1 + r[8] % 4 } else { 0 };
    let whole = if short == 4 { 4096 } else { 32768 };
    let forged = class > 1 && class < 5 && kind != FRESH;
    Damage {
        short,
        short_length: if r[9] % 2 == 0 { whole - 1 } else { r[9] / 2 % whole },
        forgery: if forged { 1 + r[8] % 27 } else { 0 },
        forged_transaction: r[9] % 8,
        forged_index: r[9] / 8 % 16,
        excess: r[10],
    }
}

#[cfg(test)]
mod tests {
    use super::*;

    #[test]
    fn the_ten_thousandth_number_is_the_known_one() {
        let last = (0..10_000).fold(SEED, |x, _| step(x));
        assert_eq!(last, 399268537);
    }

    #[test]
    fn the_weights_of_each_mode_add_to_a_thousand() {
        for mode in WEIGHTS.chunks(KINDS as usize) {
            assert_eq!(mode.iter().sum::<u64>(), 1000);
        }
    }
}
