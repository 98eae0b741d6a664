// Calls the library from Rust on every case of a file that tests/outside/cases.py made, by declarations of its own, and compares
// the number, each byte of the outputs and of the ledger, and that the inputs are as they were. A report that was written is also read
// back and written again, and a ledger that was submitted to is added up and, where the report counts, submitted to again.
//
//     caller FILE [--case N]
//
// Each case runs twice, with other bytes in the outputs beforehand. An empty buffer is NULL the first time and a pointer that leads
// nowhere the second. The first failure ends the program.
use std::array::from_fn;
use std::mem::size_of;
use std::process::exit;
use std::ptr;

/// A record of a ledger.
#[repr(C)]
struct Record {
    fingerprint: [u8; 32],
    live_bytes: u64,
    in_use: u64,
}

#[rustfmt::skip]
extern "C" {
    fn tirmuzzle_digest(hash: u32, message: *const u8, message_length: usize, out: *mut u8, out_length: usize) -> u32;
    fn tirmuzzle_tag(hash: u32, key: *const u8, key_length: usize, message: *const u8, message_length: usize,
                     tag_length: usize, out: *mut u8, out_length: usize) -> u32;
    fn tirmuzzle_verify(hash: u32, key: *const u8, key_length: usize, message: *const u8, message_length: usize,
                        tag_length: usize, tag: *const u8, presented_length: usize) -> u32;
    fn tirmuzzle_extract(hash: u32, salt: *const u8, salt_length: usize, ikm: *const u8, ikm_length: usize,
                         out: *mut u8, out_length: usize) -> u32;
    fn tirmuzzle_expand(hash: u32, prk: *const u8, prk_length: usize, info: *const u8, info_length: usize,
                        out: *mut u8, out_length: usize) -> u32;
    fn tirmuzzle_report_fingerprint(report: *const u8, report_length: usize, key: *const u8, key_length: usize,
                                    out: *mut u8, out_length: usize) -> u32;
    fn tirmuzzle_report_keys(hash: u32, prk: *const u8, prk_length: usize, tenant: u32, machine: u64,
                             out: *mut u8, out_length: usize) -> u32;
    fn tirmuzzle_report_check(report: *const u8, report_length: usize, key: *const u8, key_length: usize) -> u32;
    fn tirmuzzle_report_read(report: *const u8, report_length: usize, fields: *mut u64, fields_count: usize) -> u32;
    fn tirmuzzle_report_site(report: *const u8, report_length: usize, place: u64, site: *mut u64, site_count: usize) -> u32;
    fn tirmuzzle_report_write(hash: u32, tenant: u32, machine: u64, report_number: u64, send_time: u64, attempt: u8, memory: u64,
                              labels: *const u8, labels_length: usize, label_lengths: *const u32, label_lengths_count: usize,
                              live_bytes: *const u64, live_bytes_count: usize, live_blocks: *const u32, live_blocks_count: usize,
                              key: *const u8, key_length: usize, out: *mut u8, out_length: usize, length: *mut u64) -> u32;
    fn tirmuzzle_ledger_submit(records: *mut Record, records_count: usize, report: *const u8, report_length: usize,
                               tag_key: *const u8, tag_key_length: usize, fingerprint_key: *const u8,
                               fingerprint_key_length: usize, seen: *mut u32) -> u32;
    fn tirmuzzle_ledger_total(records: *const Record, records_count: usize, total: *mut u64) -> u32;
}

const NAMES: [&str; 13] = [
    "digest", "tag", "verify", "extract", "expand",
    "report_fingerprint", "report_keys", "report_check", "report_read", "report_site", "report_write",
    "ledger_submit", "ledger_total",
];
const WRITE: usize = 10;
const SUBMIT: usize = 11;
const TOTAL: usize = 12;
const NOT_SOUND: u32 = 10;

const NUMBERS: usize = 7;
const INPUTS: usize = 5;
const LEDGER: usize = INPUTS; // the one that a report is submitted to
const OUTPUT: usize = LEDGER + 1;
const BESIDE: usize = OUTPUT + 1; // the number that a call answers beside its own
const BUFFERS: usize = BESIDE + 1;

/// The bytes of an element, how many elements there are, and what the file gives: of an input and of a ledger all, of an output what
/// the call must write. Before the call an input holds the same, a ledger other bytes, and an output nothing that the file gives.
#[derive(Clone, Copy)]
struct Buffer<'a> {
    size: usize,
    count: usize,
    before: &'a [u8],
    given: &'a [u8],
}

struct Case<'a> {
    call: usize,
    answer: u32,
    numbers: [u64; NUMBERS],
    buffers: [Buffer<'a>; BUFFERS],
}

/// What is still to be read of the file.
struct Rest<'a>(&'a [u8]);

impl<'a> Rest<'a> {
    fn bytes(&mut self, length: usize) -> &'a [u8] {
        let (taken, rest) = self.0.split_at(length);
        self.0 = rest;
        taken
    }

    fn number(&mut self, length: usize) -> u64 {
        self.bytes(length).iter().rev().fold(0, |number, byte| number << 8 | u64::from(*byte))
    }

    fn size(&mut self) -> usize {
        self.number(4) as usize
    }

    fn case(&mut self) -> Case<'a> {
        let (call, answer) = (self.size(), self.number(4) as u32);
        let numbers = [(); NUMBERS].map(|()| self.number(8));
        let described = [(); BUFFERS].map(|()| (self.size(), self.size(), self.size()));
        let buffers = from_fn(|i| {
            let (size, count, elements) = described[i];
            let given = self.bytes(size * elements);
            let (before, given) = match i {
                LEDGER => given.split_at(size * count),
                OUTPUT.. => (&[][..], given),
                _ => (given, given),
            };
            Buffer { size, count, before, given }
        });
        Case { call, answer, numbers, buffers }
    }
}

/// The memory of a buffer, aligned for its elements.
enum Lent {
    Bytes(Box<[u8]>),
    Halves(Box<[u32]>),
    Words(Box<[u64]>),
    Records(Box<[Record]>),
}

impl Record {
    fn holding(bytes: &[u8]) -> Record {
        let number = |at: usize| u64::from_le_bytes(bytes[at..at + 8].try_into().unwrap());
        Record { fingerprint: bytes[..32].try_into().unwrap(), live_bytes: number(32), in_use: number(40) }
    }

    fn content(&self) -> Vec<u8> {
        [&self.fingerprint[..], &self.live_bytes.to_le_bytes(), &self.in_use.to_le_bytes()].concat()
    }
}

impl Lent {
    /// Memory that holds these bytes, numbers with the lowest byte first.
    fn holding(bytes: &[u8], size: usize) -> Lent {
        match size {
            4 => Lent::Halves(bytes.chunks(4).map(|chunk| u32::from_le_bytes(chunk.try_into().unwrap())).collect()),
            8 => Lent::Words(bytes.chunks(8).map(|chunk| u64::from_le_bytes(chunk.try_into().unwrap())).collect()),
            48 => Lent::Records(bytes.chunks(48).map(Record::holding).collect()),
            _ => Lent::Bytes(bytes.into()),
        }
    }

    fn content(&self) -> Vec<u8> {
        match self {
            Lent::Bytes(bytes) => bytes.to_vec(),
            Lent::Halves(halves) => halves.iter().flat_map(|half| half.to_le_bytes()).collect(),
            Lent::Words(words) => words.iter().flat_map(|word| word.to_le_bytes()).collect(),
            Lent::Records(records) => records.iter().flat_map(Record::content).collect(),
        }
    }

    fn count(&self) -> usize {
        match self {
            Lent::Bytes(bytes) => bytes.len(),
            Lent::Halves(halves) => halves.len(),
            Lent::Words(words) => words.len(),
            Lent::Records(records) => records.len(),
        }
    }

    fn pointer(&mut self, empty_is_null: bool) -> *mut u8 {
        if self.count() == 0 && empty_is_null {
            return ptr::null_mut();
        }
        match self {
            Lent::Bytes(bytes) => bytes.as_mut_ptr(),
            Lent::Halves(halves) => halves.as_mut_ptr().cast(),
            Lent::Words(words) => words.as_mut_ptr().cast(),
            Lent::Records(records) => records.as_mut_ptr().cast(),
        }
    }
}

/// What a buffer holds that begins with these bytes and has the filling in the rest.
fn filled(buffer: &Buffer, given: &[u8], filling: u8) -> Vec<u8> {
    let mut content = given.to_vec();
    content.resize(buffer.size * buffer.count, filling);
    content
}

fn called(case: &Case, lent: &mut [Lent; BUFFERS], null: bool) -> u32 {
    let [a_count, b_count, c_count, d_count, e_count, ledger_count, out_count, _] = from_fn(|i| lent[i].count());
    let [a, b, c, d, e, ledger, out, beside] = from_fn(|i| lent[i].pointer(null));
    let n = case.numbers;
    let (hash, tag_length) = (n[0] as u32, n[1] as usize);
    // Each pointer has how many elements it is good for beside it, and no two of one call overlap.
    unsafe {
        match case.call {
            0 => tirmuzzle_digest(hash, a, a_count, out, out_count),
            1 => tirmuzzle_tag(hash, a, a_count, b, b_count, tag_length, out, out_count),
            2 => tirmuzzle_verify(hash, a, a_count, b, b_count, tag_length, c, c_count),
            3 => tirmuzzle_extract(hash, a, a_count, b, b_count, out, out_count),
            4 => tirmuzzle_expand(hash, a, a_count, b, b_count, out, out_count),
            5 => tirmuzzle_report_fingerprint(a, a_count, b, b_count, out, out_count),
            6 => tirmuzzle_report_keys(hash, a, a_count, n[1] as u32, n[2], out, out_count),
            7 => tirmuzzle_report_check(a, a_count, b, b_count),
            8 => tirmuzzle_report_read(a, a_count, out.cast(), out_count),
            9 => tirmuzzle_report_site(a, a_count, n[0], out.cast(), out_count),
            WRITE => tirmuzzle_report_write(
                hash, n[1] as u32, n[2], n[3], n[4], n[5] as u8, n[6], a, a_count, b.cast(), b_count, c.cast(), c_count,
                d.cast(), d_count, e, e_count, out, out_count, beside.cast(),
            ),
            SUBMIT => tirmuzzle_ledger_submit(ledger.cast(), ledger_count, a, a_count, b, b_count, c, c_count, beside.cast()),
            TOTAL => tirmuzzle_ledger_total(a.cast(), a_count, beside.cast()),
            _ => panic!("the file has an unknown call"),
        }
    }
}

/// What comes of reading a written report and writing it again: the fields, the sites as the bytes of the four inputs that they
/// were written from, and the report.
struct Back {
    numbers: Vec<u64>,
    columns: [Vec<u8>; 4],
    again: Vec<u8>,
}

fn read_back(report: &[u8], key: &[u8]) -> Result<Back, String> {
    let done = |what: &str, answer: u32| if answer == 0 { Ok(()) } else { Err(format!("{what} answers {answer}")) };
    let (mut fields, mut site) = ([0; 11], [0; 4]);
    let (mut labels, mut lengths, mut live, mut blocks) = (Vec::new(), Vec::new(), Vec::new(), Vec::new());
    let (mut again, mut length) = (vec![0; 3981], 0);
    // As above; the vectors are as long as they say.
    unsafe {
        done("check", tirmuzzle_report_check(report.as_ptr(), report.len(), key.as_ptr(), key.len()))?;
        done("read", tirmuzzle_report_read(report.as_ptr(), report.len(), fields.as_mut_ptr(), 11))?;
        for place in 0..fields[9] {
            done("site", tirmuzzle_report_site(report.as_ptr(), report.len(), place, site.as_mut_ptr(), 4))?;
            labels.extend_from_slice(&report[site[0] as usize..][..site[1] as usize]);
            lengths.push(site[1] as u32);
            live.push(site[2]);
            blocks.push(site[3] as u32);
        }
        let answer = tirmuzzle_report_write(
            fields[2] as u32, fields[3] as u32, fields[4], fields[5], fields[6], fields[7] as u8, fields[8],
            labels.as_ptr(), labels.len(), lengths.as_ptr(), lengths.len(), live.as_ptr(), live.len(), blocks.as_ptr(),
            blocks.len(), key.as_ptr(), key.len(), again.as_mut_ptr(), again.len(), &mut length,
        );
        done("writing again", answer)?;
    }
    again.truncate(length as usize);
    let columns = [
        labels,
        Lent::Halves(lengths.into()).content(),
        Lent::Words(live.into()).content(),
        Lent::Halves(blocks.into()).content(),
    ];
    Ok(Back { numbers: fields[2..9].to_vec(), columns, again })
}

/// What is wrong with a report that was written, where something is.
fn wrong_when_read(case: &Case, report: &[u8]) -> Option<String> {
    match read_back(report, case.buffers[4].given) {
        Err(said) => Some(format!("of the written report, {said}")),
        Ok(back) if back.numbers != case.numbers => Some("the written report has other fields".into()),
        Ok(back) if (0..4).any(|i| back.columns[i] != case.buffers[i].given) => Some("the written report has other sites".into()),
        Ok(back) if back.again != report => Some("the written report, read and written again, is another".into()),
        Ok(_) => None,
    }
}

/// What is wrong after a submission, where something is. The total of the ledger must be the sum of its used records, or refused where
/// the submission was refused for the ledger; and a report that was new or seen must be seen when it is submitted again, which changes
/// nothing.
fn wrong_after_submission(case: &Case, answer: u32, lent: &mut [Lent; BUFFERS], null: bool) -> Option<String> {
    let expected = match &lent[LEDGER] {
        Lent::Records(records) if answer != NOT_SOUND => {
            (0, records.iter().filter(|record| record.in_use == 1).map(|record| record.live_bytes).sum())
        }
        _ => (NOT_SOUND, 0),
    };
    let mut total = u64::MAX;
    let (records, count) = (lent[LEDGER].pointer(null), lent[LEDGER].count());
    // As above.
    let number = unsafe { tirmuzzle_ledger_total(records.cast(), count, &mut total) };
    if (number, total) != expected {
        return Some(format!("after the submission the total is {number}, {total}, and not {expected:?}"));
    }
    if answer != 0 {
        return None;
    }
    let again = (called(case, lent, null), lent[BESIDE].content(), lent[LEDGER].content());
    let seen = (0, vec![1, 0, 0, 0], case.buffers[LEDGER].given.to_vec());
    if again == seen { None } else { Some("the report is not seen when it is submitted again".into()) }
}

fn hex(bytes: &[u8]) -> String {
    bytes.iter().map(|byte| format!("{byte:02x}")).collect()
}

fn wrong(case: &Case, answer: u32, found: &[Vec<u8>; BUFFERS], filling: u8) -> Option<String> {
    if answer != case.answer {
        return Some("another answer".into());
    }
    for (place, buffer) in case.buffers.iter().enumerate() {
        if found[place] != filled(buffer, buffer.given, filling) {
            let names = ["another ledger", "another output", "another number beside the answer"];
            return Some(if place < INPUTS { "an input was changed" } else { names[place - INPUTS] }.into());
        }
    }
    let written = case.buffers[OUTPUT].given;
    if case.call == WRITE && answer == 0 { wrong_when_read(case, written) } else { None }
}

fn run(case: &Case, place: u64, seed: u64) {
    for (filling, null) in [(0x5a, true), (0xc3, false)] {
        let mut lent = case.buffers.map(|buffer| Lent::holding(&filled(&buffer, buffer.before, filling), buffer.size));
        let answer = called(case, &mut lent, null);
        let found = from_fn(|i| lent[i].content());
        let mut wrong = wrong(case, answer, &found, filling);
        if wrong.is_none() && case.call == SUBMIT {
            wrong = wrong_after_submission(case, answer, &mut lent, null);
        }
        if let Some(wrong) = wrong {
            eprintln!("caller.rs: case {place}, {}: {wrong}", NAMES[case.call]);
            eprintln!("  numbers in the order of the parameters, then zeros: {:?}", case.numbers);
            for input in &case.buffers[..INPUTS] {
                eprintln!("  input, {} bytes: {}", input.given.len(), hex(input.given));
            }
            eprintln!("  ledger before the call: {}", hex(case.buffers[LEDGER].before));
            eprintln!("  expected answer: {}, found: {answer}", case.answer);
            for output in LEDGER..BUFFERS {
                eprintln!("  expected output: {}", hex(&filled(&case.buffers[output], case.buffers[output].given, filling)));
                eprintln!("  found output:    {}", hex(&found[output]));
            }
            eprintln!("  again: tests/outside/run --seed {seed} --case {place}");
            exit(1);
        }
    }
}

/// Ends the program where a record has another layout than the header promises.
fn check_layout() {
    let record = Record::holding(&[0; 48]);
    let start = ptr::addr_of!(record) as usize;
    let fields = [
        ptr::addr_of!(record.fingerprint) as usize,
        ptr::addr_of!(record.live_bytes) as usize,
        ptr::addr_of!(record.in_use) as usize,
    ];
    assert_eq!(size_of::<Record>(), 48, "a record has another size");
    assert_eq!(fields.map(|field| field - start), [0, 32, 40], "the fields of a record stand in other places");
}

fn main() {
    check_layout();
    let words: Vec<String> = std::env::args().collect();
    let only: Option<u64> = match words.len() {
        2 => None,
        4 if words[2] == "--case" => Some(words[3].parse().expect("a number after --case")),
        _ => panic!("usage: caller FILE [--case N]"),
    };
    let content = std::fs::read(&words[1]).expect("the file of cases");
    let mut rest = Rest(&content);
    assert_eq!(rest.bytes(8), b"TIRMUZZL", "this is no file of cases");
    let (seed, cases) = (rest.number(8), rest.number(4));
    let mut done = 0;
    for place in 0..cases {
        let case = rest.case();
        if only.is_none() || only == Some(place) {
            run(&case, place, seed);
            done += 1;
        }
    }
    assert!(rest.0.is_empty(), "bytes stand after the last case");
    assert!(done > 0, "there is no such case");
    println!("{done} cases, each twice, seed {seed}");
}
