//! public_calls DATA: the listing that the program crates/public_calls must write, from the drill files in the folder DATA.
//!
//! Every public call of the proved monitor and its listing that no other program runs, by this implementation's own: drill files and pieces of
//! them run, turns of the drill program, calls read and written, lists on a fresh monitor, and which records are sound and equal.

use outside::drill::{self, Next};
use outside::monitor::{equal, run_list, Monitor};
use outside::words::{held, record, WORDS};
use std::fs;
use std::path::PathBuf;

/// What stands in an answer place and in a byte before a call.
const PLACE: i64 = 77;
const BYTE: u8 = 0xEE;

struct Data(PathBuf);

impl Data {
    fn file(&self, name: &str) -> Vec<u8> {
        fs::read(self.0.join(name)).expect("a drill file")
    }
}

/// What running a drill file tells: its code, how many calls were run, and the place after them.
struct Ran {
    code: i64,
    calls: usize,
    used: usize,
}

/// A piece of a drill file: as many whole calls as there are places for; 19 for a record that is not sound. The code is that of what
/// follows them: a call cut short is no refusal if the file goes on.
fn run_piece(m: &mut Monitor, input: &[u8], last: bool, answers: &mut [i64]) -> Ran {
    let mut list = Vec::new();
    let mut used = 0;
    let code = loop {
        match drill::read_call(input, used) {
            Next::Call(call, next) if list.len() + 6 <= answers.len() => {
                list.extend(call);
                used = next;
            }
            Next::Call(..) | Next::End => break 0,
            Next::Bad(17) if !last => break 0,
            Next::Bad(refusal) => break refusal,
        }
    };
    match run_list(m, &list, answers) {
        0 => Ran {
            code,
            calls: list.len() / 6,
            used,
        },
        refusal => refused(refusal),
    }
}

/// A drill file: 16 where its whole calls have too few places, and nothing is run.
fn run_file(m: &mut Monitor, input: &[u8], answers: &mut [i64]) -> Ran {
    let (calls, _) = drill::read_calls(input);
    if answers.len() < 6 * calls.len() {
        return refused(16);
    }
    run_piece(m, input, true, answers)
}

fn refused(code: i64) -> Ran {
    Ran {
        code,
        calls: 0,
        used: 0,
    }
}

/// What a turn of the drill program tells: how many bytes are kept at the front of the input's buffer, how many of text there are, and whether
/// the file is over.
struct Turned {
    kept: usize,
    written: usize,
    over: bool,
}

/// A turn: the first `count` bytes as a piece, its answers as lines, and what it leaves moved to the front. Where the text's buffer has less
/// room than the longest lines take, nothing is run (16), and there is no text.
fn list_turn(
    m: &mut Monitor,
    input: &mut [u8],
    count: usize,
    ended: bool,
    answers: &mut [i64],
    out: &mut [u8],
) -> Turned {
    let held = count.min(input.len());
    let mut lines = Vec::new();
    let ran = if out.len() < answers.len() / 6 * 132 + 22 {
        refused(16)
    } else {
        let ran = run_piece(m, &input[..held], ended, answers);
        for answer in answers.chunks_exact(6).take(ran.calls) {
            drill::push_answer(answer.try_into().expect("six fields"), &mut lines);
        }
        if ran.code != 0 {
            lines.extend(format!("{}\n", ran.code).bytes());
        }
        ran
    };
    out[..lines.len()].copy_from_slice(&lines);
    input.copy_within(ran.used..held, 0);
    let kept = held - ran.used;
    Turned {
        kept,
        written: lines.len(),
        over: ran.code != 0 || ended && kept == 0,
    }
}

/// A list written at a place: 17 where it ends inside a call, 16 where there is too little room.
fn write_calls(buffer: &mut [u8], place: usize, list: &[u32]) -> Result<usize, i64> {
    if !list.len().is_multiple_of(6) {
        return Err(17);
    }
    let calls: Vec<[u32; 6]> = list
        .chunks_exact(6)
        .map(|call| call.try_into().expect("six numbers"))
        .collect();
    let room = buffer.get_mut(place..).ok_or(16)?;
    Ok(place + drill::write_calls(&calls, room)?)
}

fn yes(is: bool) -> &'static str {
    if is {
        "yes"
    } else {
        "no"
    }
}

/// Answer places, six to a line.
fn show_places(answers: &[i64]) {
    for six in answers.chunks(6) {
        let six: Vec<String> = six.iter().map(i64::to_string).collect();
        println!("{}", six.join(" "));
    }
}

/// Did any word of the record change?
fn changes(before: &Monitor, after: &Monitor) -> &'static str {
    if record(before) == record(after) {
        "kept"
    } else {
        "changed"
    }
}

fn show_ran(before: &Monitor, after: &Monitor, ran: &Ran, answers: &[i64]) {
    let Ran { code, calls, used } = ran;
    let record = changes(before, after);
    println!("code {code}, calls {calls}, used {used}, record {record}");
    show_places(answers);
}

fn hex(bytes: &[u8]) -> String {
    bytes.iter().map(|b| format!(" {b:02x}")).collect()
}

fn show_file(m: &Monitor, name: &str, input: &[u8], places: usize) {
    print!("run_file {name}, {} bytes, {places} places: ", input.len());
    let mut answers = vec![PLACE; places];
    let mut after = m.clone();
    let ran = run_file(&mut after, input, &mut answers);
    show_ran(m, &after, &ran, &answers);
}

fn show_piece(m: &Monitor, name: &str, input: &[u8], last: bool, places: usize) {
    let (bytes, goes) = (input.len(), if last { "ends" } else { "goes on" });
    print!("run_piece {name}, {bytes} bytes, {goes}, {places} places: ");
    let mut answers = vec![PLACE; places];
    let mut after = m.clone();
    let ran = run_piece(&mut after, input, last, &mut answers);
    show_ran(m, &after, &ran, &answers);
}

/// A record that is not sound: its last transaction number is 60001.
fn unsound() -> Monitor {
    Monitor {
        last_transaction: 60_001,
        ..Monitor::fresh()
    }
}

fn files(data: &Data) {
    let fresh = Monitor::fresh();
    for (name, places) in [
        ("case-00", 27),
        ("case-00", 23),
        ("case-01", 3),
        ("case-01", 0),
        ("case-06", 15),
        ("case-06", 11),
        ("case-35", 9),
        ("case-35", 5),
        ("case-41", 9),
        ("case-43", 9),
        ("case-45", 9),
        ("case-48", 9),
        ("case-48", 5),
        ("base", 237),
        ("base", 233),
    ] {
        show_file(&fresh, name, &data.file(name), places);
    }
    let two = data.file("case-06");
    for cut in 0..=two.len() {
        show_file(&fresh, "case-06", &two[..cut], 12);
    }
    println!("last transaction number 60001");
    for (name, places) in [
        ("case-00", 27),
        ("case-00", 23),
        ("case-01", 0),
        ("case-43", 9),
    ] {
        show_file(&unsound(), name, &data.file(name), places);
    }
}

fn pieces(data: &Data) {
    let fresh = Monitor::fresh();
    for (name, last, places) in [
        ("base", false, 0),
        ("base", false, 5),
        ("base", false, 6),
        ("base", true, 11),
        ("base", true, 60),
        ("case-41", false, 9),
        ("case-43", false, 9),
        ("case-43", true, 9),
        ("case-43", true, 5),
        ("case-48", false, 9),
        ("case-48", false, 5),
    ] {
        show_piece(&fresh, name, &data.file(name), last, places);
    }
    let two = data.file("case-06");
    for cut in 0..=two.len() {
        show_piece(&fresh, "case-06", &two[..cut], false, 12);
        show_piece(&fresh, "case-06", &two[..cut], true, 6);
    }
    println!("last transaction number 60001");
    show_piece(&unsound(), "case-00", &data.file("case-00"), false, 27);
    show_piece(&unsound(), "case-43", &data.file("case-43"), true, 0);
}

/// A turn with so many answer places and room for so much text; what it told, and its text.
fn show_turn(
    m: &mut Monitor,
    name: &str,
    input: &mut [u8],
    count: usize,
    ended: bool,
    places: usize,
    room: usize,
) -> (Turned, Vec<u8>) {
    let (size, goes) = (input.len(), if ended { "ends" } else { "goes on" });
    print!("list_turn {name}, {count} bytes of {size}, {goes}, {places} places, room {room}: ");
    let mut answers = vec![PLACE; places];
    let mut out = vec![BYTE; room];
    let before = m.clone();
    let turned = list_turn(m, input, count, ended, &mut answers, &mut out);
    let (text, rest) = out.split_at(turned.written);
    println!(
        "kept {}, written {}, over {}, record {}, past the text kept {}",
        turned.kept,
        turned.written,
        yes(turned.over),
        changes(&before, m),
        yes(rest.iter().all(|&b| b == BYTE))
    );
    print!("{}", String::from_utf8_lossy(text));
    println!("input{}", hex(input));
    show_places(&answers);
    (turned, text.to_vec())
}

/// A turn on a stored file at the front of a buffer of so many bytes.
fn show_once(
    m: &Monitor,
    data: &Data,
    (name, size, count, ended, places, room): (&str, usize, usize, bool, usize, usize),
) {
    let mut input = data.file(name);
    input.resize(size, BYTE);
    show_turn(&mut m.clone(), name, &mut input, count, ended, places, room);
}

/// A file read in two chunks, the second behind what the first turn leaves, and turns until it is over: their texts are what the drill program
/// of this implementation prints.
fn read_in_two(file: &[u8], cut: usize, places: usize, room: usize) {
    let mut m = Monitor::fresh();
    let mut input = [BYTE; 32];
    input[..cut].copy_from_slice(&file[..cut]);
    let (first, mut text) = show_turn(&mut m, "case-06", &mut input, cut, false, places, room);
    let mut count = first.kept + file.len() - cut;
    input[first.kept..count].copy_from_slice(&file[cut..]);
    loop {
        let (turned, more) = show_turn(&mut m, "case-06", &mut input, count, true, places, room);
        text.extend(more);
        count = turned.kept;
        if turned.over {
            break;
        }
    }
    let mut whole = Vec::new();
    drill::run(file, &mut whole).expect("a file in memory");
    assert_eq!(text, whole);
}

fn turns(data: &Data) {
    let fresh = Monitor::fresh();
    for case in [
        ("case-00", 25, 25, false, 24, 550),
        ("case-00", 28, 25, true, 27, 550),
        ("case-06", 30, 20, false, 12, 286),
        ("case-06", 30, 20, true, 12, 286),
        ("case-06", 20, 27, false, 12, 286),
        ("case-06", 27, usize::MAX, true, 12, 286),
        ("case-06", 27, 27, true, 6, 154),
        ("case-06", 27, 27, true, 5, 22),
        ("case-06", 27, 27, false, 12, 285),
        ("case-06", 27, 27, true, 0, 21),
        ("case-35", 16, 11, false, 12, 286),
        ("case-43", 16, 7, false, 12, 286),
        ("case-48", 16, 14, false, 12, 286),
        ("case-48", 16, 14, true, 5, 22),
        ("case-01", 4, 0, false, 6, 154),
        ("case-01", 4, 0, true, 6, 154),
        ("case-01", 0, 1, true, 6, 154),
    ] {
        show_once(&fresh, data, case);
    }
    let two = data.file("case-06");
    for cut in 0..=two.len() {
        read_in_two(&two, cut, 12, 286);
    }
    read_in_two(&two, 20, 6, 154);
    println!("last transaction number 60001");
    for case in [
        ("case-00", 25, 25, false, 24, 550),
        ("case-01", 4, 0, true, 6, 154),
        ("case-00", 25, 25, false, 24, 549),
    ] {
        show_once(&unsound(), data, case);
    }
}

/// What stands at a place; the place after it, where it is a call.
fn show_read(name: &str, bytes: &[u8], place: usize) -> usize {
    print!("read_call {name} at {place}: ");
    match drill::read_call(bytes, place) {
        Next::Call([clock, party, kind, a, b, c], next) => {
            println!("{clock} {party} {kind} {a} {b} {c}, next {next}");
            next
        }
        Next::End => {
            println!("end");
            place
        }
        Next::Bad(refusal) => {
            println!("{refusal}");
            place
        }
    }
}

fn reads(data: &Data) {
    for name in ["case-06", "case-45"] {
        let bytes = data.file(name);
        for place in 0..=bytes.len() + 1 {
            show_read(name, &bytes, place);
        }
        show_read(name, &bytes, usize::MAX);
    }
}

/// The numbers of a file's calls.
fn numbers(bytes: &[u8]) -> Vec<u32> {
    drill::read_calls(bytes).0.concat()
}

fn show_write(list: &[u32], place: usize, room: usize) {
    let mut buffer = vec![BYTE; room];
    print!(
        "write_calls {} numbers at {place} in {room} bytes: ",
        list.len()
    );
    match write_calls(&mut buffer, place, list) {
        Ok(next) => print!("next {next}"),
        Err(refusal) => print!("{refusal}"),
    }
    println!(",{}", hex(&buffer));
    let next = show_read("there", &buffer, place);
    show_read("there", &buffer, next);
}

fn writes(data: &Data) {
    let list = numbers(&data.file("case-06"));
    for (count, place, room) in [
        (12, 0, 27),
        (12, 0, 26),
        (12, 2, 29),
        (12, 2, 28),
        (12, 2, 32),
        (6, 0, 13),
        (6, 0, 12),
        (0, 4, 4),
        (0, 5, 4),
        (6, 5, 4),
        (0, 0, 0),
        (11, 0, 32),
        (1, 0, 32),
        (7, 5, 4),
        (12, usize::MAX, 32),
    ] {
        show_write(&list[..count], place, room);
    }
}

fn fresh_lists(data: &Data, base: &Monitor) {
    let list = numbers(&data.file("base"));
    for (count, places) in [(234, 237), (234, 233), (233, 237), (233, 0), (6, 6), (0, 0)] {
        print!("run_fresh {count} numbers, {places} places: ");
        let mut answers = vec![PLACE; places];
        let mut m = Monitor::fresh();
        let code = run_list(&mut m, &list[..count], &mut answers);
        let (as_base, as_fresh) = (equal(&m, base), equal(&m, &Monitor::fresh()));
        println!(
            "code {code}, equal to base {}, to fresh {}",
            yes(as_base),
            yes(as_fresh)
        );
        show_places(&answers);
    }
}

const HEAD: [&str; 4] = ["clock", "lastlink", "lasttx", "count"];
const PARTY: [&str; 18] = [
    "opened",
    "control",
    "timeout",
    "services low",
    "services high",
    "owned",
    "deadline low",
    "deadline high",
    "rollbackonly",
    "served",
    "report first",
    "report second",
    "report third",
    "report fourth",
    "mayrequest low",
    "mayrequest high",
    "mayadvertise low",
    "mayadvertise high",
];
const LINK: [&str; 19] = [
    "number",
    "kind",
    "originator",
    "attached",
    "service",
    "tx",
    "state",
    "server",
    "first",
    "outcome",
    "ending",
    "sender",
    "granting",
    "disconnected",
    "unread first",
    "unread second",
    "unread third",
    "unread fourth",
    "filled",
];

fn name(at: usize) -> String {
    match at {
        0..4 => HEAD[at].into(),
        4..292 => format!("party {} {}", (at - 4) / 18, PARTY[(at - 4) % 18]),
        _ => format!("link at {} {}", (at - 292) / 19, LINK[(at - 292) % 19]),
    }
}

/// A monitor made fresh, whatever it was.
fn made_fresh(base: &Monitor) {
    for (name, m) in [
        ("base", base),
        ("last transaction number 60001", &unsound()),
    ] {
        let before = equal(m, &Monitor::fresh());
        let made = Monitor::fresh();
        let after = equal(&made, &Monitor::fresh());
        let words = record(&made);
        let is_right = |at: usize| (4..292).contains(&at) && (at - 4) % 18 >= 14;
        let all = |rights: bool, is: u32| {
            let mut words = words.words().iter().enumerate();
            words.all(|(at, &word)| is_right(at) != rights || word == is)
        };
        println!(
            "monitor_fresh {name}: equal to fresh before {}, after {}, rights full {}, other words 0 {}",
            yes(before),
            yes(after),
            yes(all(true, u32::MAX)),
            yes(all(false, 0))
        );
    }
}

/// Each word of a record changed by itself. A number that this implementation cannot hold is none that its field may have, and the record
/// that has it is not sound, by document 01.
fn changed(base: &Monitor) {
    let words = record(base);
    for at in 0..WORDS {
        let word = words.words()[at];
        print!("{} {word}:", name(at));
        for other in [word ^ 1, word ^ 2, u32::MAX] {
            let mut changed = words;
            changed.words_mut()[at] = other;
            let (sound, same) =
                held(&changed).map_or((false, false), |m| (m.is_sound(), equal(base, &m)));
            print!(" {other} sound {} equal {}", yes(sound), yes(same));
            print!("{}", if other == u32::MAX { "\n" } else { "," });
        }
    }
}

fn main() {
    let data = Data(
        std::env::args_os()
            .nth(1)
            .expect("public_calls DATA")
            .into(),
    );
    files(&data);
    pieces(&data);
    turns(&data);
    reads(&data);
    writes(&data);
    let mut base = Monitor::fresh();
    run_file(&mut base, &data.file("base"), &mut [0; 234]);
    fresh_lists(&data, &base);
    made_fresh(&base);
    changed(&base);
}
