//! The command `examples`: right sides computed, everything else printed as it is.

mod common;

use common::{control, data, sealed, settings, Bench};
use peer::examples::examples;
use peer::random::Random;
use peer::script::replay;

fn worked(text: &[u8]) -> Vec<u8> {
    let mut out = Vec::new();
    examples(text, &mut out).expect("a vector takes everything");
    out
}

fn worked_text(text: &str) -> String {
    String::from_utf8(worked(text.as_bytes())).expect("text in, text out")
}

fn hex(bytes: &[u8]) -> String {
    bytes.iter().map(|byte| format!("{byte:02X}")).collect()
}

fn assert_right(text: &str) {
    assert_eq!(worked_text(text), text);
}

/// The examples of R10, answers of R8, and every kind of line. The right sides are written
/// down from the rules.
const RIGHT: &str = "\
# examples 1 to 6 -> the checksum, its high byte first here

checksum - -> 0000
checksum 313233343536373839 -> 2189
checksum 800000 -> 0CEC
checksum 810000 -> 5630
checksum a00000 -> 0FD7
checksum C00000 -> 0A9A
checksum 03000100 -> 3C15

hear 16 800000EC0C -> 0 ack 0
hear 16 8100003056 -> 0 ack 1
hear 16 A00000D70F -> 0 nak 0
hear 16 C000009A0A -> 0 reset
hear 16 03000100153C -> 0 data 0 ack 3, 1 bytes
hear 5 03000100153C -> 17 size
hear 5 03000100153D -> 17 size
hear 0 - -> 17 size
hear 16 0000 -> 17 size
hear 65535 800000EC -> 17 size
hear 16 800000EC0D -> 6 checksum
hear 16 0000000000 -> 18 length

hear 16 8000000CEC 1 -> 0 ack 0
hear 16 8100005630 1 -> 0 ack 1
hear 16 A000000FD7 1 -> 0 nak 0
hear 16 C000000A9A 001 -> 0 reset
hear 16 030001003C15 1 -> 0 data 0 ack 3, 1 bytes
hear 16 0000000000 1 -> 18 length
hear 16 800000EC0C 1 -> 6 checksum
hear 16 C000009A0A 1 -> 6 checksum
hear 16 8000000CEC -> 6 checksum
hear 16 8000000CEC 0 -> 6 checksum
hear 16 8000000CEC 2 -> 6 checksum
hear 16 8000000CEC 255 -> 6 checksum
hear 16 800000EC0C 0 -> 0 ack 0
hear 16 800000EC0C 2 -> 0 ack 0
hear 16 800000EC0C 255 -> 0 ack 0
hear 5 030001003C15 1 -> 17 size

# examples 7 to 9 and 5
lend 22 16
start 16 2 100 50 3 -> 0 - - 0
take 0 0000000000 -> 18 A00000D70F - 0
take 0 0000000000 -> 18 - - 0
take 0 0000000001 -> 6 - - 0
take 0 00000000 -> 17 - - 0
start 016 2 100 50 3 -> 0 - - 0
take 7 03000100153c -> 0 - 00 0
take 8 03000100153C -> 9 800000EC0C - 0
acknowledge 9 -> 0 - - 0
resynchronise 9 -> 0 C000009A0A - 0
take 10 03000100153C -> 0 - 00 0
acknowledge 11 -> 0 800000EC0C - 0

# example 6 as it is sent, and its packet dropped by either side's reset
resynchronise 12 -> 0 C000009A0A - 0
submit 12 00 -> 0 03000100153C - 0
submit 12 - -> 4 - - 0
submit 12 000102030405060708090A0B -> 4 - - 0
look 111 -> 0 - - 0
look 112 -> 0 03000100153C - 0
resynchronise 113 -> 0 C000009A0A - 1
submit 114 00 -> 0 03000100153C - 0
take 115 C000009A0A -> 0 - - 1

# a state handed in: two wait, the older has no repeat left
state 16 2 100 50 3 2 0 2 1 1 0 4294967295 3 0 0 0 0 0
submit 50 00 -> 5 - - 0
look 100 -> 3 - - 0
look 100 -> 3 - - 0
resynchronise 100 -> 0 C000009A0A - 2
state 65535 255 65535 65535 255 255 255 255 65535 65535 0 0 255 255 1 0 1 1
look 0 -> 1 - - 0

# the high byte of FCS first: examples 2, 4, 5 and 6 to 9, a reset of the other order, other numbers
start 16 2 100 50 3 1 -> 0 - - 0
take 0 C000009A0A -> 6 A000000FD7 - 0
take 0 C000000A9A -> 0 - - 0
take 0 0000000000 -> 18 A000000FD7 - 0
take 7 030001003C15 -> 0 - 00 0
take 8 030001003C15 -> 9 8000000CEC - 0
resynchronise 9 -> 0 C000000A9A - 0
submit 10 00 -> 0 030001003C15 - 0
start 16 2 100 50 3 0 -> 0 - - 0
take 0 C000000A9A -> 6 A00000D70F - 0
start 16 2 100 50 3 2 -> 1 - - 0
state 16 2 100 50 3 0 0 0 0 0 0 0 0 0 0 0 0 0 1
resynchronise 0 -> 0 C000000A9A - 0
state 16 2 100 50 3 0 0 0 0 0 0 0 0 0 0 0 0 0 255
resynchronise 0 -> 1 - - 0

# example 12: an acknowledge timeout of 10
state 16 2 100 10 3 0 1 0 0 0 0 0 0 0 1 4294967290 0 0
look 3 -> 0 - - 0
look 4 -> 0 800000EC0C - 0
start 15 2 100 50 3 -> 1 - - 0
lend 21 16
start 16 2 100 50 3 -> 2 - - 0
start 16 1 100 50 3 -> 0 - - 0
lend 22 15
look 0 -> 2 - - 0

# examples 10 and 11
cut 11 0 11 30313233343536373839 -> 0 11 1 0030313233343536373839
cut 11 0 11 3031323334353637383941 -> 0 11 2 0130313233343536373839
cut 11 1 1024 3031323334353637383941 -> 0 2 2 0441
cut 11 2 11 3031323334353637383941 -> 16 0 0 -
cut 11 0 11 - -> 13 0 0 -
cut 11 0 10 00 -> 2 0 0 -
cut 10 0 11 00 -> 1 0 0 -
join 11 0001 -> 2 0 0 0 0
room 4096
join 11 0130313233343536373839 -> 0 0 0 1 10
join 11 0441 -> 0 11 0 0 0
join 11 0441 -> 10 0 7 0 0
joining 1 4096
join 11 0441 -> 14 0 0 0 0
join 11 07 -> 15 0 0 0 0
join 11 1041 -> 11 0 0 0 0
join 11 0841 -> 12 0 0 0 0
join 11 - -> 4 0 0 0 0
join 10 0041 -> 1 0 0 0 0
";

#[test]
fn right_text_is_printed_unchanged() {
    assert_right(RIGHT);
    assert_right("");
    assert_right("\n");
}

/// Every example, one after the other: whatever stands behind its arrow is put right.
#[test]
fn wrong_right_sides_are_corrected() {
    let lines: Vec<&str> = RIGHT.lines().collect();
    let mut wrong = 0;
    for (place, line) in lines.iter().enumerate() {
        let Some((left, right)) = line.split_once(" -> ").filter(|_| !line.starts_with('#')) else {
            continue;
        };
        for other in ["", "0", "-", "x -> y", &format!("{right} "), &right[1..]] {
            let mut spoiled = lines.clone();
            let line = format!("{left} -> {other}");
            spoiled[place] = &line;
            let given = spoiled.join("\n") + "\n";
            assert_ne!(given, RIGHT);
            assert_eq!(worked_text(&given), RIGHT);
            wrong += 1;
        }
    }
    assert_eq!(wrong, 6 * 97);
}

#[test]
fn without_an_arrow_it_is_computed_the_same() {
    let asked = |line: &str| match line.split_once(" -> ") {
        Some((left, _)) if !line.starts_with('#') => format!("{left}\n"),
        _ => format!("{line}\n"),
    };
    let given: String = RIGHT.lines().map(asked).collect();
    assert_eq!(worked_text(&given), RIGHT);
}

/// The same frames as hear and as take: the numbers of steps 1 to 4 agree.
#[test]
fn hear_tells_every_step() {
    let cases = [
        (vec![0; 4], "17 size"),
        (vec![0x80, 0, 0, 0], "17 size"),
        (data(0x03, &[0; 12]), "17 size"),
        (vec![0x80; 17], "17 size"),
        (vec![0x80, 0, 0, 0, 0], "6 checksum"),
        (control(0x10), "7 code"),
        (control(0x84), "7 code"),
        (control(0xC1), "7 code"),
        (data(0xE0, &[1]), "7 code"),
        (data(0x80, &[1]), "8 control"),
        (sealed(&[0xC0, 0, 1]), "8 control"),
        (sealed(&[0xA3, 0, 0, 7]), "8 control"),
        (control(0x2F), "18 length"),
        (sealed(&[0x03, 0, 2, 7]), "18 length"),
        (sealed(&[0x03, 1, 1, 7]), "18 length"),
        (control(0xC0), "0 reset"),
        (control(0x83), "0 ack 3"),
        (control(0xA2), "0 nak 2"),
        (data(0x01, &[1]), "0 data 0 ack 1, 1 bytes"),
        (data(0x22, &[0; 11]), "0 data 0 nak 2, 11 bytes"),
    ];
    for (frame, told) in cases {
        let line = format!("hear 16 {}", hex(&frame));
        assert_right(&format!("{line} -> {told}\n"));
        let answer = Bench::fresh(settings()).take(0, &frame).answer;
        assert!(told.starts_with(&format!("{answer} ")), "{line}");
    }
    let longest = data(0x2E, &[0; 8187]);
    let told = "0 data 3 nak 2, 8187 bytes";
    assert_right(&format!("hear 8192 {} -> {told}\n", hex(&longest)));
    assert_right(&format!("hear 8191 {} -> 17 size\n", hex(&longest)));
}

/// NAK 3 repeats nothing and its packet is delivered; NAK 0 repeats, with the new ACK.
#[test]
fn delivered_and_repeated_bytes() {
    let packet = b"\x00delivered";
    let submitted = hex(&data(0x03, &[0xAB]));
    let repeated = hex(&data(0x00, &[0xAB]));
    let lines = [
        "lend 22 16".to_string(),
        "start 16 2 10 4 2 -> 0 - - 0".to_string(),
        format!("submit 0 AB -> 0 {submitted} - 0"),
        format!(
            "take 1 {} -> 0 - {} 0",
            hex(&data(0x23, packet)),
            hex(packet)
        ),
        format!("take 2 {} -> 9 {repeated} - 0", hex(&data(0x20, packet))),
        "look 11 -> 0 - - 0".to_string(),
        format!("look 12 -> 0 {repeated} - 0"),
        "look 22 -> 3 - - 0".to_string(),
        String::new(),
    ];
    assert_right(&lines.join("\n"));
}

const BAD: [&str; 32] = [
    " ",
    " #",
    "\r",
    "no",
    " -> ",
    " -> 0000",
    "-> 0000",
    "checksum",
    "checksum  -> 0000",
    "checksum 0 -> 0000",
    "checksum 00 00 -> 0000",
    "checksum - ",
    "checksum - ->",
    "Checksum - -> 0000",
    "hear 16 -> 17 size",
    "hear - -> 17 size",
    "hear 65536 - -> 17 size",
    "hear 16 - - -> 17 size",
    "hear 16 - 256 -> 17 size",
    "hear 16 - 0 0 -> 17 size",
    "hear 16 -  -> 17 size",
    "hear 16 1 - -> 17 size",
    "hear 16  - -> 17 size",
    "look -> 1 - - 0",
    "look 0->1 - - 0",
    "look 0\t->\t1 - - 0",
    "take 0 0 -> 1 - - 0",
    "cut 11 0 1025 00 -> 0 2 1 0000",
    "lend 1 1 -> 0",
    "state 16 2 100 50 3 0 0 0 0 0 0 0 0 0 0 0 0 0 -> 0",
    "room 4096 -> 0",
    "joining 1 10 -> 0",
];

#[test]
fn bad_lines_of_every_kind() {
    let given = BAD.map(|line| format!("{line}\n")).concat();
    let printed: String = (1..=BAD.len()).map(|n| format!("bad line {n}\n")).collect();
    assert_eq!(worked_text(&given), printed);
}

/// Also those that would be right without their arrow.
#[test]
fn bad_lines_change_nothing() {
    let given = BAD.map(|line| format!("{line}\n")).concat();
    let after = "look 0 -> 1 - - 0\njoin 11 0001 -> 2 0 0 0 0\n";
    assert!(worked_text(&format!("{given}{after}")).ends_with(after));
    let lines = RIGHT.lines().map(|line| format!("{line}\nno -> yes\n"));
    let spoiled = worked_text(&lines.collect::<String>());
    let kept = spoiled
        .lines()
        .filter(|line| !line.starts_with("bad line "))
        .map(|line| format!("{line}\n"));
    assert_eq!(kept.collect::<String>(), RIGHT);
}

#[test]
fn every_line_counts_for_bad_lines() {
    assert_eq!(
        worked_text("\n# no\nlend 0 0\nlook 0 -> 1 - - 0\nno\n"),
        "\n# no\nlend 0 0\nlook 0 -> 1 - - 0\nbad line 5\n"
    );
}

#[test]
fn comments_stay_byte_for_byte() {
    let comments = b"#\n# \r\n#\xFF\x00 -> \n# look 0 -> 7\n#look 0\n";
    assert_eq!(worked(comments), comments);
}

#[test]
fn last_line_without_lf() {
    assert_right("look 0 -> 1 - - 0");
    assert_right("\n\n# end");
    assert_eq!(worked_text("look 0"), "look 0 -> 1 - - 0");
    assert_eq!(worked_text("\nno"), "\nbad line 2");
}

#[test]
fn long_lines() {
    let line = |length: usize| format!("look 0 -> {}\n", "1".repeat(length - 10));
    assert_eq!(worked_text(&line(20_000)), "look 0 -> 1 - - 0\n");
    assert_eq!(worked_text(&line(20_001)), "bad line 1\n");
    let comment = format!("#{}\n", "#".repeat(20_000));
    assert_eq!(worked_text(&format!("{comment}\n")), "bad line 1\n\n");
    let bytes = "00".repeat(8192);
    assert_right(&format!("checksum {bytes} -> 0000\n"));
    assert_eq!(
        worked_text(&format!("checksum {bytes}00\n")),
        "bad line 1\n"
    );
}

/// The lines that only examples have are no part of the rig's format.
#[test]
fn replay_does_not_know_them() {
    let mut out = Vec::new();
    let script = b"checksum -\nhear 16 -\nlook 0 -> 1 - - 0\n";
    replay(&script[..], &mut out).expect("a vector takes everything");
    assert_eq!(out, b"bad line 1\nbad line 2\nbad line 3\n");
}

/// A script's calls give the numbers that its replay prints.
#[test]
fn generated_scripts_agree_with_their_replay() {
    let mut script = Vec::new();
    peer::generate::generate(9, 2000, &mut script).expect("a vector takes everything");
    let mut replayed = Vec::new();
    replay(script.as_slice(), &mut replayed).expect("a vector takes everything");
    let first = |line: &str| line.split(' ').next().map(str::to_string);
    let replayed: Vec<_> = String::from_utf8_lossy(&replayed)
        .lines()
        .map(first)
        .collect();
    let worked = worked(&script);
    let text = String::from_utf8_lossy(&worked);
    let answers: Vec<_> = text
        .lines()
        .filter_map(|line| match line.split_once(" -> ") {
            Some((_, right)) if !line.starts_with('#') => Some(first(right)),
            _ => line.starts_with("bad line ").then(|| first(line)),
        })
        .collect();
    assert_eq!(answers, replayed);
    // What it prints is right, bad lines aside, which are bad again. Lines that their right
    // sides would make too long to be read again are left out.
    let lines = script.split_inclusive(|&byte| byte == b'\n');
    let shorter: Vec<u8> = lines
        .filter(|line| line.len() < 17_000)
        .flatten()
        .copied()
        .collect();
    let worked = self::worked(&shorter);
    assert_eq!(self::worked(&worked), worked);
}

/// Rubbish gives one line for each line and no panic.
#[test]
fn spoiled_examples_are_safe() {
    let mut random = Random::new(8);
    for _ in 0..200 {
        let mut text = RIGHT.as_bytes().to_vec();
        for _ in 0..text.len() / 50 {
            let place = random.index(text.len());
            text[place] = random.pick([b' ', b'0', b'9', b'-', b'>', b'#', b'F', 0, 255]);
        }
        let lines = |text: &[u8]| text.iter().filter(|&&byte| byte == b'\n').count();
        assert_eq!(lines(&worked(&text)), lines(&text));
    }
}
