//! Generated scripts: exact counts, the same for the same seed, and nothing missed.

use std::collections::BTreeMap;

use peer::checksum::checksum;
use peer::count::count;
use peer::frame::fcs;
use peer::generate::generate;
use peer::link::Settings;
use peer::script::{read, replay, Command, Lines, LinkCommand, Reading, Rig};

fn script(seed: u64, calls: u64) -> Vec<u8> {
    let mut out = Vec::new();
    generate(seed, calls, &mut out).expect("a vector takes everything");
    out
}

fn answers(script: &[u8]) -> (usize, usize) {
    let mut out = Vec::new();
    replay(script, &mut out).expect("a vector takes everything");
    let text = String::from_utf8(out).expect("the rig prints ASCII");
    let bad = text.lines().filter(|line| line.starts_with("bad")).count();
    (text.lines().count() - bad, bad)
}

#[test]
fn exactly_as_many_calls_as_asked_for() {
    for calls in [0, 1, 2, 5, 6, 17, 1000, 5000] {
        for seed in 0..5 {
            let script = script(seed, calls);
            assert_eq!(answers(&script).0 as u64, calls);
            let tally = count(script.as_slice()).expect("a slice gives everything");
            assert_eq!(tally.calls(), calls);
        }
    }
}

#[test]
fn seed_decides() {
    assert_eq!(script(3, 2000), script(3, 2000));
    assert_ne!(script(3, 2000), script(4, 2000));
}

#[test]
fn no_answer_and_no_event_is_missed() {
    for seed in [1, 2, u64::MAX] {
        let script = script(seed, 60_000);
        let tally = count(script.as_slice()).expect("a slice gives everything");
        assert_eq!(tally.faults(), [""; 0]);
        assert!(answers(&script).1 > 100);
    }
}

fn order_way(written: Option<&str>) -> &'static str {
    let Some(written) = written else {
        return "left out";
    };
    match written.parse::<u8>() {
        Err(_) => "no number up to 255",
        Ok(_) if written.len() > 1 && written.starts_with('0') => "zeros lead",
        Ok(0) => "0",
        Ok(1) => "1",
        Ok(_) => "above 1",
    }
}

/// How ORDER is written in lines of this word, which have so many fields before it.
fn order_ways(script: &[u8], word: &str, before: usize) -> BTreeMap<&'static str, u32> {
    let mut seen = BTreeMap::new();
    for line in String::from_utf8_lossy(script).lines() {
        let fields: Vec<&str> = line.split(' ').skip(1).collect();
        if line.starts_with(word) && (before..=before + 1).contains(&fields.len()) {
            let way = order_way(fields.get(before).copied());
            *seen.entry(way).or_default() += 1;
        }
    }
    seen
}

#[test]
fn orders_are_written_in_every_way() {
    let script = script(1, 40_000);
    for (word, before) in [("start", 5), ("state", 18)] {
        let seen = order_ways(&script, word, before);
        let times = |way| seen.get(way).copied().unwrap_or_default();
        let [low, high] = [times("0") + times("left out"), times("1")];
        assert!(low.abs_diff(high) * 5 < low, "{word}: {seen:?}");
        assert!(times("left out") > low / 4 && times("0") > low / 4);
        assert!(times("above 1") > 20 && times("zeros lead") > 5);
        assert!(times("no number up to 255") > 3);
    }
}

const WAYS: [&str; 12] = [
    "17: empty",
    "17: under 5, right sum",
    "17: under 5, wrong sum",
    "17: D + 1, right sum",
    "17: D + 1, wrong sum",
    "17: more than D + 1, right sum",
    "17: more than D + 1, wrong sum",
    "18: LEN 0 in 5 bytes",
    "18: LEN 0 in more",
    "18: LEN one too small",
    "18: LEN one too large",
    "18: LEN far off",
];

fn size_way(frame: &[u8], settings: &Settings) -> &'static str {
    let right_sum = frame
        .split_last_chunk()
        .is_some_and(|(covered, &end)| fcs(covered, settings.order) == end);
    let just_over = frame.len() == usize::from(settings.data_reg_len) + 1;
    match (frame.len(), right_sum) {
        (0, _) => "17: empty",
        (1..=4, true) => "17: under 5, right sum",
        (1..=4, false) => "17: under 5, wrong sum",
        (_, true) if just_over => "17: D + 1, right sum",
        (_, false) if just_over => "17: D + 1, wrong sum",
        (_, true) => "17: more than D + 1, right sum",
        (_, false) => "17: more than D + 1, wrong sum",
    }
}

fn length_way(frame: &[u8]) -> &'static str {
    let told = i32::from(u16::from_be_bytes([frame[1], frame[2]]));
    match (told, told + 5 - frame.len() as i32) {
        (0, 0) => "18: LEN 0 in 5 bytes",
        (0, _) => "18: LEN 0 in more",
        (_, -1) => "18: LEN one too small",
        (_, 1) => "18: LEN one too large",
        _ => "18: LEN far off",
    }
}

/// How often each way came, apart by whether the NAK mark was set.
fn ways(script: &[u8]) -> BTreeMap<(&'static str, bool), u32> {
    let mut lines = Lines::new(script);
    let mut rig = Rig::default();
    let mut scratch = Vec::new();
    let mut seen = BTreeMap::new();
    while let Some(line) = lines.next().expect("a slice gives everything") {
        let Reading::Do(command) = read(&line, &mut scratch) else {
            continue;
        };
        let before = rig.link.state;
        let answer = rig.execute(&command).map(|said| said.answer());
        let Command::Link(LinkCommand::Take { frame, .. }) = command else {
            continue;
        };
        let way = match answer {
            Some(17) => size_way(frame, &before.settings),
            Some(18) => length_way(frame),
            _ => continue,
        };
        *seen.entry((way, before.nak_mark)).or_default() += 1;
    }
    seen
}

#[test]
fn every_way_to_17_and_18_is_reached() {
    for seed in [1, 2, u64::MAX] {
        let seen = ways(&script(seed, 20_000));
        for way in WAYS {
            for marked in [false, true] {
                let count = seen.get(&(way, marked)).copied().unwrap_or_default();
                assert!(count >= 5, "{seed}: {way}, marked {marked}: {count}");
            }
        }
    }
}

fn counted(script: &[u8]) -> String {
    let tally = count(script).expect("a slice gives everything");
    let mut text = Vec::new();
    tally.print(&mut text).expect("a vector takes everything");
    String::from_utf8_lossy(&text).into_owned()
}

/// With 6, 7, 17 and 18 alike.
#[test]
fn count_tells_naks_sent_and_suppressed() {
    let [low, high] = checksum(&[0x10, 0, 0]).to_le_bytes();
    let unused_code = format!("100000{low:02X}{high:02X}");
    for (answer, frame) in [
        (6, "0000000001"),
        (7, unused_code.as_str()),
        (17, "-"),
        (18, "0000000000"),
    ] {
        let script = format!("lend 22 16\nstart 16 2 100 50 3\ntake 0 {frame}\ntake 0 {frame}\n");
        let text = counted(script.as_bytes());
        assert!(text.contains(&format!("take {answer} 2\n")), "{answer}");
        assert!(text.contains("event nak-sent 1\n"), "{answer}");
        assert!(text.contains("event nak-suppressed 1\n"), "{answer}");
    }
}

/// Each line with the events that it adds.
const BY_ORDER: [(&str, &[&str]); 18] = [
    ("lend 22 16", &[]),
    ("start 16 2 100 50 3 2", &["start-1-by-order"]),
    ("start 15 2 100 50 3 2", &[]),
    ("start 15 2 100 50 3 1", &[]),
    ("state 16 2 100 50 3 4 0 0 0 0 0 0 0 0 0 0 0 0 2", &[]),
    ("look 0", &[]),
    ("state 16 2 100 50 3 3 0 0 0 0 0 0 0 0 0 0 0 0 2", &[]),
    ("look 0", &["state-1-by-order"]),
    ("start 16 2 100 50 3 1", &[]),
    (
        "take 0 03000100153C",
        &["take-6-other-order", "high-first-sends-nak"],
    ),
    (
        "take 0 C000009A0A",
        &["take-6-other-order", "take-6-reset-in-other-order"],
    ),
    ("take 0 030001003C15", &["high-first-delivers"]),
    ("acknowledge 0", &["high-first-sends-ack"]),
    ("submit 0 00", &["high-first-sends-data"]),
    ("take 0 C000000A9A", &["high-first-takes-reset"]),
    ("resynchronise 0", &["high-first-sends-reset"]),
    ("start 16 2 100 50 3", &[]),
    ("resynchronise 0", &[]),
];

#[test]
fn count_tells_what_the_order_does() {
    let mut script = String::new();
    let mut times: BTreeMap<&str, u32> = BTreeMap::new();
    for (line, events) in BY_ORDER {
        script.push_str(line);
        script.push('\n');
        for &event in events {
            *times.entry(event).or_default() += 1;
        }
        let text = counted(script.as_bytes());
        let told = text
            .lines()
            .filter(|line| line.contains("order") || line.contains("high-first"));
        for line in told {
            let [_, name, count] = line.split(' ').collect::<Vec<_>>()[..] else {
                panic!("{line}");
            };
            let expected = times.get(name).copied().unwrap_or_default();
            assert_eq!(count, expected.to_string(), "{name}\n{script}");
        }
    }
    assert_eq!(times.len(), 10);
}

#[test]
fn count_names_what_is_missed() {
    let script = &b"look 5\nlook 5\nno\n"[..];
    let faults = count(script).expect("a slice gives everything").faults();
    assert!(!faults.contains(&"never: look 1".to_string()));
    assert!(!faults.contains(&"never: event bad-line".to_string()));
    assert!(faults.contains(&"never: look 0".to_string()));
    assert!(faults.contains(&"never: join 15".to_string()));
    assert!(faults.contains(&"never: event nak-sent".to_string()));
    let text = counted(script);
    assert!(text.contains("look 1 2\n"));
    assert!(text.contains("event bad-line 1\n"));
    assert!(text.contains("take 9 0\n"));
}
