//! The rig's script format, byte for byte.

use peer::random::Random;
use peer::script::replay;

fn replayed(script: &[u8]) -> String {
    let mut out = Vec::new();
    replay(script, &mut out).expect("a vector takes everything");
    String::from_utf8(out).expect("the rig prints ASCII")
}

const ZEROS: &str = "0 0 0 0 0 0 0 0 0 0 0 0 0 0 0 0 0 0";

/// What a call prints that leaves the state of zeros, where nothing is lent.
fn zeros_left(answer: u8) -> String {
    format!("{answer} 0 0 0 {ZEROS} - - 0\n")
}

#[test]
fn beginning_of_a_script() {
    let script = b"look 5\nacknowledge 0\nsubmit 1 00\ntake 1 -\nresynchronise 4294967295\n";
    assert_eq!(replayed(script), zeros_left(1).repeat(5));
    assert_eq!(replayed(b"join 11 0001\n"), "2 0 0 0 0 -\n");
    assert_eq!(replayed(b"cut 11 0 0 01\n"), "2 0 0 -\n");
    assert_eq!(replayed(b"start 16 1 2 1 1\n"), zeros_left(2));
}

fn ee(count: usize) -> String {
    "EE".repeat(count)
}

fn dd(count: usize) -> String {
    "DD".repeat(count)
}

/// Settings 16 2 10 4 2 and one byte more than needed in each buffer.
const STARTED: &str = "lend 23 17\nstart 16 2 10 4 2\n";

/// What a script prints after the lines of STARTED.
fn after_start(script: &str) -> Vec<String> {
    let out = replayed(format!("{STARTED}{script}").as_bytes());
    let mut lines = out.lines().map(str::to_string);
    let first = format!(
        "0 0 0 0 16 2 10 4 2 0 0 0 0 0 0 0 0 0 0 0 0 0 {} {} 0",
        ee(23),
        dd(17)
    );
    assert_eq!(lines.next(), Some(first));
    lines.collect()
}

#[test]
fn sending_prints_everything() {
    let one = format!("00{}", ee(22));
    let two = format!("00{}0ABC{}", ee(10), ee(10));
    let sum = sum(&[7, 0, 2, 0x0A, 0xBC]);
    assert_eq!(
        after_start("submit 5 00\nsubmit 6 0aBC\nlook 14\nresynchronise 3\n"),
        [
            format!(
                "0 6 0 0 16 2 10 4 2 1 0 1 1 0 5 0 0 0 0 0 0 0 {one} 03000100153C{} 0",
                dd(11)
            ),
            format!(
                "0 7 0 0 16 2 10 4 2 2 0 2 1 2 5 6 0 0 0 0 0 0 {two} 0700020ABC{sum}{} 0",
                dd(10)
            ),
            format!(
                "0 0 0 0 16 2 10 4 2 2 0 2 1 2 5 6 0 0 0 0 0 0 {two} {} 0",
                dd(17)
            ),
            format!(
                "0 5 0 2 16 2 10 4 2 0 0 0 0 0 0 0 0 0 0 0 0 0 {two} C000009A0A{} 0",
                dd(12)
            ),
        ]
    );
}

#[test]
fn receiving_prints_everything() {
    let (slots, nothing, rest) = (ee(23), dd(17), dd(12));
    let script = "take 7 03000100153C\ntake 8 03000100153C\ntake 9 810000_\n\
        take 9 8100003056\ntake 2 -\ntake 2 8100003057\ntake 2 0000000000\nacknowledge 1\n";
    let sum = sum(&[0xA1, 0, 0]);
    assert_eq!(
        after_start(script),
        [
            format!("0 0 1 0 16 2 10 4 2 0 1 0 0 0 0 0 0 0 1 7 0 0 {slots} {nothing} 0"),
            format!("9 5 0 0 16 2 10 4 2 0 1 0 0 0 0 0 0 0 0 7 0 0 {slots} 800000EC0C{rest} 0"),
            "bad line 5".to_string(),
            format!("0 0 0 0 16 2 10 4 2 0 1 0 0 0 0 0 0 0 0 7 0 0 {slots} {nothing} 0"),
            format!("17 5 0 0 16 2 10 4 2 0 1 0 0 0 0 0 0 0 0 7 1 0 {slots} A10000{sum}{rest} 0"),
            format!("6 0 0 0 16 2 10 4 2 0 1 0 0 0 0 0 0 0 0 7 1 0 {slots} {nothing} 0"),
            format!("18 0 0 0 16 2 10 4 2 0 1 0 0 0 0 0 0 0 0 7 1 0 {slots} {nothing} 0"),
            format!("0 0 0 0 16 2 10 4 2 0 1 0 0 0 0 0 0 0 0 7 1 0 {slots} {nothing} 0"),
        ]
    );
}

fn sum(bytes: &[u8]) -> String {
    let [low, high] = peer::checksum::checksum(bytes).to_le_bytes();
    format!("{low:02X}{high:02X}")
}

/// ORDER goes on from call to call, also where the end becomes fresh.
#[test]
fn order_is_printed_last() {
    let script = "lend 11 16\nstart 16 1 10 4 2 1\nsubmit 5 00\nlook 5\nacknowledge 5\n\
        take 5 03000100153C\ntake 5 C000000A9A\nresynchronise 5\n";
    let out = replayed(script.as_bytes());
    let calls: Vec<(&str, &str)> = out
        .lines()
        .filter_map(|line| Some((line.get(..3)?, line.get(line.len() - 2..)?)))
        .collect();
    let answers = ["0 0", "0 6", "0 0", "0 0", "6 5", "0 0", "0 5"];
    assert_eq!(calls, answers.map(|answer| (answer, " 1")));
    assert!(out.contains(" 030001003C15DD"));
    assert!(out.contains(" A000000FD7DD"));
    assert!(out.contains(" C000000A9ADD"));
}

#[test]
fn state_line_sets_every_field() {
    let fields = "65535 255 65534 65533 254 253 252 251 65532 65531 4294967295 4294967294 250 249 1 4294967293 1 1";
    for (order, printed) in [("", 0), (" 0", 0), (" 1", 1), (" 0255", 255)] {
        let script = format!("lend 1 2\nstate {fields}{order}\nlook 3\n");
        assert_eq!(
            replayed(script.as_bytes()),
            format!("1 0 0 0 {fields} EE DDDD {printed}\n")
        );
    }
}

#[test]
fn state_leaves_the_buffers_and_lend_leaves_the_state() {
    let state = "state 16 1 10 4 2 0 0 0 0 0 0 0 0 0 0 0 0 0";
    let script = format!(
        "lend 11 16\n{state}\nsubmit 1 AA\n{state}\nacknowledge 1\nlend 11 16\nacknowledge 1\n"
    );
    let out = replayed(script.as_bytes());
    let slots: Vec<&str> = out
        .lines()
        .map(|line| line.split(' ').nth(22).unwrap_or_default())
        .collect();
    let filled = "EE".repeat(11);
    let kept = format!("AA{}", "EE".repeat(10));
    assert_eq!(slots, [kept.as_str(), kept.as_str(), filled.as_str()]);
}

#[test]
fn refused_start_leaves_zeros() {
    let script = b"lend 22 16\nstart 16 2 10 4 2 1\nstart 16 2 10 4 2 2\nlook 1\n";
    let out = replayed(script);
    let buffers = format!("{} {}", "EE".repeat(22), "DD".repeat(16));
    let lines: Vec<&str> = out.lines().skip(1).collect();
    let zeros = format!("1 0 0 0 {ZEROS} {buffers} 0");
    assert_eq!(lines, [zeros.as_str(), zeros.as_str()]);
}

#[test]
fn joining_and_room_go_on() {
    let script = b"room 4096\njoin 11 0101020304050607080910\njoin 11 04FF\njoining 1 4096\njoin 11 04FF\nroom 3\njoin 11 0001\nroom 4096\njoin 11 03\n";
    let out = replayed(script);
    let lines: Vec<&str> = out.lines().collect();
    let parts = "01020304050607080910";
    let joined = format!("{parts}FF{}", ee(4085));
    assert_eq!(
        lines,
        [
            format!("0 0 0 1 10 {parts}{}", ee(4086)),
            format!("0 11 0 0 0 {joined}"),
            format!("14 0 0 0 0 {joined}"),
            "2 0 0 0 0 EEEEEE".to_string(),
            format!("10 0 7 0 0 {}", ee(4096)),
        ]
    );
}

#[test]
fn cut_prints_its_packet_buffer() {
    let message = "AB".repeat(25);
    for (line, printed) in [
        (
            "cut 11 2 12",
            format!("0 6 3 04ABABABABAB{}", "DD".repeat(6)),
        ),
        ("cut 11 3 11", format!("16 0 0 {}", "DD".repeat(11))),
        ("cut 10 0 0", "1 0 0 -".to_string()),
    ] {
        let script = format!("{line} {message}");
        assert_eq!(replayed(script.as_bytes()), printed + "\n");
    }
    assert_eq!(
        replayed(b"cut 11 0 11 -"),
        format!("13 0 0 {}\n", "DD".repeat(11))
    );
}

#[test]
fn blank_lines_and_comments_count_but_print_nothing() {
    let script = b"\n# look 5\n#\n\nlend 1 1\nroom 0\njoining 0 0\nnonsense\n\n#\xFF\x00\nmore\n";
    assert_eq!(replayed(script), "bad line 8\nbad line 11\n");
}

const BAD: [&[u8]; 73] = [
    b" ",
    b"\r",
    b"\t",
    b" #",
    b"-",
    b"0",
    b"look",
    b"look ",
    b" look 5",
    b"look  5",
    b"look 5 ",
    b"look 5\r",
    b"look 5 6",
    b"Look 5",
    b"LOOK 5",
    b"lookk 5",
    b"look\x005",
    b"look -",
    b"look -5",
    b"look +5",
    b"look 5.0",
    b"look 0x5",
    b"look 4294967296",
    b"look 99999999999999999999999999",
    b"look \xD9\xA5",
    b"submit 5",
    b"submit 5 ",
    b"submit 5  00",
    b"submit 5 0",
    b"submit 5 000",
    b"submit 5 0g",
    b"submit 5 --",
    b"submit 5 -0",
    b"submit 5 00-",
    b"submit 5 00 00",
    b"submit - 00",
    b"take 5",
    b"take 5 0x00",
    b"take 4294967296 -",
    b"acknowledge",
    b"acknowledge 1 1",
    b"resynchronise",
    b"resynchronise 1 1",
    b"lend 1",
    b"lend 4097 0",
    b"lend 0 4097",
    b"lend 1 1 1",
    b"room",
    b"room 8193",
    b"room 1 1",
    b"joining 0",
    b"joining 2 0",
    b"joining 0 65536",
    b"joining 0 0 0",
    b"start 16 1 2 1",
    b"start 16 1 2 1 1 1 0",
    b"start 16 1 2 1 1 256",
    b"start 16 1 2 1 1 000256",
    b"start 16 1 2 1 1 -",
    b"start 16 1 2 1 1 +1",
    b"start 16 1 2 1 1 ",
    b"start 16 1 2 1 1  1",
    b"start 16 1 2 1 1 1 ",
    b"start 65536 1 2 1 1",
    b"start 16 256 2 1 1",
    b"start 16 1 65536 1 1",
    b"start 16 1 2 65536 1",
    b"start 16 1 2 1 256",
    b"join 11",
    b"join 65536 -",
    b"cut 11 0 11",
    b"cut 11 0 1025 00",
    b"cut 11 4294967296 11 00",
];

#[test]
fn bad_lines_of_every_kind() {
    for (place, line) in BAD.iter().enumerate() {
        let mut script = b"lend 0 0\n".repeat(place);
        script.extend_from_slice(line);
        script.push(b'\n');
        let printed = format!("bad line {}\n", place + 1);
        assert_eq!(replayed(&script), printed, "{line:?}");
    }
}

#[test]
fn state_fields_one_by_one() {
    let most: [u64; 19] = [
        65535, 255, 65535, 65535, 255, 255, 255, 255, 65535, 65535, 4294967295, 4294967295, 255,
        255, 1, 4294967295, 1, 1, 255,
    ];
    let line = |values: &[u64]| {
        let words: Vec<String> = values.iter().map(u64::to_string).collect();
        format!("state {}", words.join(" "))
    };
    assert_eq!(replayed(line(&most).as_bytes()), "");
    assert_eq!(replayed(line(&most[..18]).as_bytes()), "");
    for field in 0..most.len() {
        let mut values = most;
        values[field] += 1;
        assert_eq!(
            replayed(line(&values).as_bytes()),
            "bad line 1\n",
            "{field}"
        );
    }
    assert_eq!(replayed(line(&most[..17]).as_bytes()), "bad line 1\n");
    assert_eq!(
        replayed(format!("{} 0", line(&most)).as_bytes()),
        "bad line 1\n"
    );
}

#[test]
fn bad_lines_change_nothing() {
    let good = "lend 11 16\nstart 16 1 10 4 2\n";
    let bad = "lend 22 16 1\nstart 17 1 10 4\nstate 16 1 2 1 1 0 0 0 0 0 0 0 0 0 0 0 0\nsubmit 1 0\njoining 1 65536\nroom 9000\n";
    let out = replayed(format!("{good}{bad}look 0\njoin 11 00\n").as_bytes());
    let lines: Vec<&str> = out.lines().collect();
    assert_eq!(lines[7], lines[0]);
    assert_eq!(lines[8], "2 0 0 0 0 -");
}

#[test]
fn limits_that_are_allowed() {
    assert_eq!(
        replayed(b"lend 4096 4096\nroom 8192\njoining 1 65535\n"),
        ""
    );
    assert_eq!(
        replayed(b"cut 65535 4294967295 1024 00\n").len(),
        6 + 2048 + 1
    );
    let field = "0".repeat(2 * 8192);
    assert!(replayed(format!("take 0 {field}").as_bytes()).starts_with("1 0"));
    let field = "0".repeat(2 * 8193);
    assert_eq!(
        replayed(format!("take 0 {field}").as_bytes()),
        "bad line 1\n"
    );
}

#[test]
fn leading_zeros_and_either_case() {
    let plain = replayed(b"lend 11 16\nstart 16 1 10 4 2\nsubmit 5 ABCDEF\n");
    let other = replayed(
        b"lend 0011 00016\nstart 016 01 010 04 0000000000000000000002 000\nsubmit 00005 aBcDeF\n",
    );
    assert_eq!(plain, other);
    assert_eq!(replayed(b"joining 01 000\n"), "");
}

#[test]
fn long_lines() {
    let zeros = |length: usize| format!("look {}", "0".repeat(length - 5));
    let answered = zeros_left(1);
    assert_eq!(replayed(zeros(20_000).as_bytes()), answered);
    assert_eq!(replayed(zeros(20_001).as_bytes()), "bad line 1\n");
    let script = format!("{}\nlook 0\n", zeros(20_001));
    assert_eq!(
        replayed(script.as_bytes()),
        format!("bad line 1\n{answered}")
    );
    let script = format!("{}\nlook 0\n", zeros(20_000));
    assert_eq!(replayed(script.as_bytes()), answered.repeat(2));
    let script = format!("\n{}\n\nno\n", "#".repeat(300_000));
    assert_eq!(replayed(script.as_bytes()), "bad line 2\nbad line 4\n");
    assert_eq!(replayed("#".repeat(20_000).as_bytes()), "");
}

#[test]
fn last_line_without_lf() {
    let answered = zeros_left(1);
    assert_eq!(replayed(b""), "");
    assert_eq!(replayed(b"look 0"), answered);
    assert_eq!(replayed(b"look 0\nlook 0"), answered.repeat(2));
    assert_eq!(replayed(b"\n\nx"), "bad line 3\n");
    assert_eq!(replayed(b"\n\n"), "");
}

/// The same whatever pieces the input comes in.
#[test]
fn input_in_small_pieces() {
    let mut script = Vec::new();
    peer::generate::generate(8, 300, &mut script).expect("a vector takes everything");
    for capacity in [1, 7, 4096] {
        let mut out = Vec::new();
        let input = std::io::BufReader::with_capacity(capacity, script.as_slice());
        replay(input, &mut out).expect("a vector takes everything");
        assert_eq!(String::from_utf8_lossy(&out), replayed(&script));
    }
}

#[test]
fn binary_rubbish_is_safe() {
    let mut random = Random::new(6);
    for _ in 0..200 {
        let length = random.index(4000);
        let script = random.bytes(length);
        let out = replayed(&script);
        assert!(out.lines().all(|line| line.starts_with("bad line ")));
    }
}

/// Scripts with bytes changed here and there: no panic, and at most one line each.
#[test]
fn spoiled_scripts_are_safe() {
    let mut random = Random::new(7);
    for seed in 0..20 {
        let mut script = Vec::new();
        peer::generate::generate(seed, 400, &mut script).expect("a vector takes everything");
        for _ in 0..script.len() / 50 {
            let place = random.index(script.len());
            script[place] = random.pick([b' ', b'0', b'9', b'-', b'\n', b'F', 0, 255]);
        }
        let lines = script.split(|&byte| byte == b'\n').count();
        assert!(replayed(&script).lines().count() <= lines);
    }
}
