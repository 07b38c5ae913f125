//! The long form of the bench cases, through the program itself.

use second::form::{write_case, Case, FLAGS, LEAVE, LOADED, LONG, PENDING, PHASE};
use second::put::powered;
use second::wire::Talk;
use std::io::Write;
use std::process::{Command, Stdio};

/// Own level high and both lines high, out of reset with good VCC.
const RESTED: u32 = 0x61;

fn replies(input: &[u8]) -> Vec<u8> {
    let mut child = Command::new(env!("CARGO_BIN_EXE_second"))
        .stdin(Stdio::piped())
        .stdout(Stdio::piped())
        .spawn()
        .unwrap();
    let mut pipe = child.stdin.take().unwrap();
    let bytes = input.to_vec();
    let feed = std::thread::spawn(move || pipe.write_all(&bytes));
    let output = child.wait_with_output().unwrap();
    feed.join().unwrap().unwrap();
    output.stdout
}

fn bytes(case: &Case) -> Vec<u8> {
    let mut bytes = Vec::new();
    write_case(&mut bytes, case).unwrap();
    bytes
}

fn short() -> Case {
    Case {
        part: 4323,
        select: 0,
        stored: 0,
        times: 1,
        answer_len: 2,
        state: [LEAVE; 8],
        more: None,
        array: vec![0; 4096],
        elapsed: vec![0; 2],
        levels: vec![0x09, 0x0B],
    }
}

fn long(words: &[(usize, u32)]) -> Case {
    let mut more = [LEAVE; 16];
    for &(place, word) in words {
        more[place] = word;
    }
    Case { more: Some(more), ..short() }
}

#[test]
fn the_words_stand_where_the_form_says() {
    let mut case = long(&[(PHASE, 5), (FLAGS, RESTED), (PENDING, 6), (LOADED, 7)]);
    case.levels.clear();
    case.elapsed.clear();
    let bytes = bytes(&case);
    let word = |place: usize| u32::from_le_bytes(bytes[place * 4..][..4].try_into().unwrap());
    assert_eq!(word(4), LONG | 4096);
    assert_eq!([16, 22, 27, 31].map(word), [LEAVE; 4]);
    assert_eq!([23, 24, 25, 26].map(word), [5, RESTED, 6, 7]);
    assert_eq!(bytes.len(), 128 + 4096);
}

#[test]
fn a_long_reply_ends_in_a_word_more() {
    let reply = replies(&bytes(&short()));
    let mut expected = reply.clone();
    expected.extend([0; 4]);
    // Words left, or those that count for nothing yet, change nothing.
    let idle = long(&[(0, 2), (1, 9), (2, 1), (3, 1), (4, 1), (5, 0), (6, 1), (11, 1), (15, 1)]);
    assert_eq!(replies(&bytes(&long(&[]))), expected);
    assert_eq!(replies(&bytes(&idle)), expected);
    // Both kinds can follow each other.
    let both = [bytes(&long(&[])), bytes(&short())].concat();
    assert_eq!(replies(&both), [expected, reply].concat());
}

#[test]
fn refused_long_cases() {
    let power_up = Case { select: 4, ..long(&[]) };
    assert_eq!(replies(&bytes(&power_up)), [2, 0, 0, 0, 0, 0, 0, 0]);
    let mut bits = long(&[(PHASE, 5)]);
    bits.state[1] = 9;
    let reply = replies(&bytes(&bits));
    assert_eq!(reply.len(), 8 + 2 + 4096 + 32 + 4);
    assert_eq!((reply[0], &reply[reply.len() - 4..]), (4, &[0; 4][..]));
}

#[test]
fn a_long_case_cut_off_or_too_long_ends_the_input() {
    let mut empty = long(&[]);
    empty.array.clear();
    empty.elapsed.clear();
    empty.levels.clear();
    let whole = bytes(&empty);
    assert_eq!(whole.len(), 128);
    for length in [0, 63, 64, 65, 127] {
        assert_eq!(replies(&whole[..length]), []);
    }
    assert!(!replies(&whole).is_empty());
    let mut wide = long(&[]);
    wide.array = vec![0; 16_384];
    assert!(!replies(&bytes(&wide)).is_empty());
    wide.array.push(0);
    assert_eq!(replies(&bytes(&wide)), []);
    let wide = Case { answer_len: 65_538, ..long(&[]) };
    assert_eq!(replies(&bytes(&wide)), []);
}

#[test]
fn phases_and_flags() {
    let talk = |word| powered(&long(&[(PHASE, word)])).unwrap().talk;
    let all = [
        Talk::Idle,
        Talk::Silent,
        Talk::Slave,
        Talk::AddressHigh,
        Talk::AddressLow,
        Talk::ArrayData,
        Talk::RegisterData,
        Talk::Send,
        Talk::SendRegister,
    ];
    assert_eq!([0, 1, 2, 3, 4, 5, 6, 7, 8].map(talk), all);
    assert_eq!([9, 255, 261, LEAVE - 1, LEAVE].map(talk), [Talk::Idle; 5]);

    // In the order of the bits; the first is the level, so high is no pull.
    let flags = |word| {
        let chip = powered(&long(&[(FLAGS, word)])).unwrap();
        let lines = [chip.scl, chip.sda, chip.register_chosen];
        [!chip.pulls, chip.in_reset, chip.low_vcc, chip.wel, chip.rwel, lines[0], lines[1], lines[2]]
    };
    for bit in 0..8 {
        let expected: [bool; 8] = std::array::from_fn(|place| place == bit);
        assert_eq!(flags(1 << bit), expected);
    }
    assert_eq!([255, 256, 0x161, LEAVE - 1].map(flags), [[true; 8]; 4]);
    assert_eq!(flags(0), [false; 8]);
    assert_eq!(flags(LEAVE), flags(0x67));
}

#[test]
fn pending_and_loaded_bytes() {
    let pending = |word| powered(&long(&[(PENDING, word)])).unwrap().register_byte;
    assert_eq!([0, 2, 255].map(pending), [Some(0), Some(2), Some(255)]);
    assert_eq!([256, 0x102, LEAVE - 1, LEAVE].map(pending), [Some(255), Some(255), Some(255), None]);
    for (counter, place) in [(LEAVE, 0), (63, 63), (64, 0), (0x0FFE, 62)] {
        let mut case = long(&[(LOADED, 0x15A)]);
        case.state[0] = counter;
        let load = powered(&case).unwrap().load;
        assert_eq!(load[place], Some(255));
        assert_eq!(load.iter().flatten().count(), 1);
    }
    assert!(powered(&long(&[])).unwrap().load.iter().all(Option::is_none));
}

#[test]
fn a_sender_put_in_sends_zeros_until_its_eighth_fall() {
    for phase in [7, 8] {
        let mut case = long(&[(PHASE, phase), (FLAGS, 0x41)]);
        case.state[1] = 3;
        case.array = vec![0xFF; 4096];
        // A rise and a fall for each bit, SDA let go from outside.
        case.levels = [0x0B, 0x0A].repeat(7);
        case.elapsed = vec![0; 14];
        case.answer_len = 14;
        let answers = replies(&bytes(&case))[8..22].to_vec();
        let low: Vec<bool> = answers.iter().map(|answer| answer & 1 == 0).collect();
        // Falls 4 to 7 send a zero each, the eighth lets go; then a ninth.
        let expected = [&[false][..], &[true; 8], &[false; 5]].concat();
        assert_eq!(low, expected, "phase {phase}");
    }
}
