//! Request 2026-02: a stop inside a byte. Cases worked out by hand from the
//! papers, over the bus and from states put in.

mod common;

use common::{Bench, IDLE};
use second::chip::Chip;
use second::parts::KINDS;
use second::wire::Talk;

const PLACE: u16 = 0x0084;
const DATA: [u8; 3] = [0xC1, 0x3E, 0x5A];

/// A part with WEL set.
fn open(part: u16) -> Bench {
    let mut bench = Bench::new(part, 0);
    bench.write(0xFFFF, &[2]);
    bench
}

/// A write of whole bytes and then so many bits, without its stop.
fn begin(bench: &mut Bench, address: u16, data: &[u8], bits: u32) {
    bench.start();
    bench.send(0xA0);
    bench.send((address >> 8) as u8);
    bench.send(address as u8);
    for &byte in data {
        bench.send(byte);
    }
    for bit in 0..bits {
        bench.clock(bit % 2 == 0);
    }
}

fn writing(bench: &Bench) -> bool {
    bench.last & 4 != 0
}

#[test]
fn the_technicians_cable() {
    for kind in &KINDS {
        let mut bench = open(kind.number);
        let before = bench.array.clone();
        begin(&mut bench, PLACE, &DATA[..2], 3);
        bench.stop();
        assert_eq!(bench.array, before);
        assert!(!writing(&bench));
        assert_eq!(bench.chip.register(), 0x02);
        // The counter has gone on by the two bytes all the same.
        assert_eq!(bench.chip.counter, PLACE + 2);
        // No write runs, so the next start is heard at once.
        bench.start();
        assert!(bench.send(0xA1));
        assert_eq!(bench.recv(false), before[PLACE as usize + 2]);
    }
}

#[test]
fn without_the_bits_both_are_written() {
    for kind in &KINDS {
        let mut bench = open(kind.number);
        let mut expected = bench.array.clone();
        expected[0x84..0x86].copy_from_slice(&DATA[..2]);
        begin(&mut bench, PLACE, &DATA[..2], 0);
        bench.stop();
        assert_eq!(bench.array, expected);
        assert!(writing(&bench));
    }
}

#[test]
fn any_number_of_bits_cancels_any_load() {
    for bytes in 1..=3 {
        for bits in 1..=7 {
            for address in [PLACE, 0x00BE] {
                let mut bench = open(4323);
                let before = bench.array.clone();
                begin(&mut bench, address, &DATA[..bytes], bits);
                bench.stop();
                assert_eq!(bench.array, before, "{bytes} bytes, {bits} bits");
                assert!(!writing(&bench));
                // A second stop finds nothing left to write.
                bench.stop();
                assert_eq!(bench.array, before);
                assert!(!writing(&bench));
            }
        }
    }
}

#[test]
fn the_acknowledge_hides_a_stop_until_it_ends() {
    let mut bench = open(4323);
    let before = bench.array.clone();
    begin(&mut bench, PLACE, &DATA[..2], 0);
    for bit in (0..8).rev() {
        bench.clock(DATA[2] >> bit & 1 == 1);
    }
    // The part holds SDA low: with SCL high the outside level can't be seen.
    for level in [0b1000, 0b1001, 0b1011, 0b1001] {
        assert_eq!(bench.step(0, level) & 1, 0);
    }
    assert_eq!(bench.chip.talk, Talk::ArrayData);
    assert_eq!(bench.array, before);
    // The ninth fall ends the acknowledge; the next stop has its own clock.
    bench.step(0, 0b1000);
    bench.stop();
    assert_eq!(bench.array[0x84..0x87], DATA);
    assert!(writing(&bench));
}

#[test]
fn a_cut_register_byte_is_no_step() {
    let mut bench = Bench::new(4323, 0);
    let cut = |bench: &mut Bench, value: u8, bits: u32| {
        begin(bench, 0xFFFF, &[value], bits);
        bench.stop();
        assert!(!writing(bench));
    };
    for bits in 1..=7 {
        cut(&mut bench, 0x02, bits);
        assert_eq!(bench.chip.register(), 0x00);
    }
    bench.write(0xFFFF, &[0x02]);
    cut(&mut bench, 0x00, 1);
    assert_eq!(bench.chip.register(), 0x02);
    cut(&mut bench, 0x06, 7);
    assert_eq!(bench.chip.register(), 0x02);
    bench.write(0xFFFF, &[0x06]);
    cut(&mut bench, 0x63, 1);
    assert_eq!(bench.chip.register(), 0x06);
    // The steps before it still stand, so the last one can be said again.
    bench.write(0xFFFF, &[0x63]);
    assert_eq!(bench.chip.register(), 0x63);
    assert!(writing(&bench));
}

#[test]
fn a_cut_drops_the_choice_and_nothing_else() {
    let mut bench = Bench::new(4325, 0);
    bench.register_to(0x22);
    bench.chip.counter = 9;
    begin(&mut bench, 0xFFFF, &[0x02], 1);
    bench.stop();
    bench.start();
    assert!(bench.send(0xA1));
    // An array byte and not the register.
    assert_eq!(bench.recv(false), bench.array[9]);
}

#[test]
fn a_stop_in_an_address_is_an_ordinary_one() {
    for bits in 0..=18 {
        let mut bench = open(4283);
        let before = bench.array.clone();
        bench.start();
        bench.send(0xA0);
        // 2A and 3C, bit for bit, each with a clock for its acknowledge.
        let clocks = 0b00101010_1_00111100_1u32;
        for place in 0..bits {
            bench.clock(clocks >> (17 - place) & 1 == 1);
        }
        bench.stop();
        bench.stop();
        assert_eq!(bench.array, before);
        assert!(!writing(&bench));
        assert_eq!(bench.chip.register(), 0x02);
        assert_eq!(bench.chip.talk, Talk::Idle);
        // The whole address counts from the low byte's eighth fall on.
        let whole = bits >= 17;
        assert_eq!(bench.chip.counter, if whole { 0x2A3C } else { 0 }, "{bits} bits");
    }
}

#[test]
fn a_later_write_has_nothing_of_the_cut_one() {
    let mut bench = open(4323);
    let mut expected = bench.array.clone();
    begin(&mut bench, PLACE, &DATA, 5);
    bench.stop();
    bench.write(PLACE + 8, &[0x11]);
    expected[0x8C] = 0x11;
    assert_eq!(bench.array, expected);
    bench.step(5_000, IDLE);
    let places = PLACE as usize..PLACE as usize + 9;
    assert_eq!(bench.read(PLACE, 9), expected[places]);
    // The register's own byte after a cut load.
    begin(&mut bench, PLACE, &DATA, 2);
    bench.stop();
    bench.write(0xFFFF, &[0x06]);
    assert_eq!(bench.chip.register(), 0x06);
    assert_eq!(bench.array, expected);
}

/// Out of reset with SCL high and SDA low, in a phase and with so many bits:
/// a byte is loaded at the counter's place, and 02h waits for the register.
fn amid(talk: Talk, bits: u8) -> Bench {
    let mut chip = Chip::power_up(4323, 0, 0).unwrap();
    (chip.in_reset, chip.low_vcc, chip.sda) = (false, false, false);
    (chip.talk, chip.bits, chip.counter) = (talk, bits, 0x0105);
    chip.load[5] = Some(0x77);
    chip.register_byte = Some(0x02);
    Bench { chip, array: vec![0; 4096], last: 0, wp: 0 }
}

#[test]
fn states_put_in_are_cut_only_where_bytes_are_taken() {
    let phases = [
        Talk::Idle,
        Talk::Silent,
        Talk::Slave,
        Talk::AddressHigh,
        Talk::AddressLow,
        Talk::ArrayData,
        Talk::RegisterData,
        Talk::Send,
        Talk::SendRegister,
    ];
    for talk in phases {
        for bits in 0..=8 {
            let mut bench = amid(talk, bits);
            // The stop's edge, and nothing before it.
            bench.step(0, 0b1011);
            let taking = matches!(talk, Talk::ArrayData | Talk::RegisterData);
            let cut = taking && bits > 0;
            assert_eq!(bench.array[0x0105], if cut { 0 } else { 0x77 }, "{talk:?} {bits}");
            assert_eq!(bench.chip.wel, !cut);
            assert_eq!(bench.chip.write_left, if cut { 0 } else { 5_000 });
            assert_eq!(bench.chip.counter, 0x0105);
            assert_eq!((bench.chip.talk, bench.chip.bits), (Talk::Idle, 0));
        }
    }
}

#[test]
fn a_cut_leaves_a_write_that_runs() {
    let mut bench = amid(Talk::ArrayData, 4);
    bench.chip.write_left = 300;
    bench.step(100, 0b1011);
    assert_eq!(bench.chip.write_left, 200);
    assert_eq!(bench.array[0x0105], 0);
}
