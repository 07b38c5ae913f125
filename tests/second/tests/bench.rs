//! The rules page's own bench cases for the part, driven over the bus.

mod common;

use common::{Bench, IDLE};
use second::chip::Chip;

#[test]
fn p1_reset_hold_and_polarity() {
    for (part, active) in [(4323, 0), (4325, 2)] {
        let mut chip = Chip::power_up(part, 0, 0).unwrap();
        let mut array = vec![0; 4096];
        let mut answers = [0; 4];
        let times = [7, 100_000, 99_999, 1];
        chip.replay(&mut array, &times, &[IDLE; 4], &mut answers).unwrap();
        assert_eq!(answers.map(|a| a & 2), [active, active, active, 2 - active]);
        assert_eq!(chip.dog_left, 1_400_000);
    }
}

#[test]
fn p2_p3_p4_block_lock() {
    for (bp, locked, open) in [(0x01, 0x03F, 0x040), (0x19, 0x1FF, 0x200)] {
        let mut bench = Bench::new(4323, bp);
        bench.write(0xFFFF, &[2]);
        assert_eq!(bench.write(locked, &[1]), [true, true, true, false]);
        assert_eq!(bench.last & 4, 0);
        assert_eq!(bench.write(open, &[1]), [true; 4]);
        assert_eq!(bench.last & 4, 4);
    }
    let mut bench = Bench::new(4323, 0x10);
    bench.write(0xFFFF, &[2]);
    assert_eq!(bench.write(0, &[1]), [true; 4]);
}

#[test]
fn p5_page_wrap() {
    let mut bench = Bench::new(4323, 0);
    bench.write(0xFFFF, &[2]);
    let before = bench.array.clone();
    let data: Vec<u8> = (0..12).map(|i| 0xC0 + i).collect();
    bench.write(0x17C, &data);
    assert_eq!(bench.chip.counter, 0x148);
    assert_eq!(bench.array[0x17C..0x180], data[..4]);
    assert_eq!(bench.array[0x140..0x148], data[4..]);
    assert_eq!(bench.array[0x148..0x17C], before[0x148..0x17C]);
}

#[test]
fn p6_slave_bytes() {
    for (byte, heard) in [(0xA0, true), (0xA1, true), (0xA2, false), (0xA8, false)] {
        let mut bench = Bench::new(4325, 0);
        bench.start();
        assert_eq!(bench.send(byte), heard, "{byte:02X}");
    }
}

#[test]
fn p7_p8_register() {
    let mut bench = Bench::new(4323, 0);
    bench.register_to(0x63);
    assert_eq!(bench.read(0xFFFF, 1), [0x63]);
    for byte in [0x06, 0x67] {
        bench.write(0xFFFF, &[byte]);
        assert_eq!(bench.read(0xFFFF, 1), [0x67]);
    }
    // A second byte undoes the first.
    assert_eq!(bench.write(0xFFFF, &[0x02, 0x02]), [true, true, true, true, false]);
    assert_eq!(bench.read(0xFFFF, 1), [0x67]);
}

#[test]
fn hardware_protection_reads_wp_at_the_stop() {
    let mut bench = Bench::new(4323, 0x80);
    bench.wp = 4;
    bench.write(0xFFFF, &[0x02]);
    bench.write(0xFFFF, &[0x06]);
    bench.write(0xFFFF, &[0x02]);
    assert_eq!(bench.chip.register(), 0x86);
    bench.wp = 0;
    bench.write(0xFFFF, &[0x02]);
    assert_eq!(bench.chip.register(), 0x02);
}

#[test]
fn p9_write_time() {
    let mut bench = Bench::new(4323, 0);
    bench.write(0xFFFF, &[2]);
    bench.write(0x20, &[0x55]);
    assert_eq!(bench.step(4_999, IDLE) & 4, 4);
    bench.start();
    assert!(!bench.send(0xA0));
    bench.stop();
    assert_eq!(bench.step(1, IDLE) & 4, 0);
    bench.start();
    assert!(bench.send(0xA0));
}

#[test]
fn reads_roll_over_the_end_and_not_the_page() {
    let mut bench = Bench::new(4323, 0);
    let expect = [&bench.array[0xFBE..], &bench.array[..2]].concat();
    assert_eq!(bench.read(0x0FBE, 68), expect);
    assert_eq!(bench.chip.counter, 2);
    let expect = bench.array[0xFFF];
    assert_eq!(bench.read(0x0FFF, 1), [expect]);
    assert_eq!(bench.read(0x1FFF, 1), [expect]);
}

#[test]
fn register_is_sent_once() {
    let mut bench = Bench::new(4323, 0x28);
    bench.chip.counter = 9;
    assert_eq!(bench.read(0xFFFF, 3), [0x28, 0xFF, 0xFF]);
    assert_eq!(bench.chip.counter, 9);
    bench.start();
    bench.send(0xA1);
    assert_eq!(bench.recv(false), bench.array[9]);
}

#[test]
fn watchdog_bites_and_a_start_feeds_it() {
    let mut bench = Bench::new(4323, 0x40);
    assert_eq!(bench.step(100_000, IDLE) & 2, 2);
    assert_eq!(bench.step(99_999, IDLE) & 2, 2);
    bench.start();
    bench.stop();
    assert_eq!(bench.step(100_000, IDLE) & 2, 2);
    assert_eq!(bench.step(99_999, IDLE) & 2, 2);
    assert_eq!(bench.step(1, IDLE) & 2, 0);
    assert_eq!(bench.chip.hold, 200_000);
}
