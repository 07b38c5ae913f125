//! What a sender's ninth fall does. The phase decides it, also in a state put in
//! whose choice says otherwise.

mod common;

use common::Bench;
use second::wire::Talk;

const PLACE: u16 = 0x0105;
const REGISTER: u8 = 0x22;
const SILENCE: u8 = 0xFF;

/// A sender that waits for its ninth fall, SCL low and SDA let go.
fn waiting(talk: Talk, chosen: bool) -> Bench {
    let mut bench = Bench::new(4323, 0);
    bench.register_to(REGISTER);
    assert_eq!(bench.read(0xFFFF, 1), [REGISTER]);
    bench.step(0, 0b1010);
    (bench.chip.talk, bench.chip.bits) = (talk, 8);
    (bench.chip.counter, bench.chip.register_chosen) = (PLACE, chosen);
    bench
}

fn at(bench: &Bench, further: u16) -> u8 {
    bench.array[(PLACE + further) as usize]
}

/// The byte that a new read gets first: it tells whether the choice is still there.
fn anew(bench: &mut Bench) -> u8 {
    bench.start();
    assert!(bench.send(0xA1));
    bench.recv(false)
}

#[test]
fn the_register_goes_out_whatever_choice_and_bit_are() {
    for chosen in [false, true] {
        for ninth_bit in [false, true] {
            let mut bench = waiting(Talk::SendRegister, chosen);
            bench.clock(ninth_bit);
            assert_eq!(bench.recv(true), REGISTER, "chosen {chosen}, bit {ninth_bit}");
            assert_eq!(bench.chip.counter, PLACE);
            // Once only, and the choice goes with it.
            assert_eq!(bench.recv(true), SILENCE);
            assert_eq!(anew(&mut bench), at(&bench, 0));
        }
    }
}

#[test]
fn array_bytes_go_out_also_where_the_register_is_chosen() {
    for chosen in [false, true] {
        let mut bench = waiting(Talk::Send, chosen);
        bench.clock(false);
        assert_eq!(bench.recv(true), at(&bench, 0), "chosen {chosen}");
        assert_eq!(bench.recv(false), at(&bench, 1));
        assert_eq!(bench.recv(true), SILENCE);
        assert_eq!(bench.chip.counter, PLACE + 2);
        // They leave the choice as it is.
        let first = if chosen { REGISTER } else { at(&bench, 2) };
        assert_eq!(anew(&mut bench), first);
    }
}

#[test]
fn a_high_bit_ends_array_bytes() {
    for chosen in [false, true] {
        let mut bench = waiting(Talk::Send, chosen);
        bench.clock(true);
        assert_eq!(bench.recv(true), SILENCE, "chosen {chosen}");
        assert_eq!(bench.chip.counter, PLACE);
        let first = if chosen { REGISTER } else { at(&bench, 0) };
        assert_eq!(anew(&mut bench), first);
    }
}

#[test]
fn the_slave_byte_leads_there_at_its_eighth_fall() {
    for (address, talk) in [(0xFFFF, Talk::SendRegister), (PLACE, Talk::Send)] {
        let mut bench = Bench::new(4325, 0);
        bench.start();
        for byte in [0xA0, (address >> 8) as u8, address as u8] {
            assert!(bench.send(byte));
        }
        bench.start();
        for bit in (0..8).rev() {
            assert_eq!(bench.chip.talk, Talk::Slave);
            bench.clock(0xA1 >> bit & 1 == 1);
        }
        assert_eq!((bench.chip.talk, bench.chip.bits), (talk, 8));
    }
}
