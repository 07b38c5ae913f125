//! Records before they become lines, and whole images made of them.

use crate::rng::Rng;
use second::image::record_text;

/// A record before it becomes a line; its checksum is put right, or wrong by
/// `off`.
#[derive(Clone)]
pub struct Record {
    pub address: u16,
    pub kind: u8,
    pub data: Vec<u8>,
    pub off: u8,
}

impl Record {
    pub fn new(address: usize, data: Vec<u8>) -> Record {
        Record {
            address: address as u16,
            kind: 0,
            data,
            off: 0,
        }
    }

    pub fn end() -> Record {
        Record {
            kind: 1,
            ..Record::new(0, Vec::new())
        }
    }

    /// The line without its line feed.
    pub fn line(&self) -> Vec<u8> {
        let mut line = record_text(self.address, self.kind, &self.data);
        line.pop();
        if self.off != 0 {
            let digits = String::from_utf8_lossy(&line[line.len() - 2..]).into_owned();
            let sum = u8::from_str_radix(&digits, 16).unwrap_or(0);
            line.truncate(line.len() - 2);
            line.extend(format!("{:02X}", sum.wrapping_add(self.off)).bytes());
        }
        line
    }
}

/// Records that don't overlap, and the end record.
pub fn sound_records(rng: &mut Rng, size: usize) -> Vec<Record> {
    let usual = rng.between(1, 255);
    let usual = rng.pick(&[1, 2, 7, 15, 16, 16, 16, 17, 32, 64, 255, usual]);
    let varied = rng.percent(40);
    let gap_percent = rng.pick(&[0, 0, 20, 60]);
    let blank_percent = rng.pick(&[0, 0, 10, 50, 100]);
    let most = rng.pick(&[0, 1, 2, 3, 5, 10, 30, 300]);
    // A whole image of the larger size is four times as long, and in records of
    // a few bytes it would be longer than any text that is taken.
    let (whole, usual) = match size {
        4_096 => (rng.percent(10), usual),
        _ if rng.percent(3) => (true, usual.max(15)),
        _ => (false, usual),
    };
    let start = rng.below(size as u32);
    let near_end = size as u32 - 96;
    let mut at = if whole {
        0
    } else {
        rng.pick(&[start, start & !15, 0, 0x0FA0, near_end]) as usize
    };
    let mut records = Vec::new();
    while at < size && (whole || records.len() < most) {
        if rng.percent(gap_percent) {
            at += rng.pick(&[1, 3, 16, 16, 32, 200]);
        }
        let count = if varied { rng.between(1, usual) } else { usual } as usize;
        let count = count.min(size.saturating_sub(at));
        let blank = rng.percent(blank_percent);
        let data = (0..count).map(|_| if blank { 0xFF } else { rng.next() as u8 });
        records.push(Record::new(at, data.collect()));
        at += count;
    }
    // A gap may have led past the end; a record without data is sound anywhere.
    match rng.below(6) {
        0 => records.reverse(),
        1 => shuffle(rng, &mut records),
        2 => {
            let place = rng.below(records.len() as u32 + 1) as usize;
            let address = rng.pick(&[0, 0x0FFF, 0x1000, 0x3FFF, 0x4000, 0xFFFF, at]);
            records.insert(place, Record::new(address & 0xFFFF, Vec::new()));
        }
        _ => {}
    }
    records.push(Record::end());
    records
}

fn shuffle<T>(rng: &mut Rng, items: &mut [T]) {
    for last in (1..items.len()).rev() {
        items.swap(last, rng.below(last as u32 + 1) as usize);
    }
}
