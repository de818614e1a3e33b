//! Damaged images, by seed.
use crate::image::RECORD;
use crate::random::Random;

/// Numbers at which an immediate, a type or a tag is wrong for some records and right for others.
const IMMEDIATES: [i64; 9] = [-1, 255, 256, 65535, 65536, (1 << 32) - 1, 1 << 32, i64::MIN, i64::MAX];
const TYPES: [u16; 10] = [0, 1, 8, 16, 32, 64, 2, 24, 128, 16383];

/// A copy of an image, changed in one place, or in up to four. By chance it may still be good.
pub fn damage(random: &mut Random, image: &[u8]) -> Vec<u8> {
    let mut damaged = Damaged(image.to_vec());
    let times = if random.chance(80) { 1 } else { 2 + random.below(3) };
    for _ in 0..times {
        damaged.change(random);
    }
    damaged.0
}

struct Damaged(Vec<u8>);

impl Damaged {
    fn records(&self) -> usize {
        self.0.len() / RECORD
    }

    /// How many records say that they are values.
    fn values(&self) -> usize {
        self.0.chunks_exact(RECORD).filter(|record| record[0] == 1).count()
    }

    fn record(&self, number: usize) -> [u8; RECORD] {
        self.0[number * RECORD..][..RECORD].try_into().expect("a record's bytes")
    }

    fn put(&mut self, at: usize, bytes: &[u8]) {
        self.0[at..at + bytes.len()].copy_from_slice(bytes);
    }

    /// The type that a record gives its value, if it is a value's and there is one.
    fn ty(&self, value: usize) -> Option<u16> {
        let record = self.0.chunks_exact(RECORD).nth(value)?;
        (record[0] == 1).then(|| u16::from_le_bytes([record[12], record[13] & 0x3f]))
    }

    fn change(&mut self, random: &mut Random) {
        if self.records() == 0 {
            self.0.push(random.next() as u8);
            return;
        }
        let number = random.below(self.records());
        let at = number * RECORD;
        match random.below(20) {
            0 | 1 => self.0[at + random.below(RECORD)] ^= 1 << random.below(8),
            2 => {
                let most = self.0.len().min(2 * RECORD);
                self.0.truncate(self.0.len() - 1 - random.below(most));
            }
            3 => self.0[at] = random.pick(&[0, 1, 2, 3, 255]),
            4 => self.move_record(random, number),
            5 => self.0[at + 1 + random.below(RECORD - 1)] = random.next() as u8,
            6..=8 => self.redirect(random),
            _ if self.0[at] == 1 => self.change_value(random, at),
            _ => self.change_inst(random, at),
        }
    }

    /// Drops a record, doubles it, or lets it change places with another.
    fn move_record(&mut self, random: &mut Random, number: usize) {
        let record = self.record(number);
        match random.below(3) {
            0 => {
                self.0.drain(number * RECORD..(number + 1) * RECORD);
            }
            1 => self.0.extend_from_slice(&record),
            _ => {
                let other = random.below(self.records());
                let moved = self.record(other);
                self.put(other * RECORD, &record);
                self.put(number * RECORD, &moved);
            }
        }
    }

    /// A number that may name a value, an instruction, a block or nothing.
    fn some_number(&self, random: &mut Random) -> [u8; 4] {
        let values = self.values();
        let most = values.max(self.records() - values);
        let number = match random.below(6) {
            0 => u32::MAX,
            1 => most as u32,
            2 => 65536,
            3 => 64,
            _ => random.below(most + 1) as u32,
        };
        number.to_le_bytes()
    }

    fn change_value(&mut self, random: &mut Random, at: usize) {
        match random.below(4) {
            0 => {
                let tag_and_type = (random.below(4) as u16) << 14 | random.pick(&TYPES);
                self.put(at + 12, &tag_and_type.to_le_bytes());
            }
            1 if random.chance(50) => self.0[at + 13] = self.0[at + 13] & 0x3f | (random.below(4) as u8) << 6,
            1 => self.0[at + 12] = random.pick(&TYPES) as u8,
            2 => {
                let x = self.some_number(random);
                self.put(at + 4, &x);
            }
            _ => {
                let y = self.some_number(random);
                self.put(at + 8, &y);
            }
        }
    }

    fn change_inst(&mut self, random: &mut Random, at: usize) {
        match random.below(8) {
            0 => self.0[at + 1] = random.below(30) as u8,
            1 => self.0[at + 2] = random.below(12) as u8,
            2 => self.0[at + 3] = random.below(5) as u8,
            3 => self.0[at + 4] = random.below(4) as u8,
            4 => self.put(at + 8, &random.pick(&IMMEDIATES).to_le_bytes()),
            _ => {
                // an operand, a listed result or the block
                let field = at + 16 + 4 * random.below(6);
                let number = self.some_number(random);
                self.put(field, &number);
            }
        }
    }

    /// Lets an operand, an alias or a union name another value of the same type, so that loops and circles come about; or puts a constant
    /// at the end of a range.
    fn redirect(&mut self, random: &mut Random) {
        for _ in 0..20 {
            let number = random.below(self.records());
            let record = self.record(number);
            let at = number * RECORD;
            let field = match (record[0], record[13] >> 6, record[1]) {
                (1, 2, _) => 8,
                (1, 3, _) => 4 + 4 * random.below(2),
                (2, _, 0) => return self.put(at + 8, &random.pick(&IMMEDIATES).to_le_bytes()),
                (2, _, _) if (1..=3).contains(&record[3]) => 16 + 4 * random.below(record[3].into()),
                _ => continue,
            };
            let named = u32::from_le_bytes(record[field..field + 4].try_into().expect("four bytes"));
            let ty = self.ty(named as usize);
            let alike: Vec<usize> = (0..self.records()).filter(|value| ty.is_some() && self.ty(*value) == ty).collect();
            if !alike.is_empty() {
                return self.put(at + field, &(random.pick(&alike) as u32).to_le_bytes());
            }
        }
    }
}
