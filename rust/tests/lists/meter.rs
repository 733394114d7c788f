//! What an area holds, as far as picking a call needs it.

#[derive(Clone, Copy)]
pub struct Read {
    pub day: u16,
    pub value: u32,
    pub letter: u8,
    pub indicator: u8,
}

pub struct Meter {
    pub is_pseudo: bool,
    /// 10^n; of a damaged plate any power will do.
    pub turn: i64,
    /// The first step back that is not small.
    pub step_back: i64,
    pub capacity: i64,
    pub is_carried: bool,
    pub standing: Vec<(Read, u8)>,
    pub withdrawn: Vec<Read>,
    pub held: Option<Read>,
}

/// The first step back that is not small on so many dials.
pub fn step_back(dials: u8) -> i64 {
    if dials == 3 {
        100
    } else {
        1000
    }
}

/// How long the head of an area is: the meter's entry, and a carry if one follows.
pub fn head_bytes(area: &[u8]) -> usize {
    if area[6] == 5 {
        15
    } else {
        6
    }
}

pub fn look_at(area: &[u8]) -> Meter {
    let mut meter = Meter {
        is_pseudo: area[0] == 7,
        turn: 10_i64.pow(u32::from(area[1]).clamp(3, 9)),
        step_back: step_back(area[1]),
        capacity: i64::from(u32::from_le_bytes([area[2], area[3], area[4], area[5]])),
        is_carried: head_bytes(area) > 6,
        standing: Vec::new(),
        withdrawn: Vec::new(),
        held: None,
    };
    for entry in area[head_bytes(area)..].chunks_exact(10).take_while(|entry| entry[0] != 0) {
        let read = Read {
            day: u16::from_le_bytes([entry[1], entry[2]]),
            value: u32::from_le_bytes([entry[3], entry[4], entry[5], entry[6]]),
            letter: entry[7],
            indicator: entry[8],
        };
        match entry[0] {
            2 => meter.standing.push((read, entry[9])),
            3 => meter.withdrawn.push(read),
            _ => meter.held = Some(read),
        }
    }
    meter
}

impl Meter {
    /// The last read's advance and days, where two stand.
    pub fn pace(&self) -> Option<(i64, i64)> {
        let [.., (before, _), (last, flag)] = self.standing[..] else {
            return None;
        };
        let advance = i64::from(last.value) - i64::from(before.value) + i64::from(flag) * self.turn;
        Some((advance, (i64::from(last.day) - i64::from(before.day)).max(1)))
    }

    pub fn final_stands(&self) -> bool {
        self.standing.iter().any(|(read, _)| read.letter == b'F')
    }

    /// One call in so many is a fold. Some meters are folded as soon as four reads stand, some now and then, some when they
    /// are nearly full, and some hardly ever, so that full journals are met too.
    pub fn calls_to_a_fold(&self) -> u64 {
        let entries = self.standing.len() + self.withdrawn.len();
        let is_foldable = self.standing.len() > 3 && !self.final_stands();
        match self.capacity / 8 % 4 {
            0 if is_foldable => 5,
            1 if is_foldable => 25,
            2 if entries > 46 => 8,
            3 => 200,
            _ => 60,
        }
    }
}
