//! The header: fields, and refusals 1 to 5.

use crate::refusal::*;

pub struct Header {
    pub month: u8,
    pub model: u8,
    pub unit_count: usize,
    pub source: u8,
    pub base_percent: u64,
    pub common_heat_percent: u64,
    pub common_water_percent: u64,
    pub unmetered_factor: u64,
    pub loss_factor: u64,
    pub shared_meter_wh: u64,
    pub price: u64,
    pub inputs: [u64; 6],
}

/// Lowest and highest v, z, f by model.
const BY_MODEL: [[(u8, u8); 3]; 5] = [
    [(0, 0), (0, 0), (0, 0)],
    [(0, 0), (0, 0), (0, 0)],
    [(20, 30), (0, 50), (25, 35)],
    [(0, 60), (0, 50), (25, 35)],
    [(0, 0), (0, 50), (25, 35)],
];
/// Lowest and highest y, t by source.
const BY_SOURCE: [[(u8, u8); 2]; 4] = [
    [(0, 0), (0, 0)],
    [(0, 50), (0, 0)],
    [(0, 50), (50, 200)],
    [(0, 50), (0, 0)],
];
/// The highest h1 and h2 to h6 by source.
const HIGHEST_INPUTS: [(u64, u64); 4] = [
    (0, 0),
    (4_000_000_000, 0),
    (20_000_000, 0),
    (4_000_000_000, 4_000_000_000),
];

fn within(value: u8, (lowest, highest): (u8, u8)) -> bool {
    value >= lowest && value <= highest
}

/// Refusal 4 at a byte, unless its field is right.
#[inline(always)]
fn right(byte: usize, is_right: bool) -> Result<(), Refusal> {
    if is_right {
        Ok(())
    } else {
        refuse_at(HEADER_FIELD, byte)
    }
}

impl Header {
    /// Refusals 1 to 5.
    pub fn of(bytes: &[u8], unit_bytes: usize) -> Result<Header, Refusal> {
        let Some(head) = bytes.first_chunk::<48>() else {
            return refuse(TOO_SHORT);
        };
        refuse_if(head[..4] != *b"HCS\0", BAD_MAGIC)?;
        refuse_if(head[4..6] != [1, 0], UNSUPPORTED_VERSION)?;
        let number = |at: usize| {
            u64::from(u32::from_le_bytes([
                head[at],
                head[at + 1],
                head[at + 2],
                head[at + 3],
            ]))
        };
        let header = Header {
            month: head[6],
            model: head[7],
            unit_count: usize::from(u16::from_le_bytes([head[8], head[9]])),
            source: head[10],
            base_percent: head[11].into(),
            common_heat_percent: head[12].into(),
            common_water_percent: head[13].into(),
            unmetered_factor: head[14].into(),
            loss_factor: head[15].into(),
            shared_meter_wh: number(16),
            price: number(20),
            inputs: std::array::from_fn(|i| number(24 + 4 * i)),
        };
        header.check(head)?;
        let length = 48 + unit_bytes * header.unit_count;
        refuse_if(bytes.len() != length, WRONG_LENGTH)?;
        Ok(header)
    }

    /// Refusal 4, at the first wrong field's byte.
    fn check(&self, head: &[u8; 48]) -> Result<(), Refusal> {
        right(6, within(self.month, (1, 12)))?;
        right(7, within(self.model, (1, 5)))?;
        right(8, (1..=160).contains(&self.unit_count))?;
        right(10, self.source <= 3)?;
        let [v, z, f] = BY_MODEL[usize::from(self.model) - 1];
        let [y, t] = BY_SOURCE[usize::from(self.source)];
        let (first, later) = HIGHEST_INPUTS[usize::from(self.source)];
        right(11, within(head[11], v))?;
        right(12, within(head[12], z))?;
        right(13, within(head[13], y))?;
        right(14, within(head[14], f))?;
        right(15, within(head[15], t))?;
        right(16, self.shared_meter_wh <= 4_000_000_000)?;
        right(20, self.price <= 100_000)?;
        right(24, self.inputs[0] <= first)?;
        for (place, &input) in self.inputs.iter().enumerate().skip(1) {
            right(24 + 4 * place, input <= later)?;
        }
        Ok(())
    }

    /// H, rounded up.
    pub fn hot_water_wh(&self) -> u64 {
        match self.source {
            0 => 0,
            1 => self.inputs[0],
            2 => ((100 + self.loss_factor) * 54 * self.inputs[0]).div_ceil(100),
            _ => (115 * self.inputs.iter().sum::<u64>()).div_ceil(600),
        }
    }
}
