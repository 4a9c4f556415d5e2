//! Wrong readings of the header's refusal, 4, and its place (request 2026-03).

use crate::refusal::*;
use crate::{current, misread, Reading::*};

/// The bytes of the header's fields in layout order.
const BYTES: [usize; 17] = [
    6, 7, 8, 10, 11, 12, 13, 14, 15, 16, 20, 24, 28, 32, 36, 40, 44,
];

/// The fields in another order.
pub fn reorder(fields: &mut [(usize, bool)]) {
    match current() {
        Some(HeaderAtLastFault) => fields.reverse(),
        // f, the field at byte 14, goes by model as v and z do.
        Some(HeaderModelFieldsFirst) => fields.sort_by_key(|&(byte, _)| match byte {
            14 => 12,
            _ => byte,
        }),
        _ => {}
    }
}

/// The refusal of the field at a byte.
pub fn refuse(byte: usize) -> Result<(), Refusal> {
    let by_model = matches!(byte, 11 | 12 | 14);
    let by_source = matches!(byte, 13 | 15 | 24..);
    if misread(HeaderClashAsClash) && (by_model || by_source) {
        return refuse_at(FIELD_CONFLICT, byte);
    }
    let place = match current() {
        Some(HeaderWithoutByte) => 0,
        Some(HeaderByFieldNumber) => BYTES.iter().filter(|&&other| other < byte).count(),
        Some(HeaderAtModel) if by_model => 7,
        Some(HeaderAtSource) if by_source => 10,
        Some(UnitCountAtByte9) if byte == 8 => 9,
        Some(MeterAtByte17) if byte == 16 => 17,
        Some(InputsAtByte24) => byte.min(24),
        _ => byte,
    };
    refuse_at(HEADER_FIELD, place)
}
