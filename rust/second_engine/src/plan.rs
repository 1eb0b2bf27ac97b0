//! Plans: their type, and where they stand in bytes (01, 'Crew and node').

/// 01: "A plan is a two-byte number, 1 to 65,535; 0 means none." The type of every plan, and of every field that may
/// hold one.
pub type Plan = u16;

/// How many bytes a plan has wherever it stands in bytes.
pub const BYTES: usize = size_of::<Plan>();

/// The plan that stands in the bytes from this place on. 01: "byte order is little-endian"
pub fn at(bytes: &[u8], place: usize) -> Plan {
    let mut number = [0; BYTES];
    number.copy_from_slice(&bytes[place..place + BYTES]);
    Plan::from_le_bytes(number)
}

/// Writes the plan into the bytes from this place on.
pub fn put(bytes: &mut [u8], place: usize, plan: Plan) {
    bytes[place..place + BYTES].copy_from_slice(&plan.to_le_bytes());
}
