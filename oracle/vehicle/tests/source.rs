//! The kept source is the file as sent.

const SOURCE: &[u8] = include_bytes!("../../source/ray_cast_vehicle_controller.rs");

/// FNV-1a, 64 bits.
fn fingerprint(bytes: &[u8]) -> u64 {
    bytes.iter().fold(0xCBF2_9CE4_8422_2325, |hash, byte| {
        (hash ^ u64::from(*byte)).wrapping_mul(0x0000_0100_0000_01B3)
    })
}

#[test]
fn not_a_byte_was_changed() {
    assert_eq!((SOURCE.len(), fingerprint(SOURCE)), (31_392, 0x38D3_C109_C186_973E));
}
