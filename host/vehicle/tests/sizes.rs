//! The sizes and places that this crate and the C header name, held to the library.

use vehicle_controller::ffi::{self, help, kind, len};
use vehicle_controller::WheelSettings;

/// A size here, in the library, and its macro in the header.
fn sizes() -> [(usize, u32, &'static str); 11] {
    [
        (len::TABLE, ffi::table_len(), "VEHICLE_TABLE_LEN"),
        (len::WHOLE, ffi::whole_len(), "VEHICLE_WHOLE_LEN"),
        (len::SETTINGS, ffi::settings_len(), "VEHICLE_SETTINGS_LEN"),
        (len::CONTROLS, ffi::controls_len(), "VEHICLE_CONTROLS_LEN"),
        (len::CONTROLS_BY_ANGLE, ffi::controls_by_angle_len(), "VEHICLE_CONTROLS_BY_ANGLE_LEN"),
        (len::CHASSIS, ffi::chassis_len(), "VEHICLE_CHASSIS_LEN"),
        (len::BODY, ffi::body_len(), "VEHICLE_BODY_LEN"),
        (len::RAY, ffi::ray_len(), "VEHICLE_RAY_LEN"),
        (len::AIM, ffi::aim_len(), "VEHICLE_AIM_LEN"),
        (len::DRIVE, ffi::drive_len(), "VEHICLE_DRIVE_LEN"),
        (len::READ, ffi::read_len(), "VEHICLE_READ_LEN"),
    ]
}

/// The value of a macro of the headers, as it is written there.
fn macro_text(name: &str) -> &'static str {
    let headers =
        [include_str!("../../include/vehicle.h"), include_str!("../../include/vehicle_help.h")];
    let mut lines = headers.into_iter().flat_map(str::lines);
    let line = lines.find_map(|line| line.strip_prefix(&format!("#define {name} "))).expect(name);
    line.split_whitespace().next().expect(name)
}

fn macro_value(name: &str) -> usize {
    macro_text(name).parse().expect(name)
}

#[test]
fn sizes_here_are_those_of_the_library_and_the_header() {
    for (here, library, name) in sizes() {
        assert_eq!(here, library as usize, "{name}");
        assert_eq!(here, macro_value(name), "{name}");
    }
    assert_eq!(len::READ - 2, macro_value("VEHICLE_READ_NO_AXIS"));
    assert_eq!(len::READ - 1, macro_value("VEHICLE_READ_NO_FORWARD"));
    assert_eq!(len::WHEELS, macro_value("VEHICLE_MOST_WHEELS"));
    assert_eq!(len::BODIES, macro_value("VEHICLE_MOST_BODIES"));
    assert_eq!(kind::NOTHING as usize, macro_value("VEHICLE_NOTHING"));
    assert_eq!(kind::HIT as usize, macro_value("VEHICLE_HIT"));
    assert_eq!(kind::HIT_UP as usize, macro_value("VEHICLE_HIT_UP"));
    assert_eq!(macro_text("VEHICLE_ROLL_INFLUENCE"), format!("{}f", WheelSettings::ROLL_INFLUENCE));
    assert_eq!(help::BOUND, macro_value("VEHICLE_BOUND_LEN"));
    assert_eq!(help::WORDS, macro_value("VEHICLE_WORDS_LEN"));
    let saved = "#define VEHICLE_SAVED_LEN (20 + 4 * (VEHICLE_TABLE_LEN + VEHICLE_WHOLE_LEN) + 4)";
    assert!(include_str!("../../include/vehicle_help.h").lines().any(|line| line == saved));
    assert_eq!(help::SAVED, 20 + 4 * (len::TABLE + len::WHOLE) + 4);
}

#[test]
fn sizes_fit_together() {
    assert_eq!(len::AIM, 1 + len::WHEELS * 6);
    assert_eq!((len::TABLE - len::CHASSIS) % len::WHEELS, 0);
}

/// Every number of a flat list is another, so that one in a wrong place shows.
fn counting<const N: usize>(from: f32) -> [f32; N] {
    std::array::from_fn(|place| from + place as f32)
}

#[test]
fn each_number_lands_at_its_place() {
    let (mut table, mut whole) = ([0.0; len::TABLE], [0; len::WHOLE]);
    assert_eq!(ffi::set_up(&mut table, &mut whole, 2, 1), 0);
    assert_eq!(whole, [0, 0, 2, 1]);
    let mut settings: [f32; len::SETTINGS] = counting(100.0);
    settings[len::SETTINGS - 1] = 0.75; // a roll influence is at most 1
    assert_eq!(ffi::add_wheel(&mut table, &mut whole, &settings), 0);
    assert_eq!(whole[0], 1);
    let controls = [7.0, 8.0, 0.0, 0.6, 0.0, 0.8];
    assert_eq!(ffi::set_controls(&mut table, &mut whole, 0, &controls), 0);
    let mut chassis: [f32; len::CHASSIS] = counting(1.0);
    chassis[3..7].copy_from_slice(&[0.6, 0.0, 0.0, 0.8]);
    assert_eq!(ffi::aim(&mut table, &mut whole, &chassis, &mut [0.0; len::AIM]), 0);
    assert_eq!(table[..len::CHASSIS], chassis, "the chassis is kept as it was handed in");
    let row = &table[len::CHASSIS..];
    // Settings and controls stand together in a row, in the order in which they are handed in; then the angle, and 1 if that counts.
    assert_eq!(row[19..38], settings, "settings");
    assert_eq!(row[38..44], controls, "controls");
    assert_eq!(row[44..46], [0.0, 0.0], "steered by a rotation");
    let of_row = len::CHASSIS + 38..len::CHASSIS + 46;
    assert_eq!(ffi::set_controls_by_angle(&mut table, &mut whole, 0, &[9.0, 10.0, -1.5]), 0);
    let by_angle = [9.0, 10.0, 0.0, 0.0, 0.0, 1.0, -1.5, 1.0];
    assert_eq!(table[of_row.clone()], by_angle, "the rotation is that of a new wheel");
    assert_eq!(ffi::set_controls(&mut table, &mut whole, 0, &controls), 0);
    assert_eq!(table[of_row.clone()], [7.0, 8.0, 0.0, 0.6, 0.0, 0.8, 0.0, 0.0], "a rotation again");
    assert_eq!(ffi::add_wheel(&mut table, &mut whole, &settings), 0);
    let next = (len::TABLE - len::CHASSIS) / len::WHEELS;
    let new = [0.0, 0.0, 0.0, 0.0, 0.0, 1.0, 0.0, 0.0];
    assert_eq!(table[of_row.start + next..of_row.end + next], new, "a new wheel");
}

/// The last two numbers of the first wheel's row, as 1 and 0, and those of its read: any stored number but 0 is a yes.
#[test]
fn what_fell_back_stands_last_in_a_row_and_in_a_read() {
    let (mut table, mut whole) = ([0.0; len::TABLE], [0; len::WHOLE]);
    assert_eq!(ffi::set_up(&mut table, &mut whole, 1, 0), 0);
    // An axle along the ground's normal, and then the same wheel in the air.
    let settings = [
        0.0, 0.0, 0.0, 0.0, -1.0, 0.0, 0.0, 1.0, 0.0, 1.0, 1.0, 8.0, 2.0, 2.0, 0.5, 1.0, 1.0, 64.0,
        0.1,
    ];
    assert_eq!(ffi::add_wheel(&mut table, &mut whole, &settings), 0);
    let mut chassis = [0.0; len::CHASSIS];
    chassis[6] = 1.0;
    chassis[16..20].fill(0.25);
    let row = (len::TABLE - len::CHASSIS) / len::WHEELS;
    let last = len::CHASSIS + row - 2..len::CHASSIS + row;
    assert_eq!(table[last.clone()], [0.0, 0.0], "a new wheel");
    let ray = [0.75, 0.0, 1.0, 0.0, 0.0, 0.0, 0.0];
    for (kind, expected) in [(kind::HIT, [1.0, 1.0]), (kind::NOTHING, [0.0, 0.0])] {
        let (mut sights, mut driven) = ([0.0; len::AIM], [0.0; len::DRIVE]);
        assert_eq!(ffi::aim(&mut table, &mut whole, &chassis, &mut sights), 0);
        let answer =
            ffi::drive(&mut table, &mut whole, 0.5, &[], &[], &[kind], &[0], &ray, &mut driven);
        assert_eq!(answer, 0);
        assert_eq!(table[last.clone()], expected);
        assert_eq!(read(&table, &whole), expected);
    }
    for (stored, given) in
        [(0.0, 0.0), (-0.0, 0.0), (7.0, 1.0), (-3.0, 1.0), (f32::from_bits(1), 1.0)]
    {
        table[last.start] = stored;
        assert_eq!(read(&table, &whole), [given, 0.0], "{stored:e}");
        table[last.start + 1] = stored;
        table[last.start] = 0.0;
        assert_eq!(read(&table, &whole), [0.0, given], "{stored:e}");
        table[last.start + 1] = 0.0;
    }
}

/// What the read of wheel 0 ends with.
fn read(table: &[f32], whole: &[u32]) -> [f32; 2] {
    let mut results = [0.0; len::READ];
    assert_eq!(ffi::read_wheel(table, whole, 0, &mut results), 0);
    [results[len::READ - 2], results[len::READ - 1]]
}
