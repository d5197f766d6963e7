//! The scenario program: number coding, malformed places, lines.

mod bench;

use vehicle::program::{run, run_each, run_on_state, text};
use vehicle::stream::{bytes_of, groups, table_tokens, Code, Reader};
use vehicle::table::Table;

fn printed(stream: &[u8]) -> String {
    text(&run(stream))
}

#[test]
fn a_read_of_nothing() {
    assert_eq!(printed(&[0x05, 0x00, 0x00]), "vehicle 1\n5 4\n0 0\n");
}

#[test]
fn ends_before_code_0() {
    assert_eq!(printed(&[]), "vehicle 1\n0 9\n");
    assert_eq!(printed(&[0x05]), "vehicle 1\n5 9\n");
    assert_eq!(printed(&[0x05, 0x00]), "vehicle 1\n5 4\n0 9\n");
    assert_eq!(printed(&[0x80]), "vehicle 1\n0 9\n");
}

#[test]
fn bytes_after_code_0_are_not_read() {
    assert_eq!(printed(&[0x00, 0xFF, 0xFF]), "vehicle 1\n0 0\n");
}

/// Behind code 0, behind an unknown code, behind the first byte of a read that is malformed.
#[test]
fn scenarios_one_after_another() {
    assert_eq!(run_each(&[]), "");
    let stream = [0x05, 0x00, 0x00, 0x06, 0x05, 0x80, 0x00];
    let scenarios = ["5 4\n0 0", "6 9", "5 9", "0 9", "0 0"];
    let expected: String = scenarios.iter().map(|lines| format!("vehicle 1\n{lines}\n")).collect();
    assert_eq!(run_each(&stream), expected);
    assert_eq!(run_each(&[0x05, 0x00]), "vehicle 1\n5 4\n0 9\n");
}

#[test]
fn unknown_codes_are_shown() {
    assert_eq!(printed(&[0x07]), "vehicle 1\n7 9\n");
    assert_eq!(printed(&[0x0B, 0x00]), "vehicle 1\n11 9\n");
    assert_eq!(printed(&[0xFF, 0xFF, 0xFF, 0xFF, 0x0F]), "vehicle 1\n4294967295 9\n");
}

#[test]
fn numbers_too_long_or_not_shortest() {
    for stream in [
        &[0x80, 0x00][..],
        &[0x85, 0x00],
        &[0x80, 0x80, 0x80, 0x80, 0x00],
        &[0xFF, 0xFF, 0xFF, 0xFF, 0x10],
        &[0xFF, 0xFF, 0xFF, 0xFF, 0x8F],
        &[0x80, 0x80, 0x80, 0x80, 0x80, 0x00],
    ] {
        assert_eq!(printed(stream), "vehicle 1\n0 9\n", "{stream:?}");
        let in_a_read: Vec<u8> = [&[0x05], stream].concat();
        assert_eq!(printed(&in_a_read), "vehicle 1\n5 9\n", "{stream:?}");
    }
}

#[test]
fn numbers_read_back() {
    for value in [0, 1, 127, 128, 16_383, 16_384, 0x0FFF_FFFF, 0x1000_0000, u32::MAX] {
        let mut stream = vec![0x05];
        stream.extend(groups(value));
        assert_eq!(Reader::new(&stream).code(), Ok(Code::Read(value)));
    }
}

#[test]
fn counts_over_their_limits() {
    let dt = groups(0.5f32.to_bits());
    let drive = |rest: &[u8]| [&[0x04][..], &dt, rest].concat();
    assert_eq!(printed(&drive(&[65])), "vehicle 1\n4 9\n");
    assert_eq!(printed(&drive(&[0, 17])), "vehicle 1\n4 9\n");
    assert_eq!(printed(&drive(&[0, 1, 3])), "vehicle 1\n4 9\n");
    // Well formed, but not aimed.
    assert_eq!(printed(&drive(&[0, 1, 0, 0])), "vehicle 1\n4 5\n0 0\n");
}

#[test]
fn codes_read_back() {
    let upward_normal = Some(bench::UP);
    let body = Some(0);
    let mut drive = bench::drive(&[bench::hit(), bench::hit()]);
    drive.bodies = vec![bench::body()];
    drive.answers.push(Some(vehicle::handed::Hit { upward_normal, body, ..bench::hit() }));
    drive.answers.push(None);
    let codes = [
        Code::Add(bench::wheel()),
        Code::Controls(7, bench::controls()),
        Code::Controls(7, bench::by_angle(-0.5)),
        Code::Aim(bench::chassis()),
        Code::Drive(drive),
        Code::Read(300),
        Code::ReadSettled(300),
        Code::ReadAll(300),
        Code::End,
    ];
    for code in codes {
        assert_eq!(Reader::new(&bytes_of(&code.tokens())).code(), Ok(code));
    }
}

#[test]
fn a_short_scenario() {
    let drive = bench::drive(&[bench::hit()]);
    let codes = [
        Code::Add(bench::wheel()),
        Code::Aim(bench::chassis()),
        Code::Drive(drive),
        Code::Read(0),
        Code::ReadSettled(0),
        Code::ReadAll(0),
        Code::End,
    ];
    let tokens: Vec<_> = codes.iter().flat_map(Code::tokens).collect();
    let zero = " 00000000";
    let one = " 3f800000";
    // The ray is (0, −2, 0); the spring's impulse of 5 lifts the chassis.
    let aimed = format!("3 0{}{zero} c0000000{zero}", zero.repeat(4));
    let driven = format!("4 0{zero} 40a00000{}", zero.repeat(5));
    // Centre, direction −y, axle z, length 0, force 5, no impulses, skid 1, rotation 0.
    let mut read = format!("{}{zero} bf800000{zero}{}{one}", zero.repeat(3), zero.repeat(2));
    read += &format!("{zero} 40a00000{}{one}{zero}", zero.repeat(2));
    // With length 0 the wheel settles at its hard point.
    let settled = format!("{read}{}", zero.repeat(3));
    // It rolls: both directions are there.
    let reads = format!("5 0{read}\n8 0{settled}\n9 0{settled}{}", zero.repeat(2));
    let text = printed(&bytes_of(&tokens)).replace("80000000", "00000000");
    assert_eq!(text, format!("vehicle 1\n1 0\n{aimed}\n{driven}\n{reads}\n0 0\n"));
}

/// Codes 5, 8 and 9 are one call: refused alike, and malformed alike.
#[test]
fn reads_are_refused_alike() {
    let one_wheel = bytes_of(&Code::Add(bench::wheel()).tokens());
    for code in [5, 8, 9] {
        assert_eq!(printed(&[code, 0x00, 0x00]), format!("vehicle 1\n{code} 4\n0 0\n"));
        assert_eq!(printed(&[code]), format!("vehicle 1\n{code} 9\n"));
        let too_early = [&one_wheel[..], &[code, 0x00, 0x00]].concat();
        assert_eq!(printed(&too_early), format!("vehicle 1\n1 0\n{code} 5\n0 0\n"));
    }
}

/// The fields of code 2 with the angle in place of the rotation: wheel 1, engine 1, brake 0, angle 2.
#[test]
fn code_10_has_an_angle() {
    let code = [0x0A, 0x01, 0x80, 0x80, 0x80, 0xFC, 0x03, 0x00, 0x80, 0x80, 0x80, 0x80, 0x04];
    let read = Reader::new(&code).code();
    let controls = vehicle::handed::Controls { engine: 1.0, ..bench::by_angle(2.0) };
    assert_eq!(read, Ok(Code::Controls(1, controls)));
    // No wheel 1; with two wheels the control is set, and prints no result.
    let wheel = bytes_of(&Code::Add(bench::wheel()).tokens());
    assert_eq!(printed(&[&code[..], &[0]].concat()), "vehicle 1\n10 4\n0 0\n");
    let set = [&wheel[..], &wheel, &code, &[0]].concat();
    assert_eq!(printed(&set), "vehicle 1\n1 0\n1 0\n10 0\n0 0\n");
    // Cut anywhere behind the code it is malformed.
    for end in 1..code.len() {
        assert_eq!(printed(&code[..end]), "vehicle 1\n10 9\n");
    }
}

/// Words behind the eighteen of code 8, 1 for a yes: an axle along the normal has neither direction; on a
/// normal that is a little short it has an axis, and no forward direction.
#[test]
fn code_9_ends_with_what_fell_back() {
    for (length, last) in [(1.0, [1, 1]), (0.9998, [0, 1])] {
        let axle = bench::UP;
        let normal = bench::UP * length;
        let codes = [
            Code::Add(vehicle::handed::NewWheel { axle, ..bench::wheel() }),
            Code::Aim(bench::chassis()),
            Code::Drive(bench::drive(&[vehicle::handed::Hit { normal, ..bench::hit() }])),
            Code::ReadSettled(0),
            Code::ReadAll(0),
            Code::End,
        ];
        let tokens: Vec<_> = codes.iter().flat_map(Code::tokens).collect();
        let lines = run(&bytes_of(&tokens));
        let (settled, all) = (&lines[3].results, &lines[4].results);
        assert_eq!((settled.len(), &all[..18], &all[18..]), (18, &settled[..], &last[..]));
    }
}

#[test]
fn a_state_is_loaded_and_shown() {
    let mut table = Table::new();
    table.add_wheel(&bench::wheel());
    table.mark = 2;
    let mut stream = bytes_of(&table_tokens(&table));
    stream.extend([0x05, 0x00, 0x00]);
    let text = run_on_state(&stream);
    let lines: Vec<&str> = text.lines().collect();
    assert!(lines[1].starts_with("5 0 "));
    assert_eq!(lines[2], "0 0");
    assert!(lines[3].starts_with("table 00000001 00000002 00000001 00000000 "));
    assert_eq!(lines[3].split(' ').count(), 1 + 4 + vehicle::row::TABLE);
}
