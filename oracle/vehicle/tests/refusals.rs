//! Refusals: each number, their order, tables of rubbish, and that nothing changes.

mod bench;

use bench::{aimed, body, by_angle, chassis, controls, drive, hit, wheel, UP};
use vehicle::handed::{Chassis, Controls, Drive, GroundBody, Hit, NewWheel};
use vehicle::math::{Pose, Rotation, Vector};
use vehicle::row;
use vehicle::stream::table_tokens;
use vehicle::table::{Table, ACCEPTED, MARK_AIMED, MARK_DRIVEN, MARK_NEW};

const NAN: f32 = f32::NAN;
const MOST: f32 = 1_048_576.0;
const MOST_STORED: f32 = 1_099_511_627_776.0;

fn above(number: f32) -> f32 {
    f32::from_bits(number.to_bits() + 1)
}

/// The bits of a table, so that NaN equals itself and the zeros differ.
fn bits(table: &Table) -> Vec<u32> {
    table_tokens(table).into_iter().map(|token| token.value()).collect()
}

/// The answer of a call that must leave the table alone.
fn unchanged(table: &mut Table, call: impl FnOnce(&mut Table) -> u32) -> u32 {
    let before = bits(table);
    let answer = call(table);
    assert_eq!(bits(table), before);
    answer
}

fn driven() -> Table {
    let mut table = aimed();
    assert_eq!(table.drive(&drive(&[hit()])).answer, ACCEPTED);
    table
}

/// Every call but set-up, each with what it would accept.
fn all_calls(table: &mut Table) -> [u32; 5] {
    [
        table.clone().add_wheel(&wheel()),
        table.clone().set_controls(0, &controls()),
        table.clone().aim(&chassis()).answer,
        table.clone().drive(&drive(&[hit()])).answer,
        table.read_wheel(0).answer,
    ]
}

#[test]
fn misshapen_tables() {
    let spoilt: [fn(&mut Table); 6] = [
        |table| table.count = 17,
        |table| table.mark = 3,
        |table| table.up = 3,
        |table| table.forward = u32::MAX,
        |table| table.numbers.truncate(row::TABLE - 1),
        |table| table.numbers.push(0.0),
    ];
    for spoil in spoilt {
        let mut table = aimed();
        spoil(&mut table);
        assert_eq!(all_calls(&mut table), [1; 5]);
    }
}

#[test]
fn set_up_writes_over_any_contents() {
    let mut table = driven();
    table.count = 99;
    table.mark = 99;
    table.up = 99;
    table.numbers.fill(NAN);
    assert_eq!(unchanged(&mut table, |table| table.set_up(3, 0)), 1);
    assert_eq!(unchanged(&mut table, |table| table.set_up(0, 3)), 1);
    assert_eq!(table.set_up(2, 1), ACCEPTED);
    assert_eq!(table, Table { up: 2, forward: 1, ..Table::new() });
    table.numbers.pop();
    assert_eq!(unchanged(&mut table, |table| table.set_up(1, 0)), 1);
}

#[test]
fn stored_numbers() {
    for bad in [NAN, f32::INFINITY, -f32::INFINITY, above(MOST_STORED), -above(MOST_STORED)] {
        for place in 0..row::CHASSIS + row::ROW {
            let mut table = aimed();
            table.numbers[place] = bad;
            assert_eq!(all_calls(&mut table)[..4], [2; 4], "place {place}");
            table.mark = MARK_DRIVEN;
            assert_eq!(table.read_wheel(0).answer, 2, "place {place}");
        }
        // A row that is not used may hold anything.
        let mut table = aimed();
        table.numbers[row::CHASSIS + row::ROW] = bad;
        assert_eq!(all_calls(&mut table)[..4], [ACCEPTED; 4]);
    }
}

#[test]
fn the_bound_itself_is_stored() {
    let mut table = driven();
    table.numbers[row::CHASSIS + row::CENTER] = -MOST_STORED;
    assert_eq!(table.read_wheel(0).center.x, -MOST_STORED);
}

/// What fell back is stored as 1 or 0, and any number but 0 reads as yes.
#[test]
fn any_stored_number_but_0_is_a_yes() {
    let mut table = driven();
    for (number, yes) in [
        (0.0, false),
        (-0.0, false),
        (1.0, true),
        (7.0, true),
        (-3.0, true),
        (f32::from_bits(1), true),
        (-f32::from_bits(1), true),
        (MOST_STORED, true),
    ] {
        for place in [row::NO_AXIS, row::NO_FORWARD] {
            let mut table = table.clone();
            table.numbers[row::CHASSIS + place] = number;
            let read = table.read_wheel(0);
            let said = (read.answer, read.no_axis, read.no_forward);
            assert_eq!(said, (0, yes && place == row::NO_AXIS, yes && place == row::NO_FORWARD));
        }
    }
    // A refused read says no.
    table.numbers[row::CHASSIS + row::NO_AXIS] = NAN;
    table.numbers[row::CHASSIS + row::NO_FORWARD] = 1.0;
    let read = table.read_wheel(0);
    assert_eq!((read.answer, read.no_axis, read.no_forward), (2, false, false));
}

#[test]
fn stored_settings() {
    let settings = [
        (row::RADIUS, 0.0),
        (row::REST_LENGTH, -1.0),
        (row::TRAVEL, -f32::from_bits(1)),
        (row::STIFFNESS, -1.0),
        (row::COMPRESSION, -1.0),
        (row::RELAXATION, -1.0),
        (row::SLIP, -1.0),
        (row::SIDE_STIFFNESS, -1.0),
        (row::MAX_FORCE, -1.0),
        (row::ROLL_INFLUENCE, -f32::from_bits(1)),
        (row::ROLL_INFLUENCE, above(1.0)),
        (row::BRAKE, -1.0),
        (row::STEERING + 3, 0.5),
    ];
    for (place, value) in settings {
        let mut table = aimed();
        table.numbers[row::CHASSIS + place] = value;
        // Add and controls test what is handed in; reading tests no setting.
        assert_eq!(all_calls(&mut table), [0, 0, 10, 10, 5], "place {place}");
    }
}

#[test]
fn the_kept_chassis() {
    for (place, value) in [(3, 0.5), (16, 0.0), (16, 2.0 * MOST)] {
        let mut table = aimed();
        table.numbers[place] = value;
        // An aim replaces it, a drive works on it.
        assert_eq!(all_calls(&mut table), [0, 0, 0, 10, 5], "place {place}");
    }
}

#[test]
fn wheels_and_moments() {
    let mut table = Table::new();
    assert_eq!(table.read_wheel(0).answer, 4);
    assert_eq!(table.set_controls(0, &controls()), 4);
    for _ in 0..16 {
        assert_eq!(table.add_wheel(&wheel()), ACCEPTED);
    }
    assert_eq!(unchanged(&mut table, |table| table.add_wheel(&wheel())), 3);
    assert_eq!(table.read_wheel(15).answer, 5);
    assert_eq!(table.read_wheel(16).answer, 4);
    assert_eq!(table.drive(&drive(&[hit(); 16])).answer, 5);
}

#[test]
fn marks() {
    let mut table = aimed();
    assert_eq!(table.mark, MARK_AIMED);
    table.set_controls(0, &controls());
    assert_eq!(table.mark, MARK_NEW);
    table.aim(&chassis());
    table.drive(&drive(&[hit()]));
    assert_eq!(table.mark, MARK_DRIVEN);
    table.set_controls(0, &controls());
    assert_eq!(table.mark, MARK_DRIVEN);
    assert_eq!(unchanged(&mut table, |table| table.drive(&drive(&[hit()])).answer), 5);
    table.add_wheel(&wheel());
    assert_eq!(table.mark, MARK_NEW);
}

fn refuse_drive(drive: &Drive) -> u32 {
    unchanged(&mut aimed(), |table| table.drive(drive).answer)
}

#[test]
fn answers_of_a_drive() {
    assert_eq!(refuse_drive(&drive(&[])), 6);
    assert_eq!(refuse_drive(&drive(&[hit(), hit()])), 6);
    for time in [NAN, f32::INFINITY, -f32::from_bits(1), above(1.0)] {
        assert_eq!(refuse_drive(&drive(&[Hit { time, ..hit() }])), 6);
    }
    assert_eq!(refuse_drive(&drive(&[Hit { body: Some(0), ..hit() }])), 6);
    assert_eq!(refuse_drive(&Drive { bodies: vec![body(); 65], ..drive(&[hit()]) }), 6);
    let full = Drive { bodies: vec![body(); 64], ..drive(&[Hit { body: Some(63), ..hit() }]) };
    assert_eq!(aimed().drive(&full).answer, ACCEPTED);
}

#[test]
fn numbers_of_a_drive() {
    for bad in [NAN, f32::INFINITY, above(MOST), -above(MOST)] {
        assert_eq!(refuse_drive(&Drive { dt: bad, ..drive(&[hit()]) }), 2);
        let normal = Vector::new(0.0, bad, 0.0);
        assert_eq!(refuse_drive(&drive(&[Hit { normal, ..hit() }])), 2);
        // The upward normal is tested at every time.
        let upward_normal = Some(normal);
        assert_eq!(refuse_drive(&drive(&[Hit { upward_normal, ..hit() }])), 2);
        // A body is tested whether a hit names it or not.
        let bodies = vec![GroundBody { inverse_mass: bad, ..body() }];
        assert_eq!(refuse_drive(&Drive { bodies, ..drive(&[hit()]) }), 2);
    }
}

/// (1/32, 1, 0) has the sum of squares 2^-10 + 1 exactly; the square of 0.9995116 is rounded to
/// 1 − 2^-10.
const UPPER: [f32; 3] = [0.03125, 1.0, 0.0];
const LOWER: [f32; 3] = [0.0, 0.999_511_6, 0.0];

fn vector([x, y, z]: [f32; 3]) -> Vector {
    Vector::new(x, y, z)
}

#[test]
fn normals_of_the_wrong_length() {
    let of = |normal: Vector| Hit { normal, ..hit() };
    let with = |upward: Vector| Hit { upward_normal: Some(upward), ..hit() };
    for end in [vector(UPPER), vector(LOWER), -vector(UPPER), UP, -UP] {
        assert_eq!(aimed().drive(&drive(&[of(end)])).answer, ACCEPTED);
        assert_eq!(aimed().drive(&drive(&[with(end)])).answer, ACCEPTED);
    }
    // A step past either end, length two, zero: refused as either normal.
    let past = [[0.03125, 1.0, 0.0003], [0.25, 0.967_741_4, 0.0]];
    for past in past.map(vector).into_iter().chain([UP * 2.0, Vector::ZERO]) {
        assert_eq!(refuse_drive(&drive(&[of(past)])), 12, "{past:?}");
        assert_eq!(refuse_drive(&drive(&[with(past)])), 12, "{past:?}");
    }
    let sum = |parts: [f32; 3]| vector(parts).dot(vector(parts));
    assert_eq!([sum(LOWER), sum(UPPER)], [1.0 - 1.0 / 1024.0, 1.0 + 1.0 / 1024.0]);
    assert_eq!(past.map(sum), [above(sum(UPPER)), f32::from_bits(sum(LOWER).to_bits() - 1)]);
}

#[test]
fn the_zero_normal_at_time_0() {
    let zeros = [Vector::ZERO, Vector::new(-0.0, 0.0, -0.0), -Vector::ZERO];
    for normal in zeros {
        for upward_normal in [None, Some(UP), Some(-vector(LOWER))] {
            for time in [0.0, -0.0] {
                let hit = Hit { time, normal, upward_normal, body: None };
                assert_eq!(aimed().drive(&drive(&[hit])).answer, ACCEPTED);
            }
            let hit = Hit { time: f32::from_bits(1), normal, upward_normal, body: None };
            assert_eq!(refuse_drive(&drive(&[hit])), 12);
        }
        // No upward normal is exempt, whatever the time and the normal.
        for upward_normal in [Some(normal), Some(UP * 2.0)] {
            for hit in [Hit { time: 0.0, normal, ..hit() }, Hit { time: 0.0, ..hit() }, hit()] {
                assert_eq!(refuse_drive(&drive(&[Hit { upward_normal, ..hit }])), 12);
            }
        }
    }
    // Small is not zero, and another normal than zero is held to the band at time 0 too.
    for normal in [Vector::new(0.0, f32::from_bits(1), 0.0), UP * 0.5] {
        assert_eq!(refuse_drive(&drive(&[Hit { time: 0.0, normal, ..hit() }])), 12);
    }
}

#[test]
fn ranges_of_a_drive() {
    for dt in [-f32::from_bits(1), above(1.0), MOST] {
        assert_eq!(refuse_drive(&Drive { dt, ..drive(&[hit()]) }), 10);
    }
    for dt in [0.0, -0.0, 1.0] {
        assert_eq!(aimed().drive(&Drive { dt, ..drive(&[hit()]) }).answer, ACCEPTED);
    }
    let bodies = vec![GroundBody { inverse_mass: -1.0, ..body() }];
    assert_eq!(refuse_drive(&Drive { bodies, ..drive(&[hit()]) }), 10);
}

#[test]
fn ranges_of_an_aim() {
    let answer = |chassis: Chassis| Table::new().aim(&chassis).answer;
    let least = 1.0 / MOST;
    assert_eq!(answer(Chassis { inverse_mass: least, ..chassis() }), ACCEPTED);
    assert_eq!(answer(Chassis { inverse_mass: MOST, ..chassis() }), ACCEPTED);
    assert_eq!(answer(Chassis { inverse_mass: above(MOST), ..chassis() }), 2);
    assert_eq!(answer(Chassis { inverse_mass: least * 0.999, ..chassis() }), 10);
    let turned = |w: f32| Chassis {
        pose: Pose { rotation: Rotation::new(0.0, 0.0, 0.0, w), ..Pose::IDENTITY },
        ..chassis()
    };
    // 1.0004882 squared is just below 1 + 2^-10, its neighbour's square just above.
    let inside = (1.0f32 + 1.0 / 1024.0).sqrt();
    assert!(inside * inside <= 1.0 + 1.0 / 1024.0);
    assert_eq!(answer(turned(inside)), ACCEPTED);
    assert_eq!(answer(turned(1.0006)), 10);
    assert_eq!(answer(turned(0.9994)), 10);
}

#[test]
fn ranges_of_an_add() {
    let answer = |wheel: NewWheel| Table::new().add_wheel(&wheel);
    assert_eq!(answer(NewWheel { radius: f32::from_bits(1), ..wheel() }), ACCEPTED);
    assert_eq!(answer(NewWheel { radius: 0.0, ..wheel() }), 10);
    assert_eq!(answer(NewWheel { radius: -0.0, ..wheel() }), 10);
    assert_eq!(answer(NewWheel { slip: -0.0, ..wheel() }), ACCEPTED);
    assert_eq!(answer(NewWheel { slip: -f32::from_bits(1), ..wheel() }), 10);
    assert_eq!(answer(NewWheel { slip: MOST, ..wheel() }), ACCEPTED);
    assert_eq!(answer(NewWheel { slip: above(MOST), ..wheel() }), 2);
    let rolled = |roll: f32| answer(NewWheel { roll_influence: Some(roll), ..wheel() });
    for roll in [0.0, -0.0, f32::from_bits(1), 0.1, 0.5, 1.0] {
        assert_eq!(rolled(roll), ACCEPTED, "{roll}");
    }
    for roll in [-f32::from_bits(1), above(1.0), -1.0, 2.0, MOST, -MOST] {
        assert_eq!(rolled(roll), 10, "{roll}");
    }
    for roll in [above(MOST), -above(MOST), f32::NAN, f32::INFINITY] {
        assert_eq!(rolled(roll), 2, "{roll}");
    }
}

#[test]
fn ranges_of_an_angle() {
    let answer = |angle: f32| aimed().set_controls(0, &by_angle(angle));
    for angle in [0.0, -0.0, f32::from_bits(1), 1.0, 2.0, -2.0] {
        assert_eq!(answer(angle), ACCEPTED, "{angle}");
    }
    for angle in [above(2.0), -above(2.0), 3.0, -3.0, MOST, -MOST] {
        assert_eq!(answer(angle), 10, "{angle}");
    }
    for angle in [above(MOST), -above(MOST), NAN, f32::INFINITY, f32::NEG_INFINITY] {
        assert_eq!(answer(angle), 2, "{angle}");
    }
    // The brake is tested beside an angle as beside a rotation, and 4 comes first.
    assert_eq!(aimed().set_controls(0, &Controls { brake: -1.0, ..by_angle(0.0) }), 10);
    assert_eq!(aimed().set_controls(0, &Controls { engine: NAN, ..by_angle(3.0) }), 2);
    assert_eq!(aimed().set_controls(1, &by_angle(NAN)), 4);
    assert_eq!(unchanged(&mut aimed(), |table| table.set_controls(0, &by_angle(3.0))), 10);
    // An aimed mark becomes new, as by a rotation.
    let mut table = aimed();
    assert_eq!((table.set_controls(0, &by_angle(2.0)), table.mark), (ACCEPTED, MARK_NEW));
}

/// Of the stored rotation and angle the one that counts is held to its range, the other to 2 alone.
#[test]
fn a_stored_angle() {
    let answers = |rotation: [f32; 4], angle: f32, kind: f32| {
        let mut table = aimed();
        let steered = row::CHASSIS + row::STEERED.start;
        table.numbers[steered..steered + 4].copy_from_slice(&rotation);
        table.numbers[steered + 4..steered + 6].copy_from_slice(&[angle, kind]);
        let [_, _, aim, drive, _] = all_calls(&mut table);
        [aim, drive]
    };
    let unit = [0.0, 0.0, 0.0, 1.0];
    for kind in [1.0, -3.5, f32::from_bits(1), MOST_STORED] {
        for angle in [2.0, -2.0, 0.0] {
            assert_eq!(answers(unit, angle, kind), [0; 2]);
            assert_eq!(answers([MOST_STORED; 4], angle, kind), [0; 2]);
            assert_eq!(answers([0.0; 4], angle, kind), [0; 2]);
        }
        for angle in [above(2.0), -above(2.0), MOST_STORED] {
            assert_eq!(answers(unit, angle, kind), [10; 2]);
        }
    }
    for kind in [0.0, -0.0] {
        assert_eq!(answers(unit, MOST_STORED, kind), [0; 2]);
        assert_eq!(answers(unit, -above(2.0), kind), [0; 2]);
        assert_eq!(answers([0.0; 4], 1.0, kind), [10; 2]);
    }
}

/// The answer of an aim of one wheel with this direction, steered by this angle.
fn aim_along(direction: Vector, angle: f32) -> u32 {
    let mut table = Table::new();
    assert_eq!(table.add_wheel(&NewWheel { direction, ..wheel() }), ACCEPTED);
    assert_eq!(table.set_controls(0, &by_angle(angle)), ACCEPTED);
    let before = bits(&table);
    let answer = table.aim(&chassis()).answer;
    assert_eq!(bits(&table) == before, answer != ACCEPTED);
    answer
}

/// Zero, or so short that its squares underflow: refused whatever the angle, also one that turns nothing.
#[test]
fn an_angle_without_an_axis() {
    let last = f32::from_bits((127 - 75) << 23);
    for angle in [0.0, -0.0, 0.001, 1.0, -2.0] {
        assert_eq!(aim_along(Vector::ZERO, angle), 17);
        for size in [1e-30, f32::from_bits(1), last] {
            assert_eq!(aim_along(Vector::new(size, -size, 0.0), angle), 17, "{size:e}");
        }
    }
    // The square of the next float is not zero: with no turn to make that is enough.
    assert_eq!(aim_along(Vector::new(0.0, above(last), 0.0), 0.0), ACCEPTED);
}

/// The square of 1.2 · 2^-75, 0.72 of the smallest float, is rounded up to it. The axis comes out as the
/// root of 0.72, the rotation's sum of squares as 1 − 0.28 · sine²: below the band where the sine of the
/// half angle is above the root of 2^-10/0.28, 0.059. The square of 1.7 · 2^-75 is 1.445 of it and is
/// rounded down: 1 + 0.445 · sine², above the band from 0.047 on.
#[test]
fn a_rotation_outside_the_band() {
    let unit = f32::from_bits((127 - 75) << 23);
    for (part, inside, outside) in [(1.2, 0.117, 0.119), (1.7, 0.093, 0.095)] {
        for direction in [Vector::new(part * unit, 0.0, 0.0), Vector::new(0.0, 0.0, -part * unit)] {
            for sign in [1.0, -1.0] {
                assert_eq!(aim_along(direction, sign * inside), ACCEPTED, "{part}");
                assert_eq!(aim_along(direction, sign * outside), 17, "{part}");
            }
        }
    }
    // Such a wheel may be steered by any rotation.
    let mut table = Table::new();
    table.add_wheel(&NewWheel { direction: Vector::new(1.2 * unit, 0.0, 0.0), ..wheel() });
    assert_eq!(table.aim(&chassis()).answer, ACCEPTED);
}

/// 17 looks at every wheel steered by angle and at no other, and a drive never gives it.
#[test]
fn only_aims_of_wheels_steered_by_angle() {
    let mut table = Table::new();
    let flat = NewWheel { direction: Vector::ZERO, ..wheel() };
    for new in [wheel(), flat, wheel(), flat] {
        assert_eq!(table.add_wheel(&new), ACCEPTED);
    }
    for turned in [0, 2] {
        assert_eq!(table.set_controls(turned, &by_angle(1.0)), ACCEPTED);
    }
    assert_eq!(table.aim(&chassis()).answer, ACCEPTED);
    assert_eq!(table.drive(&drive(&[hit(); 4])).answer, ACCEPTED);
    for last in [1, 3] {
        let mut table = table.clone();
        assert_eq!(table.set_controls(last, &by_angle(0.0)), ACCEPTED);
        assert_eq!(unchanged(&mut table, |table| table.aim(&chassis()).answer), 17);
    }
    // A stored table may be aimed with a wheel that no aim would let through. It is the direction of the
    // next aim that counts, not the one that is stored.
    for (flat, answer) in [(row::DIRECTION + 1, 17), (row::WORLD_DIRECTION + 1, ACCEPTED)] {
        let mut table = aimed();
        for (place, number) in [(row::ANGLE, 1.0), (row::KIND, 1.0), (flat, 0.0)] {
            table.numbers[row::CHASSIS + place] = number;
        }
        assert_eq!(table.clone().aim(&chassis()).answer, answer);
        assert_eq!(table.drive(&drive(&[hit()])).answer, ACCEPTED);
    }
    // A row that is not used is not looked at.
    let mut table = aimed();
    table.numbers[row::CHASSIS + row::ROW + row::KIND] = 1.0;
    assert_eq!(table.aim(&chassis()).answer, ACCEPTED);
}

/// It is the direction of this aim that counts. A chassis rotation within its band turns and scales it: the
/// square of 2^-75 underflows, that of 2^-75 · 1.0004 does not.
#[test]
fn the_direction_of_this_aim_counts() {
    let mut table = Table::new();
    let last = f32::from_bits((127 - 75) << 23);
    table.add_wheel(&NewWheel { direction: Vector::new(0.0, -last, 0.0), ..wheel() });
    table.set_controls(0, &by_angle(0.0));
    let longer = Rotation::new(0.0, 0.0, 0.0, 1.0002);
    let pose = Pose { rotation: longer, ..Pose::IDENTITY };
    assert_eq!(table.aim(&chassis()).answer, 17);
    assert_eq!(table.aim(&Chassis { pose, ..chassis() }).answer, ACCEPTED);
    // What that one stored does not count either.
    assert_eq!(unchanged(&mut table, |table| table.aim(&chassis()).answer), 17);
}

#[test]
fn a_demand_or_limit_too_large() {
    let after = |wheel: NewWheel, chassis: Chassis| {
        let mut table = Table::new();
        table.add_wheel(&wheel);
        table.aim(&chassis);
        unchanged(&mut table, |table| table.drive(&drive(&[hit()])).answer)
    };
    // A limit of 5 · 2^20 · 2^20.
    let heavy = Chassis { inverse_mass: 1.0 / MOST, ..chassis() };
    assert_eq!(after(NewWheel { slip: MOST, ..wheel() }, heavy), 7);
    // A side demand of 0.2 · 20 · 2^20 · 2^20.
    let sideways = Chassis { linear: Vector::new(0.0, 0.0, 20.0), ..heavy };
    assert_eq!(after(NewWheel { side_stiffness: MOST, stiffness: 0.0, ..wheel() }, sideways), 7);
}

#[test]
fn a_demand_that_is_not_a_number() {
    // The contact point is (0, −1, 0): the denominator is 1 − 1, and 0 times infinity is NaN.
    let inverse_inertia = [0.0, 0.0, 0.0, 0.0, 0.0, -1.0];
    let after = |velocity: f32| {
        let mut table = Table::new();
        table.add_wheel(&NewWheel { stiffness: 1000.0, ..wheel() });
        table.set_controls(0, &Controls { brake: 2.0, ..controls() });
        let linear = Vector::new(velocity, 0.0, 0.0);
        table.aim(&Chassis { inverse_inertia, linear, ..chassis() });
        let answer = table.drive(&drive(&[hit()])).answer;
        (answer, table.row(0).0[row::FORWARD_IMPULSE])
    };
    assert_eq!(after(0.0).0, 7);
    // An infinite demand is cut to the brake.
    assert_eq!(after(1.0), (ACCEPTED, -2.0));
}

#[test]
fn a_limit_that_is_not_a_number_is_refused_without_a_panic() {
    // Only a table of rubbish gets so far: the centre of mass is 2^40 away and the chassis turns
    // at 2^40, so that the relative velocity is −2^80; times a compression of 2^40 and a mass of
    // 2^20 the force is infinite, and infinity times a dt of 0 is NaN. The velocity alone would
    // be refused with 8.
    let mut table = aimed();
    table.numbers[row::CHASSIS + row::COMPRESSION] = MOST_STORED;
    table.numbers[7] = MOST_STORED;
    table.numbers[15] = MOST_STORED;
    table.numbers[16] = 1.0 / MOST;
    let drive = Drive { dt: 0.0, ..drive(&[hit()]) };
    assert_eq!(unchanged(&mut table, |table| table.drive(&drive).answer), 7);
    table.numbers[row::CHASSIS + row::COMPRESSION] = 0.0;
    assert_eq!(unchanged(&mut table, |table| table.drive(&drive).answer), 8);
}

#[test]
fn results_too_large() {
    // A centre of 2^20 · √3 · 2^20 along y, once the chassis has turned.
    let mut table = Table::new();
    let direction = Vector::new(0.0, -MOST, MOST);
    let wheel = NewWheel { direction, rest_length: 0.0, radius: MOST, travel: MOST, ..wheel() };
    table.add_wheel(&NewWheel { stiffness: 0.0, ..wheel });
    table.aim(&chassis());
    assert_eq!(table.drive(&drive(&[Hit { time: 0.0, ..hit() }])).answer, ACCEPTED);
    assert_eq!(table.row(0).0[row::SUSPENSION_LENGTH], -MOST);
    assert_eq!(table.aim(&chassis()).answer, ACCEPTED);
    assert_eq!(table.row(0).vector(row::CENTER).y, MOST_STORED);
    // An eighth of a turn about x.
    let rotation = Rotation::new(0.382_683_43, 0.0, 0.0, 0.923_879_5);
    let turned = Chassis { pose: Pose { rotation, ..Pose::IDENTITY }, ..chassis() };
    assert_eq!(unchanged(&mut table, |table| table.aim(&turned).answer), 8);
    // A contact point of 2^20 · 2^21.
    let mut table = Table::new();
    table.add_wheel(&NewWheel { rest_length: MOST, ..wheel });
    table.aim(&chassis());
    let nothing = Drive { dt: 0.0, bodies: vec![], answers: vec![None] };
    assert_eq!(unchanged(&mut table, |table| table.drive(&nothing).answer), 8);
}

#[test]
fn the_order() {
    // 1 before all, then 3 before 2 and 10.
    let mut table = Table::new();
    let worst = NewWheel { slip: NAN, radius: -1.0, ..wheel() };
    table.mark = 9;
    assert_eq!(table.add_wheel(&worst), 1);
    table.mark = 0;
    table.count = 16;
    assert_eq!(table.add_wheel(&worst), 3);
    table.count = 0;
    assert_eq!(table.add_wheel(&worst), 2);
    assert_eq!(table.add_wheel(&NewWheel { slip: 1.0, ..worst }), 10);
    // 4 before 2 and 10; 4 before 5.
    let worst = Controls { engine: NAN, brake: -1.0, ..controls() };
    assert_eq!(table.set_controls(0, &worst), 4);
    table.add_wheel(&wheel());
    assert_eq!(table.set_controls(0, &worst), 2);
    assert_eq!(table.set_controls(0, &Controls { engine: 0.0, ..worst }), 10);
    assert_eq!(table.read_wheel(1).answer, 4);
    // 5 before 6, 6 before 2, 2 before 12, of a stored number too, and 12 before 10.
    let normal = Vector::new(NAN, 0.0, 0.0);
    let mut worst = Drive { dt: 2.0, ..drive(&[Hit { time: 2.0, normal, ..hit() }]) };
    assert_eq!(table.drive(&worst).answer, 5);
    table.aim(&chassis());
    assert_eq!(table.drive(&worst).answer, 6);
    worst.answers[0] = Some(Hit { normal, ..hit() });
    assert_eq!(table.drive(&worst).answer, 2);
    worst.answers[0] = Some(Hit { normal: UP * 2.0, ..hit() });
    let mut rubbish = table.clone();
    rubbish.numbers[row::CHASSIS + row::ROTATION] = NAN;
    assert_eq!(rubbish.drive(&worst).answer, 2);
    rubbish.numbers[row::CHASSIS + row::ROTATION] = 0.0;
    rubbish.numbers[row::CHASSIS + row::RADIUS] = -1.0;
    assert_eq!(rubbish.drive(&worst).answer, 12);
    assert_eq!(table.drive(&worst).answer, 12);
    worst.answers[0] = Some(hit());
    assert_eq!(table.drive(&worst).answer, 10);
}

/// Of an aim: 2, then 10 of any kind and of any wheel, then 17 of any wheel, then 8.
#[test]
fn the_order_of_an_aim() {
    let mut table = Table::new();
    for direction in [Vector::ZERO, -UP] {
        assert_eq!(table.add_wheel(&NewWheel { direction, ..wheel() }), ACCEPTED);
    }
    assert_eq!(table.set_controls(0, &by_angle(1.0)), ACCEPTED);
    // The second wheel's centre would lie at −2^40 · 2: 8, but for the first wheel.
    let second = row::CHASSIS + row::ROW;
    table.numbers[second + row::DIRECTION + 1] = -2.0;
    table.numbers[second + row::SUSPENSION_LENGTH] = MOST_STORED;
    assert_eq!(table.aim(&chassis()).answer, 17);
    let mut other = table.clone();
    assert_eq!(other.set_controls(0, &controls()), ACCEPTED);
    assert_eq!(other.aim(&chassis()).answer, 8);
    // 10 of the chassis, of the second wheel's settings and of its angle.
    assert_eq!(table.aim(&Chassis { inverse_mass: 0.0, ..chassis() }).answer, 10);
    for (place, number) in [(row::RADIUS, 0.0), (row::STEERING, 1.0), (row::ANGLE, 3.0)] {
        let mut table = table.clone();
        table.numbers[second + place] = number;
        table.numbers[second + row::KIND] = if place == row::ANGLE { 1.0 } else { 0.0 };
        assert_eq!(table.aim(&chassis()).answer, 10, "place {place}");
        table.numbers[second + row::ROTATION] = NAN;
        assert_eq!(table.aim(&chassis()).answer, 2, "place {place}");
    }
}

#[test]
fn refused_replies_are_zeros() {
    let mut table = Table::new();
    let fast = Chassis { linear: UP, inverse_mass: 0.0, ..chassis() };
    let aimed = table.aim(&fast);
    assert_eq!((aimed.answer, aimed.speed, aimed.rays), (10, 0.0, vec![]));
    let driven = table.drive(&drive(&[]));
    let zeros = (Vector::ZERO, Vector::ZERO, false);
    assert_eq!((driven.linear, driven.angular, driven.wake), zeros);
}
