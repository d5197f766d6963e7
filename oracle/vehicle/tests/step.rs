//! Parts of a step that the marked cases leave out, worked out by hand.

mod bench;

use bench::{aimed, body, by_angle, chassis, controls, drive, hit, row_after, wheel, UP};
use vehicle::handed::{Chassis, Controls, Drive, GroundBody, Hit, NewWheel};
use vehicle::math::{cosine, sine, Pose, Rotation, Steering, Vector};
use vehicle::row::{self, Row};
use vehicle::step::{run_as_sent, Step};
use vehicle::table::{Table, ACCEPTED, BAD_RESULT, MARK_AIMED, WRONG_MOMENT};

#[test]
fn an_aim_works_out_the_transforms() {
    let mut table = Table::new();
    let connection_point = Vector::new(1.0, 0.0, 0.0);
    table.add_wheel(&NewWheel { connection_point, ..wheel() });
    // A quarter turn about y takes x to −z and z to x; half its square root is not exact, so the
    // half turn (0, 1, 0, 0) is taken: x to −x, z to −z.
    let rotation = Rotation::new(0.0, 1.0, 0.0, 0.0);
    let translation = Vector::new(10.0, 20.0, 30.0);
    let linear = Vector::new(3.0, 0.0, 4.0);
    let aimed = table.aim(&Chassis { pose: Pose { rotation, translation }, linear, ..chassis() });
    // The forward axis is −x now, so that the speed is −5.
    assert_eq!(aimed.speed, -5.0);
    let hard_point = Vector::new(9.0, 20.0, 30.0);
    assert_eq!(aimed.rays, [(hard_point, Vector::new(0.0, -2.0, 0.0))]);
    let row = table.row(0);
    assert_eq!(row.vector(row::HARD_POINT), hard_point);
    assert_eq!(row.vector(row::WORLD_AXLE), Vector::new(0.0, 0.0, -1.0));
    // The length stored so far is 0.
    assert_eq!(row.vector(row::CENTER), hard_point);
}

#[test]
fn the_centre_uses_the_length_of_the_drive_before() {
    let mut table = Table::new();
    table.add_wheel(&wheel());
    table.aim(&chassis());
    table.drive(&drive(&[Hit { time: 0.75, ..hit() }]));
    assert_eq!(table.read_wheel(0).center, Vector::ZERO);
    assert_eq!(table.read_wheel(0).suspension_length, 0.5);
    // The settled one is where the next aim puts the centre.
    assert_eq!(table.read_wheel(0).settled, Vector::new(0.0, -0.5, 0.0));
    table.aim(&chassis());
    assert_eq!(table.row(0).vector(row::CENTER), Vector::new(0.0, -0.5, 0.0));
}

/// It is not stored: 2^40 + 2^20 is given, and only the aim that would store it is refused.
#[test]
fn the_settled_centre_meets_no_bound() {
    let most = 1_048_576.0;
    let mut table = Table::new();
    table.add_wheel(&NewWheel {
        connection_point: Vector::new(0.0, most, 0.0),
        direction: Vector::new(0.0, -most, 0.0),
        rest_length: 0.0,
        radius: most,
        travel: most,
        ..wheel()
    });
    table.aim(&chassis());
    let driven = table.drive(&drive(&[Hit { time: 0.0, ..hit() }]));
    assert_eq!(driven.answer, ACCEPTED);
    let read = table.read_wheel(0);
    assert_eq!((read.answer, read.suspension_length), (ACCEPTED, -most));
    assert_eq!(read.settled, Vector::new(0.0, most * most + most, 0.0));
    assert_eq!(table.aim(&chassis()).answer, BAD_RESULT);
}

#[test]
fn steering_turns_the_axle_after_the_chassis() {
    let mut table = Table::new();
    table.add_wheel(&wheel());
    let steering = Steering::Rotation(Rotation::new(0.0, 1.0, 0.0, 0.0));
    table.set_controls(0, &Controls { steering, ..controls() });
    table.aim(&chassis());
    assert_eq!(table.row(0).vector(row::WORLD_AXLE), Vector::new(0.0, 0.0, -1.0));
    assert_eq!(table.row(0).steering(), steering);
}

#[test]
fn nothing_hit() {
    let mut table = Table::new();
    table.add_wheel(&wheel());
    table.aim(&Chassis { linear: Vector::new(1.0, 2.0, 3.0), ..chassis() });
    let driven = table.drive(&Drive { dt: 0.5, bodies: vec![], answers: vec![None] });
    assert_eq!(driven.linear, Vector::new(1.0, 2.0, 3.0));
    let row = table.row(0);
    assert_eq!(row.vector(row::CONTACT_POINT), Vector::new(0.0, -2.0, 0.0));
    assert_eq!(row.vector(row::CONTACT_NORMAL), UP);
    assert_eq!(row.0[row::SUSPENSION_LENGTH], 1.0);
    assert_eq!(row.0[row::CLIPPED_INVERSE], 1.0);
    assert_eq!(row.0[row::SKID], 1.0);
    assert_eq!(row.0[row::SUSPENSION_FORCE], 0.0);
}

/// The normal that a step takes. The refusals are not asked: refusal 12 lets a drive have few of
/// these, and rule 3 speaks of them all.
fn normal_at(time: f32, normal: Vector, upward_normal: Option<Vector>) -> Vector {
    let table = aimed();
    let step = Step {
        rows: &[table.row(0)],
        up: 1,
        forward: 0,
        chassis: &table.chassis(),
        dt: 0.5,
        bodies: &[],
        answers: &[Some(Hit { time, normal, upward_normal, body: None })],
    };
    run_as_sent(&step).map_or(Vector::ZERO, |after| after.rows[0].vector(row::CONTACT_NORMAL))
}

#[test]
fn a_hit_at_time_0_takes_minus_the_upward_normal() {
    let side = Vector::new(1.0, 0.0, 0.0);
    assert_eq!(normal_at(0.0, side, Some(Vector::new(0.0, -0.5, 0.0))), UP * 0.5);
    assert_eq!(normal_at(-0.0, side, Some(Vector::new(0.0, -0.5, 0.0))), UP * 0.5);
    assert_eq!(normal_at(0.0, side, None), side);
    // Zero, then minus the direction.
    assert_eq!(normal_at(0.0, side, Some(Vector::ZERO)), UP);
    assert_eq!(normal_at(0.0, Vector::ZERO, None), UP);
}

#[test]
fn at_another_time_the_normal_stays() {
    assert_eq!(normal_at(0.5, UP, Some(Vector::new(1.0, 0.0, 0.0))), UP);
    assert_eq!(normal_at(0.5, Vector::ZERO, Some(UP)), Vector::ZERO);
}

#[test]
fn the_impulse_uses_the_cut_force_and_the_limit_the_whole() {
    // Force 5, cut to 2: the chassis gains 2 · dt upward; the limit stays 5, so that 10 grips.
    let wheel = NewWheel { max_force: 2.0, ..wheel() };
    let mut table = Table::new();
    table.add_wheel(&wheel);
    table.set_controls(0, &Controls { engine: 10.0, ..controls() });
    table.aim(&chassis());
    let driven = table.drive(&drive(&[hit()]));
    assert_eq!(driven.linear, Vector::new(10.0, 2.0, 0.0));
    assert!(driven.wake);
    let read = table.read_wheel(0);
    assert_eq!([read.suspension_force, read.forward_impulse, read.skid], [5.0, 10.0, 1.0]);
}

/// The side demand with a ground body, whose side velocity is 20 and whose inverse mass is 1.
fn side_over(body: Option<GroundBody>) -> f32 {
    let mut table = Table::new();
    table.add_wheel(&NewWheel { stiffness: 100.0, ..wheel() });
    table.aim(&chassis());
    let named = body.map(|_| 0);
    let answers = vec![Some(Hit { body: named, ..hit() })];
    let driven = table.drive(&Drive { dt: 1.0, bodies: body.into_iter().collect(), answers });
    assert_eq!(driven.answer, ACCEPTED);
    table.row(0).0[row::SIDE_IMPULSE]
}

#[test]
fn only_a_dynamic_body_counts_for_the_side_demand() {
    let moving = GroundBody { linear: Vector::new(0.0, 0.0, 20.0), ..body() };
    assert_eq!(side_over(None), 0.0);
    assert_eq!(side_over(Some(GroundBody { dynamic: false, ..moving })), 0.0);
    // −0.2 · (0 − 20) · inv(1 + 1).
    assert_eq!(side_over(Some(moving)), 2.0);
}

#[test]
fn any_named_body_counts_for_the_rolling_demand() {
    let moving = GroundBody { linear: Vector::new(6.0, 0.0, 0.0), dynamic: false, ..body() };
    let mut table = Table::new();
    table.add_wheel(&NewWheel { stiffness: 100.0, ..wheel() });
    table.set_controls(0, &Controls { brake: 50.0, ..controls() });
    table.aim(&chassis());
    let answers = vec![Some(Hit { body: Some(0), ..hit() })];
    table.drive(&Drive { dt: 1.0, bodies: vec![moving], answers });
    // −(0 − 6) · (1 / (1 + 1)) / 1.
    assert_eq!(table.row(0).0[row::FORWARD_IMPULSE], 3.0);
}

#[test]
fn spin_in_contact_and_in_the_air() {
    let mut table = Table::new();
    table.add_wheel(&wheel());
    let linear = Vector::new(8.0, 0.0, 0.0);
    table.aim(&Chassis { linear, ..chassis() });
    table.drive(&Drive { dt: 0.5, ..drive(&[hit()]) });
    // 8 · 0.5 / 1, then the spin times 0.99 is stored, in contact too.
    assert_eq!(table.read_wheel(0).rotation, 4.0);
    assert_eq!(table.row(0).0[row::DELTA_ROTATION], 4.0 * 0.99);
    table.aim(&Chassis { linear, ..chassis() });
    table.drive(&Drive { dt: 0.5, bodies: vec![], answers: vec![None] });
    assert_eq!(table.read_wheel(0).rotation, 4.0 + 4.0 * 0.99);
}

#[test]
fn other_axes_are_used() {
    let mut table = Table::new();
    assert_eq!(table.set_up(1, 2), ACCEPTED);
    table.add_wheel(&wheel());
    let linear = Vector::new(3.0, 0.0, -4.0);
    assert_eq!(table.aim(&Chassis { linear, ..chassis() }).speed, -5.0);
}

#[test]
fn the_side_impulse_is_lifted_along_the_up_axis() {
    // The contact point is (0, −1, 0); with up y it is lifted to y = −1 + 0.9, with up z it stays.
    let turned_about_x_with = |up| {
        let mut table = Table::new();
        table.set_up(up, 0);
        table.add_wheel(&NewWheel { stiffness: 1000.0, ..wheel() });
        let linear = Vector::new(0.0, 0.0, -20.0);
        let inverse_inertia = [1.0, 0.0, 0.0, 0.0, 0.0, 0.0];
        table.aim(&Chassis { linear, inverse_inertia, ..chassis() });
        table.drive(&drive(&[hit()])).angular.x
    };
    // d × axis = (−1, 0, 0) turns about x: the demand is 4 / (1 + 1) = 2.
    assert_eq!(turned_about_x_with(2), -2.0);
    // The lift is 1 − 0.1 in single precision, and −1 + 0.9 too.
    let lift: f32 = 1.0 - 0.1;
    assert_eq!(turned_about_x_with(1), (-1.0 + lift) * 2.0);
}

/// A drive works on the stored transforms, also where no aim could have written them.
#[test]
fn a_drive_uses_the_stored_transforms() {
    let mut table = Table::new();
    table.add_wheel(&wheel());
    table.aim(&chassis());
    let mut row: Row = table.row(0);
    row.0[row::HARD_POINT] = 5.0;
    table.set_row(0, &row);
    assert_eq!(table.mark, MARK_AIMED);
    assert_eq!(table.drive(&drive(&[hit()])).answer, ACCEPTED);
    assert_eq!(table.row(0).vector(row::HARD_POINT), Vector::new(5.0, 0.0, 0.0));
    assert_eq!(table.row(0).vector(row::CONTACT_POINT), Vector::new(5.0, -1.0, 0.0));
}

#[test]
fn a_drive_without_wheels() {
    let mut table = Table::new();
    let linear = Vector::new(1.0, 2.0, 3.0);
    table.aim(&Chassis { linear, ..chassis() });
    let driven = table.drive(&drive(&[]));
    assert_eq!((driven.answer, driven.linear, driven.wake), (ACCEPTED, linear, false));
}

/// The stock `inv` answers 0 up to 1e-20 and would stop this wheel; document 01's does so for 0
/// only. The root of the left side is 6 · 2^-70, about 5.1e-21; the limit is 5 · 2^-70.
#[test]
fn a_root_below_the_stock_threshold() {
    let tiny = f32::from_bits((127 - 70) << 23);
    let wheel = NewWheel { slip: tiny, ..wheel() };
    let controls = Controls { engine: 12.0 * tiny, ..controls() };
    let row = row_after(wheel, controls, chassis(), hit());
    assert_eq!(row.0[row::SKID], 5.0 * (1.0 / 6.0));
    assert_eq!(row.0[row::FORWARD_IMPULSE], 12.0 * tiny * (5.0 * (1.0 / 6.0)));
}

/// Two wheels at one place, 1 above the ground. The car drifts at 5 along z, the axis; its inverse mass
/// and the square of the arm about x are 1, so that each side demand is 0.2 × 5 / 2. The side impulse
/// is put in at a height of 1 − roll influence above the ground: its arm about x is the roll influence.
#[test]
fn each_side_impulse_has_its_own_roll_influence() {
    let turned_by = |first: Option<f32>, second: Option<f32>| {
        let mut table = Table::new();
        for roll_influence in [first, second] {
            assert_eq!(table.add_wheel(&NewWheel { roll_influence, ..wheel() }), ACCEPTED);
        }
        let linear = Vector::new(0.0, 0.0, -5.0);
        let inverse_inertia = [1.0, 0.0, 0.0, 0.0, 0.0, 0.0];
        table.aim(&Chassis { linear, inverse_inertia, ..chassis() });
        let driven = table.drive(&drive(&[hit(), hit()]));
        assert_eq!(driven.answer, ACCEPTED);
        let pushed = [0, 1].map(|wheel| table.row(wheel).0[row::SIDE_IMPULSE].abs());
        assert_eq!(pushed, [0.5, 0.5]);
        driven.angular.x
    };
    assert_eq!(turned_by(Some(0.0), Some(0.0)), 0.0);
    assert_eq!(turned_by(Some(1.0), Some(0.0)), -0.5);
    assert_eq!(turned_by(Some(0.0), Some(1.0)), -0.5);
    assert_eq!(turned_by(Some(0.5), Some(0.25)), -0.375);
    // The source's own.
    assert_eq!(turned_by(None, None), turned_by(Some(0.1), Some(0.1)));
}

/// Whether the axis and the forward direction fell back, in a table of one wheel.
fn fell_back(table: &Table) -> (bool, bool) {
    let read = table.read_wheel(0);
    assert_eq!(read.answer, ACCEPTED);
    (read.no_axis, read.no_forward)
}

/// A wheel with this axle that brakes and drifts, after a hit with this normal.
fn braked_on(axle: Vector, normal: Vector) -> Table {
    let mut table = Table::new();
    assert_eq!(table.add_wheel(&NewWheel { axle, ..wheel() }), ACCEPTED);
    assert_eq!(table.set_controls(0, &Controls { brake: 5.0, ..controls() }), ACCEPTED);
    let linear = Vector::new(3.0, 0.0, 4.0);
    assert_eq!(table.aim(&Chassis { linear, ..chassis() }).answer, ACCEPTED);
    assert_eq!(table.drive(&drive(&[Hit { normal, ..hit() }])).answer, ACCEPTED);
    table
}

#[test]
fn a_wheel_that_rolls_fell_back_nowhere() {
    let table = braked_on(Vector::new(0.0, 0.0, 1.0), UP);
    assert_eq!(fell_back(&table), (false, false));
    assert_eq!(table.row(0).0[row::NO_AXIS..], [0.0, 0.0]);
}

/// The axle is the normal: the axis is y less y, zero, and nothing crossed with it has a direction.
#[test]
fn an_axle_along_the_normal_has_neither_direction() {
    let table = braked_on(UP, UP);
    assert_eq!(fell_back(&table), (true, true));
    assert_eq!(table.row(0).0[row::NO_AXIS..], [1.0, 1.0]);
    let read = table.read_wheel(0);
    assert_eq!([read.forward_impulse, read.side_impulse], [0.0, 0.0]);
}

/// The engine's impulse is a number, 10 · dt, but it pushes along no direction: the chassis gains the
/// spring's 5 upward and nothing else.
#[test]
fn an_engine_without_a_direction_pushes_nothing() {
    let mut table = Table::new();
    table.add_wheel(&NewWheel { axle: UP, ..wheel() });
    table.set_controls(0, &Controls { engine: 10.0, ..controls() });
    table.aim(&Chassis { linear: Vector::new(3.0, 0.0, 4.0), ..chassis() });
    let driven = table.drive(&drive(&[hit()]));
    assert_eq!((driven.answer, driven.linear), (ACCEPTED, Vector::new(3.0, 5.0, 4.0)));
    assert_eq!(table.read_wheel(0).forward_impulse, 10.0);
    assert_eq!(fell_back(&table), (true, true));
}

/// A normal a little shorter than 1: y less y · n² is left over, points along the normal, and is made an
/// axis of length one; the normal crossed with it is zero.
#[test]
fn a_leftover_axis_along_the_normal_has_no_forward_direction() {
    for length in [0.9998, 1.0002] {
        let table = braked_on(UP, UP * length);
        assert_eq!(fell_back(&table), (false, true), "{length}");
        assert_eq!(table.row(0).0[row::NO_AXIS..], [0.0, 1.0]);
        assert_eq!(table.read_wheel(0).forward_impulse, 0.0);
    }
}

/// The square of 2^-75 is 2^-150, halfway from 0 to the smallest float, and ties go to even, to 0. That of
/// the next float is rounded up, and the axle has a length again.
#[test]
fn an_axle_too_short_has_neither_direction() {
    let last = f32::from_bits((127 - 75) << 23);
    let next = f32::from_bits(last.to_bits() + 1);
    for (size, dead) in [(1e-30, true), (f32::from_bits(1), true), (last, true), (next, false)] {
        for axle in [Vector::new(size, 0.0, 0.0), Vector::new(0.0, 0.0, -size)] {
            assert_eq!(fell_back(&braked_on(axle, UP)), (dead, dead), "{size:e}");
        }
    }
    assert_eq!(fell_back(&braked_on(Vector::ZERO, UP)), (true, true));
}

/// A hit at time 0 with a zero normal, and no suspension direction to stand in for it: the axis is the
/// axle, and the zero normal crossed with it is zero. The tyre holds to the side: 0.2 · 20 / 1.
#[test]
fn a_zero_normal_has_no_forward_direction() {
    let mut table = Table::new();
    table.add_wheel(&NewWheel { direction: Vector::ZERO, ..wheel() });
    table.set_controls(0, &Controls { brake: 5.0, ..controls() });
    table.aim(&Chassis { linear: Vector::new(3.0, 0.0, -20.0), ..chassis() });
    let inside = Hit { time: 0.0, normal: Vector::ZERO, ..hit() };
    let driven = table.drive(&drive(&[inside]));
    assert_eq!((driven.answer, driven.linear), (ACCEPTED, Vector::new(3.0, 0.0, -16.0)));
    assert_eq!(fell_back(&table), (false, true));
    let read = table.read_wheel(0);
    assert_eq!([read.forward_impulse, read.side_impulse], [0.0, 4.0]);
}

/// No call stores such a direction and axle. The normal is (0, 2^40, 0); the axle dot it is 2^80, and what
/// is left of the axle has a part of about −2^120, whose square overflows.
#[test]
fn a_stored_axle_too_long_has_neither_direction() {
    let most = 1_099_511_627_776.0;
    let mut table = aimed();
    let mut row: Row = table.row(0);
    row.0[row::WORLD_DIRECTION + 1] = -most;
    row.0[row::WORLD_AXLE..row::WORLD_AXLE + 3].copy_from_slice(&[most, most, 0.0]);
    table.set_row(0, &row);
    let inside = Hit { time: 0.0, normal: Vector::ZERO, ..hit() };
    assert_eq!(table.drive(&drive(&[inside])).answer, ACCEPTED);
    assert_eq!(fell_back(&table), (true, true));
}

/// A drive says it of itself alone: of a wheel that is in the air or rolls again it says no.
#[test]
fn what_fell_back_is_of_the_last_drive() {
    let nothing = Drive { dt: 1.0, bodies: vec![], answers: vec![None] };
    let ahead = Vector::new(1.0, 0.0, 0.0);
    for next in [nothing, drive(&[Hit { normal: ahead, ..hit() }])] {
        let mut table = braked_on(UP, UP);
        // Controls and a refused drive leave it.
        table.set_controls(0, &controls());
        assert_eq!(table.drive(&next).answer, WRONG_MOMENT);
        assert_eq!(fell_back(&table), (true, true));
        // So does an aim, though no read may follow it.
        table.aim(&chassis());
        assert_eq!(table.row(0).0[row::NO_AXIS..], [1.0, 1.0]);
        assert_eq!(table.drive(&next).answer, ACCEPTED);
        assert_eq!(fell_back(&table), (false, false));
    }
}

#[test]
fn a_new_wheel_fell_back_nowhere() {
    let mut table = Table::new();
    table.add_wheel(&NewWheel { axle: Vector::ZERO, ..wheel() });
    assert_eq!(table.row(0).0[row::NO_AXIS..], [0.0, 0.0]);
    table.aim(&chassis());
    assert_eq!(table.row(0).0[row::NO_AXIS..], [0.0, 0.0]);
}

/// The world axle of a wheel with this direction, steered by this angle, its axle along z.
fn axle_at(direction: Vector, angle: f32) -> Vector {
    let mut table = Table::new();
    table.add_wheel(&NewWheel { direction, ..wheel() });
    assert_eq!(table.set_controls(0, &by_angle(angle)), ACCEPTED);
    assert_eq!(table.aim(&chassis()).answer, ACCEPTED);
    table.row(0).vector(row::WORLD_AXLE)
}

const DOWN: Vector = Vector::new(0.0, -1.0, 0.0);

/// The rotation is about up: b = (0, s, 0). Of v = (0, 0, 1) the formula leaves v · (c·c − s·s), and b × v,
/// (s, 0, 0), times 2c: z goes to x, a right-handed turn. An angle of 1 has the half angle 0.5.
#[test]
fn an_angle_turns_the_axle_about_up() {
    let (s, c) = (sine(0.5), cosine(0.5));
    assert_eq!(axle_at(DOWN, 1.0), Vector::new(s * (c * 2.0), 0.0, c * c - s * s));
    assert_eq!(axle_at(DOWN, -1.0), Vector::new(-s * (c * 2.0), 0.0, c * c - s * s));
    // The sine and cosine of 1 radian.
    let near = |one: f32, other: f32| (one - other).abs() < 1.0 / 1_048_576.0;
    let turned = axle_at(DOWN, 1.0);
    assert!(near(turned.x, 0.841_471) && near(turned.z, 0.540_302_3), "{turned:?}");
    // The greatest angle: 2 radians, past the quarter turn.
    let turned = axle_at(DOWN, 2.0);
    assert!(near(turned.x, 0.909_297_4) && near(turned.z, -0.416_146_84), "{turned:?}");
    // About another direction: minus (−1, 0, 0) takes z to −y.
    let turned = axle_at(Vector::new(-1.0, 0.0, 0.0), 1.0);
    assert!(near(turned.y, -0.841_471) && near(turned.z, 0.540_302_3), "{turned:?}");
}

#[test]
fn either_zero_turns_nothing() {
    for angle in [0.0, -0.0] {
        assert_eq!(axle_at(DOWN, angle), Vector::new(0.0, 0.0, 1.0));
        let mut table = aimed();
        table.set_controls(0, &by_angle(angle));
        assert_eq!(table.row(0).0[row::ANGLE].to_bits(), angle.to_bits());
    }
}

/// The source would turn twice and four times as far about the longer ones.
#[test]
fn a_longer_direction_turns_no_further() {
    for length in [2.0, 4.0, 0.5, 1_048_576.0] {
        assert_eq!(axle_at(DOWN * length, 0.5), axle_at(DOWN, 0.5), "{length}");
    }
}

/// A half turn about z, (0, 0, 1, 0), takes −y to y and x to −x and leaves z. The axis is then −y, and the
/// same control turns the axle from z to −x, with nothing set anew.
#[test]
fn an_angle_follows_the_chassis() {
    let mut table = Table::new();
    table.add_wheel(&wheel());
    table.set_controls(0, &by_angle(1.0));
    let rolled = Pose { rotation: Rotation::new(0.0, 0.0, 1.0, 0.0), ..Pose::IDENTITY };
    let upright = axle_at(DOWN, 1.0);
    for (pose, x) in
        [(Pose::IDENTITY, upright.x), (rolled, -upright.x), (Pose::IDENTITY, upright.x)]
    {
        assert_eq!(table.aim(&Chassis { pose, ..chassis() }).answer, ACCEPTED);
        let axle = Vector::new(x, 0.0, upright.z);
        assert_eq!(table.row(0).vector(row::WORLD_AXLE), axle);
        // The rotation is made anew at each aim and not stored.
        assert_eq!(table.row(0).0[row::STEERED], [0.0, 0.0, 0.0, 1.0, 1.0, 1.0]);
        assert_eq!(table.drive(&drive(&[hit()])).answer, ACCEPTED);
        assert_eq!(table.read_wheel(0).world_axle, axle);
    }
}

/// The row keeps the last control given; of the other it has what a new wheel has.
#[test]
fn the_last_control_counts() {
    let mut table = Table::new();
    table.add_wheel(&wheel());
    assert_eq!(table.row(0).0[row::STEERED], [0.0, 0.0, 0.0, 1.0, 0.0, 0.0]);
    let about = Rotation::new(0.0, 1.0, 0.0, 0.0);
    let by_rotation = Controls { steering: Steering::Rotation(about), ..controls() };
    let turned = axle_at(DOWN, 0.5);
    for _ in 0..2 {
        table.set_controls(0, &by_rotation);
        assert_eq!(table.row(0).0[row::STEERED], [0.0, 1.0, 0.0, 0.0, 0.0, 0.0]);
        table.aim(&chassis());
        assert_eq!(table.row(0).vector(row::WORLD_AXLE), Vector::new(0.0, 0.0, -1.0));
        table.set_controls(0, &by_angle(0.5));
        assert_eq!(table.row(0).0[row::STEERED], [0.0, 0.0, 0.0, 1.0, 0.5, 1.0]);
        table.aim(&chassis());
        assert_eq!(table.row(0).vector(row::WORLD_AXLE), turned);
    }
}

/// The controls' part of a row has eight numbers: engine, brake, rotation, angle and kind.
#[test]
fn a_row_has_two_numbers_more() {
    assert_eq!((row::ENGINE, row::BRAKE, row::STEERED), (38, 39, 40..46));
    assert_eq!((row::NO_AXIS, row::ROW, row::TABLE), (54, 56, 26 + 16 * 56));
}

/// Each wheel is steered by its own: the second by an angle, the others by rotations.
#[test]
fn wheels_are_steered_in_their_order() {
    let mut table = Table::new();
    (0..3).for_each(|_| assert_eq!(table.add_wheel(&wheel()), ACCEPTED));
    let about = Steering::Rotation(Rotation::new(0.0, 1.0, 0.0, 0.0));
    table.set_controls(0, &Controls { steering: about, ..controls() });
    table.set_controls(1, &by_angle(1.0));
    table.aim(&chassis());
    let axles = [0, 1, 2].map(|wheel| table.row(wheel).vector(row::WORLD_AXLE));
    let ahead = Vector::new(0.0, 0.0, 1.0);
    assert_eq!(axles, [-ahead, axle_at(DOWN, 1.0), ahead]);
}

/// Any stored number but 0 says that the angle counts, and aims and drives leave all six as they are.
#[test]
fn a_stored_kind_but_0_means_the_angle() {
    let turned = axle_at(DOWN, 0.5);
    let ahead = Vector::new(0.0, 0.0, 1.0);
    let least = f32::from_bits(1);
    let most = 1_099_511_627_776.0;
    for (kind, axle) in [
        (0.0, -ahead),
        (-0.0, -ahead),
        (1.0, turned),
        (-3.5, turned),
        (least, turned),
        (-least, turned),
        (most, turned),
    ] {
        let mut table = Table::new();
        table.add_wheel(&wheel());
        let mut row: Row = table.row(0);
        let stored = [0.0, 1.0, 0.0, 0.0, 0.5, kind];
        row.0[row::STEERED].copy_from_slice(&stored);
        table.set_row(0, &row);
        assert_eq!(table.aim(&chassis()).answer, ACCEPTED);
        assert_eq!(table.row(0).vector(row::WORLD_AXLE), axle, "{kind}");
        assert_eq!(table.drive(&drive(&[hit()])).answer, ACCEPTED);
        let kept = table.row(0).0[row::STEERED].to_vec();
        assert_eq!(
            kept.iter().map(|part| part.to_bits()).collect::<Vec<_>>(),
            stored.map(f32::to_bits)
        );
    }
}
