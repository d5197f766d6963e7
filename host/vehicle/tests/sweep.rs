//! One sweep over what a host can get wrong: every float field of every call, every length, every whole number of a table, every stored number
//! of a used row, every moment. Each is answered by its number of document 01, and a refusal leaves every bit that was lent as it was. Each
//! refusal has its explanation, which names the number that was spoilt; and no number that comes before the answer, in the order in which they
//! are tested, has one.

mod lent;

use std::collections::{BTreeMap, BTreeSet};

use lent::{
    accepted, by_angle, chassis, controls, drive, moments, settings, Call, Drive, Lent, BY_ANGLE,
    FORWARD, MARK, UP, WHEELS,
};
use vehicle_controller::ffi::{help, kind, len};
use vehicle_controller::Finding;

const HANDED: f32 = 1_048_576.0; // 2^20
const STORED: f32 = 1_099_511_627_776.0; // 2^40

/// Where the radius and the roll influence stand among the settings, and the settings in a row: the connection point is the first of them.
const RADIUS: usize = 10;
const ROLL_INFLUENCE: usize = len::SETTINGS - 1;
const SETTINGS_IN_ROW: usize = 19;

/// Where the suspension's direction, the last part of the steering's rotation, the angle, and which of the two counts stand in a row.
const DIRECTION_IN_ROW: usize = 22;
const W_IN_ROW: usize = 43;
const ANGLE_IN_ROW: usize = 44;
const KIND_IN_ROW: usize = 45;
const ROW: usize = (len::TABLE - len::CHASSIS) / len::WHEELS;

/// The bad numbers for a bound: NaN, the infinities and the next float beyond the bound, on both sides.
fn bad(bound: f32) -> [f32; 5] {
    let beyond = f32::from_bits(bound.to_bits() + 1);
    [f32::NAN, f32::INFINITY, f32::NEG_INFINITY, beyond, -beyond]
}

/// The refusals in the order in which they are tested.
const ORDER: [u32; 11] = [1, 3, 4, 5, 6, 2, 12, 10, 17, 7, 8];

/// How often each number was met.
#[derive(Default)]
struct Swept(BTreeMap<u32, usize>);

/// That the explanation of a call finds something for its answer, and for no number that is tested before it.
fn explained(what: &str, state: &Lent, call: &Call, answer: u32) -> Option<Finding> {
    for number in ORDER.into_iter().take_while(|number| *number != answer) {
        let wrong = state.explain(number, call);
        assert!(
            wrong.is_none(),
            "{what}: answered {answer}, and {number} is explained by {wrong:?}"
        );
    }
    let culprit = state.explain(answer, call);
    assert_eq!(culprit.is_some(), answer != 0, "{what}: {answer} is not explained");
    let is_whole = |found: &Finding| {
        found.bound.len() + 1 < help::BOUND && found.words.len() + 1 < help::WORDS
    };
    assert!(culprit.as_ref().is_none_or(is_whole), "{what}: cut short: {culprit:?}");
    culprit
}

/// That this number is the culprit, a NaN being equal to a NaN.
fn is_to_blame(what: &str, culprit: Option<Finding>, value: f32) {
    let Some(found) = culprit else { return };
    let (ours, theirs) = (found.value, f64::from(value));
    assert!(ours == theirs || ours.is_nan() && theirs.is_nan(), "{what}: {found}");
}

impl Swept {
    /// Makes the call, with results of the length that the state has, holds it to its number, and gives the culprit.
    fn meet(&mut self, what: &str, state: &Lent, call: &Call, number: u32) -> Option<Finding> {
        let mut lent = state.clone();
        let answer = lent.call(call);
        assert_eq!(answer, number, "{what}");
        if number != 0 {
            assert!(lent.bits() == state.bits(), "{what}: refused, and something lent has changed");
        }
        *self.0.entry(number).or_default() += 1;
        explained(what, state, call, number)
    }

    /// The same, with results of the right length.
    fn expect(&mut self, what: &str, state: &Lent, call: &Call, number: u32) -> Option<Finding> {
        self.meet(what, &state.clone().with_results_for(call), call, number)
    }

    /// Each bad number in each place of a list that a call is handed; the call is made from the list.
    fn fields(
        &mut self,
        what: &str,
        state: &Lent,
        list: &[f32],
        number: impl Fn(usize) -> u32,
        call: impl Fn(Vec<f32>) -> Call,
    ) {
        let mut names = BTreeSet::new();
        for place in 0..list.len() {
            for value in bad(HANDED) {
                let mut changed = list.to_vec();
                changed[place] = value;
                let what = format!("{what}, number {place}: {value}");
                let culprit = self.expect(&what, state, &call(changed), number(place));
                names.extend(culprit.iter().map(|found| (found.wheel, found.body, found.field)));
                is_to_blame(&what, culprit, value);
            }
        }
        let refused = (0..list.len()).filter(|place| number(*place) != 0).count();
        assert_eq!(names.len(), refused, "{what}: two places have one name");
    }

    /// Each wrong length of a list, no number among them.
    fn lengths<T: Copy>(
        &mut self,
        what: &str,
        state: &Lent,
        list: &[T],
        number: u32,
        call: impl Fn(Vec<T>) -> Call,
    ) {
        for wrong in wrong_lengths(list) {
            let length = wrong.len();
            self.expect(&format!("{what} of length {length}"), state, &call(wrong), number);
        }
    }
}

/// Shorter, longer, empty; and half and double.
fn wrong_lengths<T: Copy>(list: &[T]) -> Vec<Vec<T>> {
    let size = list.len();
    let longer = |more: usize| list.iter().copied().cycle().take(size + more).collect();
    vec![list[..size - 1].to_vec(), longer(1), Vec::new(), list[..size / 2].to_vec(), longer(size)]
}

fn with(state: &Lent, change: impl FnOnce(&mut Lent)) -> Lent {
    let mut changed = state.clone();
    change(&mut changed);
    changed
}

fn driving(change: impl FnOnce(&mut Drive)) -> Call {
    let mut changed = drive();
    change(&mut changed);
    Call::Drive(changed)
}

/// A read before a drive, a drive before an aim.
fn wrong_moments(swept: &mut Swept) {
    for (name, state) in moments() {
        let drive_number = if name == "aimed" { 0 } else { 5 };
        let read_number = if name == "driven" { 0 } else { 5 };
        swept.expect(&format!("drive when {name}"), &state, &Call::Drive(drive()), drive_number);
        for wheel in 0..WHEELS as u32 {
            swept.expect(&format!("read when {name}"), &state, &Call::Read(wheel), read_number);
        }
        for wheel in [WHEELS as u32, 16, u32::MAX] {
            swept.expect(&format!("read wheel {wheel}"), &state, &Call::Read(wheel), 4);
            swept.expect(
                &format!("controls of wheel {wheel}"),
                &state,
                &Call::Controls(wheel, controls()),
                4,
            );
            swept.expect(
                &format!("controls by angle of wheel {wheel}"),
                &state,
                &Call::ByAngle(wheel, by_angle()),
                4,
            );
        }
    }
}

/// NaN, the infinities and 2^20's next value in each float field of each call.
fn bad_fields(swept: &mut Swept) {
    let [(_, new), (_, aimed), _] = moments();
    swept.fields("settings", &new, &settings(), |_| 2, Call::Add);
    swept.fields("controls", &new, &controls(), |_| 2, |list| Call::Controls(1, list));
    swept.fields("by angle", &new, &by_angle(), |_| 2, |list| Call::ByAngle(1, list));
    swept.fields("chassis", &new, &chassis(), |_| 2, Call::Aim);
    swept.fields("dt", &aimed, &[drive().dt], |_| 2, |list| driving(|d| d.dt = list[0]));
    swept.fields("bodies", &aimed, &drive().bodies, |_| 2, |list| driving(|d| d.bodies = list));
    // A time is refusal 6; what a kind does not have is not looked at.
    let of_ray = |place: usize| match (drive().kinds[place / len::RAY], place % len::RAY) {
        (kind::NOTHING, _) => 0,
        (_, 0) => 6,
        (kind::HIT, 4..) => 0,
        _ => 2,
    };
    swept.fields("rays", &aimed, &drive().rays, of_ray, |list| driving(|d| d.rays = list));
}

/// Shorter, longer and empty arrays in each place of each call.
fn wrong_sizes(swept: &mut Swept) {
    for (call, state) in accepted() {
        let state = state.with_results_for(&call);
        for table in wrong_lengths(&state.table) {
            swept.meet("table", &with(&state, |lent| lent.table = table), &call, 1);
        }
        for whole in wrong_lengths(&state.whole) {
            swept.meet("whole", &with(&state, |lent| lent.whole = whole), &call, 1);
        }
        if !state.results.is_empty() {
            for results in wrong_lengths(&state.results) {
                swept.meet("results", &with(&state, |lent| lent.results = results), &call, 1);
            }
        }
    }
    let [(_, new), (_, aimed), _] = moments();
    swept.lengths("settings", &new, &settings(), 1, Call::Add);
    swept.lengths("controls", &new, &controls(), 1, |list| Call::Controls(1, list));
    swept.lengths("by angle", &new, &by_angle(), 1, |list| Call::ByAngle(1, list));
    // Each list is refused by the other call.
    swept.expect("three numbers for six", &new, &Call::Controls(1, by_angle()), 1);
    swept.expect("six numbers for three", &new, &Call::ByAngle(1, controls()), 1);
    swept.lengths("chassis", &new, &chassis(), 1, Call::Aim);
    swept.lengths("bodies", &aimed, &drive().bodies, 6, |list| driving(|d| d.bodies = list));
    swept.lengths("dynamic", &aimed, &drive().dynamic, 6, |list| driving(|d| d.dynamic = list));
    swept.lengths("kinds", &aimed, &drive().kinds, 6, |list| driving(|d| d.kinds = list));
    swept.lengths("named", &aimed, &drive().named, 6, |list| driving(|d| d.named = list));
    swept.lengths("rays", &aimed, &drive().rays, 6, |list| driving(|d| d.rays = list));
}

/// The lists of a drive that do not fit together, or hold what is not known.
fn bad_lists(swept: &mut Swept) {
    let [(_, new), (_, aimed), _] = moments();
    let wheels = |n: usize| {
        driving(|d| {
            (d.kinds, d.named, d.rays) = (vec![0; n], vec![0; n], vec![0.0; n * len::RAY]);
        })
    };
    for n in (0..20).chain([1000]).filter(|n| *n != WHEELS) {
        swept.expect(&format!("{n} answers"), &aimed, &wheels(n), 6);
    }
    let grounds = |n: usize| {
        driving(|d| {
            (d.bodies, d.dynamic, d.named) =
                (vec![0.0; n * len::BODY], vec![0; n], vec![0; WHEELS]);
        })
    };
    swept.expect("64 bodies", &aimed, &grounds(64), 0);
    for n in [65, 66, 1000] {
        swept.expect(&format!("{n} bodies"), &aimed, &grounds(n), 6);
    }
    for value in [2, 3, u32::MAX] {
        swept.expect(&format!("flag {value}"), &aimed, &driving(|d| d.dynamic[1] = value), 6);
    }
    for value in [3, 4, u32::MAX] {
        swept.expect(&format!("kind {value}"), &aimed, &driving(|d| d.kinds[2] = value), 6);
        swept.expect(&format!("body {value}"), &aimed, &driving(|d| d.named[0] = value), 6);
    }
    for time in [-f32::from_bits(1), -1.0, 1.0 + f32::EPSILON, 2.0] {
        swept.expect(&format!("time {time}"), &aimed, &driving(|d| d.rays[0] = time), 6);
    }
    for time in [0.0, -0.0, 1.0] {
        swept.expect(&format!("time {time}"), &aimed, &driving(|d| d.rays[0] = time), 0);
    }
    // In the order 1, 5, 6, 2: the earlier refusal is given.
    swept.expect("lists and moment", &new, &wheels(17), 5);
    swept.expect("lists and shape", &with(&new, |lent| lent.whole[UP] = 3), &wheels(17), 1);
    swept.expect("lists and number", &aimed, &driving(|d| (d.dt, d.kinds[0]) = (f32::NAN, 3)), 6);
}

/// Tables that no call wrote.
fn rubbish(swept: &mut Swept) {
    for (call, state) in accepted() {
        // Set-up takes any contents; every other call refuses them.
        let is_set_up = matches!(call, Call::SetUp(..));
        let number = |refusal| if is_set_up { 0 } else { refusal };
        for (place, values) in [
            (0, [17, 18, u32::MAX]),
            (MARK, [3, 4, u32::MAX]),
            (UP, [3, 4, u32::MAX]),
            (FORWARD, [3, 4, u32::MAX]),
        ] {
            for value in values {
                let spoilt = with(&state, |lent| lent.whole[place] = value);
                swept.expect(&format!("whole number {place}: {value}"), &spoilt, &call, number(1));
            }
        }
        let used = len::CHASSIS + WHEELS * ROW;
        let mut names = BTreeSet::new();
        for place in 0..len::TABLE {
            for value in bad(STORED) {
                let spoilt = with(&state, |lent| lent.table[place] = value);
                // An add fills the first unused row, whatever it holds; no other call looks at an unused one.
                let expected = if place < used { number(2) } else { 0 };
                let what = format!("stored number {place}: {value}");
                let culprit = swept.expect(&what, &spoilt, &call, expected);
                let wheel = place.checked_sub(len::CHASSIS).map(|in_rows| (in_rows / ROW) as u32);
                let named = culprit.as_ref().map(|found| found.wheel);
                assert!(named.is_none_or(|named| named == wheel), "{what}: {culprit:?}");
                names.extend(culprit.iter().map(|found| (found.wheel, found.field)));
                is_to_blame(&what, culprit, value);
            }
        }
        assert_eq!(names.len(), if is_set_up { 0 } else { used }, "two places have one name");
    }
}

/// One beyond each end of each range.
fn out_of_range(swept: &mut Swept) {
    let [(_, new), (_, aimed), _] = moments();
    let below = -f32::from_bits(1);
    for place in 9..len::SETTINGS {
        let mut list = settings();
        list[place] = below;
        swept.expect(&format!("setting {place}"), &new, &Call::Add(list), 10);
    }
    for radius in [0.0, -0.0] {
        let mut list = settings();
        list[RADIUS] = radius;
        swept.expect("radius 0", &new, &Call::Add(list), 10);
    }
    for (roll, number) in
        [(-0.0, 0), (0.0, 0), (1.0, 0), (1.0 + f32::EPSILON, 10), (2.0, 10), (HANDED, 10)]
    {
        let mut list = settings();
        list[ROLL_INFLUENCE] = roll;
        swept.expect(&format!("roll influence {roll}"), &new, &Call::Add(list), number);
        let stored = |state: &Lent| {
            with(state, |lent| lent.table[len::CHASSIS + SETTINGS_IN_ROW + ROLL_INFLUENCE] = roll)
        };
        let what = format!("a stored roll influence {roll}");
        swept.expect(&what, &stored(&new), &Call::Aim(chassis()), number);
        swept.expect(&what, &stored(&aimed), &Call::Drive(drive()), number);
    }
    let controls_with = |place: usize, value: f32| {
        let mut list = controls();
        list[place] = value;
        Call::Controls(0, list)
    };
    swept.expect("brake", &new, &controls_with(1, below), 10);
    let chassis_with = |place: usize, value: f32| {
        let mut list = chassis();
        list[place] = value;
        Call::Aim(list)
    };
    for w in [0.0, 0.999, 1.001, -1.001] {
        swept.expect("steering", &new, &controls_with(5, w), 10);
        swept.expect("rotation", &new, &chassis_with(6, w), 10);
    }
    for inverse_mass in [0.0, -1.0, f32::from_bits((1.0 / HANDED).to_bits() - 1)] {
        swept.expect("inverse mass", &new, &chassis_with(16, inverse_mass), 10);
    }
    for dt in [below, -1.0, 1.0 + f32::EPSILON, 2.0] {
        swept.expect("dt", &aimed, &driving(|d| d.dt = dt), 10);
    }
    swept.expect(
        "a body's inverse mass",
        &aimed,
        &driving(|d| d.bodies[len::BODY + 9] = below),
        10,
    );
    swept.expect(
        "a stored radius",
        &with(&aimed, |lent| lent.table[len::CHASSIS + SETTINGS_IN_ROW + RADIUS] = 0.0),
        &Call::Drive(drive()),
        10,
    );
    swept.expect(
        "a kept rotation",
        &with(&aimed, |lent| lent.table[6] = 1.01),
        &Call::Drive(drive()),
        10,
    );
}

/// Angles at the ends of their range and a step past them, handed in and stored; and stored ones that do not count.
fn angles(swept: &mut Swept) {
    let [(_, new), (_, aimed), _] = moments();
    let beyond = f32::from_bits(2.0f32.to_bits() + 1);
    let place = |wheel: usize, in_row: usize| len::CHASSIS + wheel * ROW + in_row;
    let stored = |state: &Lent, wheel: usize, in_row: usize, value: f32| {
        with(state, |lent| lent.table[place(wheel, in_row)] = value)
    };
    let mut both = |what: &str, spoil: &dyn Fn(&Lent) -> Lent, number: u32| {
        swept.expect(what, &spoil(&new), &Call::Aim(chassis()), number);
        swept.expect(what, &spoil(&aimed), &Call::Drive(drive()), number);
    };
    for (angle, number) in [
        (0.0, 0),
        (-0.0, 0),
        (f32::from_bits(1), 0),
        (2.0, 0),
        (-2.0, 0),
        (beyond, 10),
        (-beyond, 10),
        (90.0, 10),
        (HANDED, 10),
    ] {
        let what = format!("a stored angle {angle}");
        both(&what, &|state| stored(state, BY_ANGLE, ANGLE_IN_ROW, angle), number);
        // Of a wheel that is steered by a rotation it is not looked at.
        both(&what, &|state| stored(state, 0, ANGLE_IN_ROW, angle), 0);
    }
    for w in [0.0, 0.999, 1.001, -1.001, 5.0] {
        let what = format!("a stored rotation {w}");
        both(&what, &|state| stored(state, 0, W_IN_ROW, w), 10);
        both(&what, &|state| stored(state, BY_ANGLE, W_IN_ROW, w), 0);
    }
    // Any number but 0 says that the angle counts: of wheel 0 one that is out of range.
    for (kind, number) in
        [(0.0, 0), (-0.0, 0), (1.0, 10), (-1.0, 10), (f32::from_bits(1), 10), (STORED, 10)]
    {
        let spoil = |state: &Lent| {
            let beyond = stored(state, 0, ANGLE_IN_ROW, beyond);
            stored(&beyond, 0, KIND_IN_ROW, kind)
        };
        both(&format!("kind {kind}"), &spoil, number);
    }
    let steer = |angle: f32| {
        let mut list = by_angle();
        list[2] = angle;
        Call::ByAngle(0, list)
    };
    for (angle, number) in
        [(2.0, 0), (-2.0, 0), (-0.0, 0), (beyond, 10), (-beyond, 10), (HANDED, 10)]
    {
        swept.expect(&format!("angle {angle}"), &new, &steer(angle), number);
    }
    let mut braked = by_angle();
    braked[1] = -f32::from_bits(1);
    swept.expect("brake with an angle", &new, &Call::ByAngle(0, braked), 10);
}

/// Directions that an angle cannot turn about, of wheels that are steered by one and of others, and the place of 17 between 10 and 8.
fn turns(swept: &mut Swept) {
    let [(_, new), (_, aimed), _] = moments();
    let directed = |state: &Lent, wheel: usize, direction: [f32; 3]| {
        let from = len::CHASSIS + wheel * ROW + DIRECTION_IN_ROW;
        with(state, |lent| lent.table[from..from + 3].copy_from_slice(&direction))
    };
    // 2^-74, whose square is twice the least float; by 1.25 it is rounded so much that the rotation is too long.
    let short = f32::from_bits((127 - 74) << 23);
    for (direction, number) in [
        ([0.0; 3], 17),
        ([-0.0; 3], 17),
        ([0.0, short / 2.0, 0.0], 17),
        ([1e-30, -1e-30, 1e-30], 17),
        ([0.0, short, 0.0], 0),
        ([0.0, -2.0, 0.0], 0),
        ([HANDED, -HANDED, HANDED], 0),
    ] {
        let what = format!("direction {direction:?}");
        let aim = Call::Aim(chassis());
        swept.expect(&what, &directed(&new, BY_ANGLE, direction), &aim, number);
        swept.expect(&what, &directed(&new, 0, direction), &aim, 0);
        // A drive works on what the aim has left.
        swept.expect(&what, &directed(&aimed, BY_ANGLE, direction), &Call::Drive(drive()), 0);
    }
    let steered = |angle: f32, direction: [f32; 3]| {
        let mut list = by_angle();
        list[2] = angle;
        let steered = new.clone().after(&[Call::ByAngle(BY_ANGLE as u32, list)]);
        directed(&steered, BY_ANGLE, direction)
    };
    let coarse = [0.0, short * 1.25, 0.0];
    for angle in [2.0, -2.0] {
        swept.expect("a coarse direction", &steered(angle, coarse), &Call::Aim(chassis()), 17);
    }
    swept.expect("a coarse direction, not turned", &steered(0.0, coarse), &Call::Aim(chassis()), 0);
    swept.expect("no direction, not turned", &steered(0.0, [0.0; 3]), &Call::Aim(chassis()), 17);
    // In the order 1, 2, 10, 17, 8: the earlier refusal is given.
    let none = steered(1.0, [0.0; 3]);
    let chassis_with = |place: usize, value: f32| {
        let mut list = chassis();
        list[place] = value;
        Call::Aim(list)
    };
    swept.expect("and axis", &with(&none, |lent| lent.whole[UP] = 3), &Call::Aim(chassis()), 1);
    swept.expect("and number", &none, &chassis_with(0, f32::NAN), 2);
    swept.expect("and inverse mass", &none, &chassis_with(16, 0.0), 10);
    let spoilt = with(&none, |lent| lent.table[len::CHASSIS + SETTINGS_IN_ROW + RADIUS] = 0.0);
    swept.expect("and radius", &spoilt, &Call::Aim(chassis()), 10);
    let far =
        |state: &Lent| with(state, |lent| lent.table[len::CHASSIS + SETTINGS_IN_ROW] = STORED);
    swept.expect("and a hard point too far", &far(&none), &chassis_with(0, HANDED), 17);
    swept.expect("a hard point too far", &far(&new), &chassis_with(0, HANDED), 8);
}

/// Normals at the ends of their band, a step past them, two long and zero; zero at time 0, which is exempt, and at others.
fn normals(swept: &mut Swept) {
    let [_, (_, aimed), _] = moments();
    // Place 1 begins the first ray's normal, which is all that its kind has; the second ray's upward normal follows its own.
    let (own, second_time, upward) = (1, len::RAY, len::RAY + 4);
    let normal_at = |place: usize, normal: [f32; 3]| {
        driving(|d| d.rays[place..place + 3].copy_from_slice(&normal))
    };
    for place in [own, upward] {
        // The sums of squares are 1 + 2^-10 and, rounded, 1 - 2^-10; then the next beyond either.
        for normal in [[0.03125, 1.0, 0.0], [0.0, 0.999_511_6, 0.0], [0.0, 0.0, -1.0]] {
            swept.expect(&format!("normal {normal:?}"), &aimed, &normal_at(place, normal), 0);
        }
        let beyond = [[0.03125, 1.0, 0.0003], [0.25, 0.967_741_37, 0.0]];
        for normal in beyond.into_iter().chain([[0.0, 2.0, 0.0], [0.0, 0.0, -0.5], [0.0; 3]]) {
            swept.expect(&format!("normal {normal:?}"), &aimed, &normal_at(place, normal), 12);
        }
    }
    let zero_at = |time: f32, upward_to: [f32; 3]| {
        driving(|d| {
            (d.rays[0], d.rays[second_time]) = (time, time);
            for place in [own, second_time + 1] {
                d.rays[place..place + 3].copy_from_slice(&[0.0, -0.0, 0.0]);
            }
            d.rays[upward..upward + 3].copy_from_slice(&upward_to);
        })
    };
    for (time, number) in [(0.0, 0), (-0.0, 0), (f32::from_bits(1), 12), (1.0, 12)] {
        swept.expect("zero", &aimed, &zero_at(time, [0.0, -1.0, 0.0]), number);
        swept.expect("zero, the upward one too", &aimed, &zero_at(time, [0.0; 3]), 12);
    }
    // In the order 6, 2, 12, 10: the earlier refusal is given.
    let long = |change: fn(&mut Drive)| {
        driving(|d| {
            d.rays[2] = 2.0;
            change(d);
        })
    };
    swept.expect("length and time", &aimed, &long(|d| d.rays[len::RAY] = 2.0), 6);
    swept.expect("length and number", &aimed, &long(|d| d.rays[len::RAY + 1] = f32::NAN), 2);
    let spoilt = with(&aimed, |lent| lent.table[len::CHASSIS] = f32::NAN);
    swept.expect("length and stored number", &spoilt, &long(|_| ()), 2);
    swept.expect("length and time step", &aimed, &long(|d| d.dt = 2.0), 12);
    let spoilt = with(&aimed, |lent| lent.table[6] = 1.01);
    swept.expect("length and kept rotation", &spoilt, &long(|_| ()), 12);
}

/// Wild steps, a full vehicle, and axes.
fn the_rest(swept: &mut Swept) {
    let [(_, new), _, _] = moments();
    for (up, forward) in [(3, 0), (0, 3), (u32::MAX, 0), (0, u32::MAX)] {
        swept.expect("axes", &new, &Call::SetUp(up, forward), 1);
    }
    let full = new.clone().after(&vec![Call::Add(settings()); len::WHEELS - WHEELS]);
    swept.expect("a wheel too many", &full, &Call::Add(settings()), 3);
    let mut stiff = settings();
    stiff[11] = HANDED;
    let mut light = chassis();
    light[16] = 1.0 / HANDED;
    let one = [Call::SetUp(1, 0), Call::Add(stiff.clone()), Call::Aim(light.clone())];
    let ground = driving(|d| {
        (d.kinds, d.named, d.rays, d.dt) =
            (vec![kind::HIT], vec![0], vec![0.0, 0.0, 1.0, 0.0, 0.0, 0.0, 0.0], 1.0);
    });
    // The force is 2^20 times 0.5 times mass 2^20 times less than 2, and a slip of 2^20 takes the limit beyond 2^40.
    stiff[16] = HANDED;
    let slippery = [Call::SetUp(1, 0), Call::Add(stiff.clone()), Call::Aim(light.clone())];
    swept.expect("a wild limit", &new.clone().after(&slippery), &ground, 7);
    // Of two wheels the second: it is the one that is named.
    let second = [
        Call::SetUp(1, 0),
        Call::Add(settings()),
        Call::Add(stiff.clone()),
        Call::Aim(light.clone()),
    ];
    let both = driving(|d| {
        let hit = [0.0, 0.0, 1.0, 0.0, 0.0, 0.0, 0.0];
        (d.kinds, d.named, d.rays, d.dt) = (vec![kind::HIT; 2], vec![0; 2], hit.repeat(2), 1.0);
    });
    let wild = swept.expect("a wild limit of two", &new.clone().after(&second), &both, 7);
    assert_eq!(wild.map(|found| (found.wheel, found.field)), Some((Some(1), "grip limit")));
    let place = len::CHASSIS + ROW + SETTINGS_IN_ROW + RADIUS;
    let spoilt = with(&new, |lent| lent.table[place] = -1.0);
    let out = swept.expect("a stored radius of two", &spoilt, &Call::Aim(chassis()), 10);
    let (wheel, field) = (Some(1), "stored radius");
    assert_eq!(
        out.map(|found| (found.wheel, found.field, found.value)),
        Some((wheel, field, -1.0))
    );
    (stiff[16], stiff[14]) = (0.0, 8.0);
    let stretched = [Call::SetUp(1, 0), Call::Add(stiff), Call::Aim(light)];
    swept.expect("a wild force", &new.clone().after(&stretched), &ground, 8);
    swept.expect("a stiff wheel", &new.clone().after(&one), &ground, 0);
    let far = with(&new, |lent| lent.table[len::CHASSIS + SETTINGS_IN_ROW] = STORED);
    let mut moved = chassis();
    moved[0] = HANDED;
    swept.expect("a hard point too far", &far, &Call::Aim(moved), 8);
}

#[test]
fn every_wrong_call_is_answered_by_its_number_and_changes_nothing() {
    let mut swept = Swept::default();
    for (call, state) in accepted() {
        swept.expect("accepted", &state, &call, 0);
    }
    wrong_moments(&mut swept);
    bad_fields(&mut swept);
    wrong_sizes(&mut swept);
    bad_lists(&mut swept);
    rubbish(&mut swept);
    out_of_range(&mut swept);
    angles(&mut swept);
    turns(&mut swept);
    normals(&mut swept);
    the_rest(&mut swept);
    let total: usize = swept.0.values().sum();
    println!("swept {total} calls; times that each number was given: {:?}", swept.0);
    let met: Vec<u32> = swept.0.keys().copied().collect();
    assert_eq!(met, [0, 1, 2, 3, 4, 5, 6, 7, 8, 10, 12, 17]);
    assert!(total > 25_000, "the sweep has shrunk to {total}");
}
