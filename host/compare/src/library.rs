//! The library's side: one code of a scenario as a call on two lent arrays.

use oracle::handed::{Drive, Hit, NewWheel};
use oracle::math::Steering;
use oracle::stream::Code;
use oracle::table::Table;
use vehicle_controller::ffi::{self, help, kind, len};
use vehicle_controller::{Finding, WheelSettings};

/// The refusals in the order in which they are tested.
const ORDER: [u32; 11] = [1, 3, 4, 5, 6, 2, 12, 10, 17, 7, 8];

/// A table as the library is lent it: count, mark, up and forward axis beside it.
#[derive(Clone)]
pub struct Lent {
    pub table: Vec<f32>,
    pub whole: [u32; len::WHOLE],
}

impl From<&Table> for Lent {
    fn from(table: &Table) -> Self {
        let Table { numbers, count, mark, up, forward } = table;
        Lent { table: numbers.clone(), whole: [*count, *mark, *up, *forward] }
    }
}

impl Lent {
    /// Makes the call. Gives its number and, if it is accepted, its results; a refusal must leave them alone.
    pub fn call(&mut self, code: &Code) -> Result<(u32, Vec<f32>), &'static str> {
        let Lent { table, whole } = self;
        let mut results = vec![UNTOUCHED; result_size(code)];
        let number = match code {
            Code::End => 0,
            Code::Add(wheel) => ffi::add_wheel(table, whole, &settings(wheel)),
            Code::Controls(wheel, controls) => {
                let set = match controls.steering {
                    Steering::Rotation(_) => ffi::set_controls,
                    Steering::Angle(_) => ffi::set_controls_by_angle,
                };
                set(table, whole, *wheel, &controls.handed_in())
            }
            Code::Aim(chassis) => ffi::aim(table, whole, &chassis.numbers(), &mut results),
            Code::Drive(drive) => {
                let lists = Lists::of(drive);
                let Lists { bodies, dynamic, kinds, named, rays } = &lists;
                ffi::drive(
                    table,
                    whole,
                    drive.dt,
                    bodies,
                    dynamic,
                    kinds,
                    named,
                    rays,
                    &mut results,
                )
            }
            Code::Read(wheel) | Code::ReadSettled(wheel) | Code::ReadAll(wheel) => {
                ffi::read_wheel(table, whole, *wheel, &mut results)
            }
        };
        if number == 0 {
            results.truncate(printed(code));
            return Ok((0, results));
        }
        let untouched = results.iter().all(|number| number.to_bits() == UNTOUCHED.to_bits());
        if untouched {
            Ok((number, Vec::new()))
        } else {
            Err("a refusal wrote to the results")
        }
    }
}

impl Lent {
    /// Whether the explanation of the call, on the table before it, finds something for the number that it answered, and for none that is tested
    /// before that.
    pub fn is_explained(&self, code: &Code, answer: u32) -> Result<(), String> {
        for number in ORDER.into_iter().take_while(|number| *number != answer) {
            if let Some(wrong) = self.explain(code, number) {
                return Err(format!("answered {answer}, and {number} is explained by: {wrong}"));
            }
        }
        if (answer == 0) == self.explain(code, answer).is_none() {
            return Ok(());
        }
        Err(format!("nothing explains {answer}"))
    }

    fn explain(&self, code: &Code, answer: u32) -> Option<Finding> {
        let Lent { table, whole } = self;
        let results = vec![UNTOUCHED; result_size(code)];
        match code {
            Code::End => None,
            Code::Add(wheel) => help::explain_add_wheel(answer, table, whole, &settings(wheel)),
            Code::Controls(wheel, controls) => {
                let explain = match controls.steering {
                    Steering::Rotation(_) => help::explain_set_controls,
                    Steering::Angle(_) => help::explain_set_controls_by_angle,
                };
                explain(answer, table, whole, *wheel, &controls.handed_in())
            }
            Code::Aim(chassis) => {
                help::explain_aim(answer, table, whole, &chassis.numbers(), &results)
            }
            Code::Drive(drive) => {
                let Lists { bodies, dynamic, kinds, named, rays } = &Lists::of(drive);
                let dt = drive.dt;
                help::explain_drive(
                    answer, table, whole, dt, bodies, dynamic, kinds, named, rays, &results,
                )
            }
            Code::Read(wheel) | Code::ReadSettled(wheel) | Code::ReadAll(wheel) => {
                help::explain_read_wheel(answer, table, whole, *wheel, &results)
            }
        }
    }
}

/// A number that no call gives.
const UNTOUCHED: f32 = f32::from_bits(0x7fc1_2345);

/// Code 1 has no roll influence: a host hands in the source's.
fn settings(wheel: &NewWheel) -> Vec<f32> {
    let roll_influence = wheel.roll_influence.unwrap_or(WheelSettings::ROLL_INFLUENCE);
    wheel.numbers().into_iter().chain([roll_influence]).collect()
}

fn result_size(code: &Code) -> usize {
    match code {
        Code::Aim(_) => len::AIM,
        Code::Drive(_) => len::DRIVE,
        Code::Read(_) | Code::ReadSettled(_) | Code::ReadAll(_) => len::READ,
        _ => 0,
    }
}

/// How many of the results the code has in the stream: code 8 leaves out what fell back, code 5 the settled centre too.
fn printed(code: &Code) -> usize {
    match code {
        Code::Read(_) => len::READ - 2 - 3,
        Code::ReadSettled(_) => len::READ - 2,
        _ => result_size(code),
    }
}

/// The lists of a drive, flat.
struct Lists {
    bodies: Vec<f32>,
    dynamic: Vec<u32>,
    kinds: Vec<u32>,
    named: Vec<u32>,
    rays: Vec<f32>,
}

impl Lists {
    fn of(drive: &Drive) -> Self {
        let kind = |hit: &Hit| if hit.upward_normal.is_some() { kind::HIT_UP } else { kind::HIT };
        // The last number there is names no body of any list.
        let named = |hit: &Hit| hit.body.map_or(0, |body| body.saturating_add(1));
        Lists {
            bodies: drive.bodies.iter().flat_map(|body| body.numbers()).collect(),
            dynamic: drive.bodies.iter().map(|body| u32::from(body.dynamic)).collect(),
            kinds: drive
                .answers
                .iter()
                .map(|answer| answer.as_ref().map_or(kind::NOTHING, kind))
                .collect(),
            named: drive.answers.iter().map(|answer| answer.as_ref().map_or(0, named)).collect(),
            rays: drive.answers.iter().flat_map(ray).collect(),
        }
    }
}

/// What an answer does not have is NaN here: the library must not look at it.
fn ray(answer: &Option<Hit>) -> [f32; len::RAY] {
    let Some(Hit { time, normal, upward_normal, .. }) = answer else {
        return [f32::NAN; len::RAY];
    };
    let [x, y, z] = normal.parts();
    let [u, v, w] = upward_normal.map_or([f32::NAN; 3], |upward| upward.parts());
    [*time, x, y, z, u, v, w]
}
