//! A vehicle's two arrays, and the calls on them as values, so that a test can change one number of a call at a time.

use vehicle_controller::ffi::{self, help, kind, len};
use vehicle_controller::Finding;

/// Where the mark and the two axes stand among the whole numbers; the count is first.
pub const MARK: usize = 1;
pub const UP: usize = 2;
pub const FORWARD: usize = 3;

/// One call with all that it is handed.
#[derive(Clone)]
pub enum Call {
    SetUp(u32, u32),
    Add(Vec<f32>),
    Controls(u32, Vec<f32>),
    ByAngle(u32, Vec<f32>),
    Aim(Vec<f32>),
    Drive(Drive),
    Read(u32),
}

#[derive(Clone)]
pub struct Drive {
    pub dt: f32,
    pub bodies: Vec<f32>,
    pub dynamic: Vec<u32>,
    pub kinds: Vec<u32>,
    pub named: Vec<u32>,
    pub rays: Vec<f32>,
}

/// The arrays that a call may write.
#[derive(Clone)]
pub struct Lent {
    pub table: Vec<f32>,
    pub whole: Vec<u32>,
    pub results: Vec<f32>,
}

impl Lent {
    /// Every bit that the call could have changed.
    pub fn bits(&self) -> Vec<u32> {
        let floats = self.table.iter().chain(&self.results).map(|number| number.to_bits());
        floats.chain(self.whole.iter().copied()).collect()
    }

    /// Results of the length that a call asks for, with contents that no call gives.
    pub fn with_results_for(mut self, call: &Call) -> Lent {
        let size = match call {
            Call::Aim(_) => len::AIM,
            Call::Drive(_) => len::DRIVE,
            Call::Read(_) => len::READ,
            _ => 0,
        };
        self.results = (0..size as u32).map(|place| f32::from_bits(0x7fc1_0000 + place)).collect();
        self
    }

    pub fn call(&mut self, call: &Call) -> u32 {
        let Lent { table, whole, results } = self;
        match call {
            Call::SetUp(up, forward) => ffi::set_up(table, whole, *up, *forward),
            Call::Add(settings) => ffi::add_wheel(table, whole, settings),
            Call::Controls(wheel, controls) => ffi::set_controls(table, whole, *wheel, controls),
            Call::ByAngle(wheel, controls) => {
                ffi::set_controls_by_angle(table, whole, *wheel, controls)
            }
            Call::Aim(chassis) => ffi::aim(table, whole, chassis, results),
            Call::Drive(Drive { dt, bodies, dynamic, kinds, named, rays }) => {
                ffi::drive(table, whole, *dt, bodies, dynamic, kinds, named, rays, results)
            }
            Call::Read(wheel) => ffi::read_wheel(table, whole, *wheel, results),
        }
    }

    /// Why the call answers this.
    pub fn explain(&self, answer: u32, call: &Call) -> Option<Finding> {
        let Lent { table, whole, results } = self;
        match call {
            Call::SetUp(up, forward) => help::explain_set_up(answer, table, whole, *up, *forward),
            Call::Add(settings) => help::explain_add_wheel(answer, table, whole, settings),
            Call::Controls(wheel, controls) => {
                help::explain_set_controls(answer, table, whole, *wheel, controls)
            }
            Call::ByAngle(wheel, controls) => {
                help::explain_set_controls_by_angle(answer, table, whole, *wheel, controls)
            }
            Call::Aim(chassis) => help::explain_aim(answer, table, whole, chassis, results),
            Call::Drive(Drive { dt, bodies, dynamic, kinds, named, rays }) => help::explain_drive(
                answer, table, whole, *dt, bodies, dynamic, kinds, named, rays, results,
            ),
            Call::Read(wheel) => help::explain_read_wheel(answer, table, whole, *wheel, results),
        }
    }

    /// The state after accepted calls.
    pub fn after(mut self, calls: &[Call]) -> Lent {
        for call in calls {
            self = self.with_results_for(call);
            assert_eq!(self.call(call), 0);
        }
        self
    }
}

/// The wheels of the car below, and the ground bodies of its drive.
pub const WHEELS: usize = 3;
pub const BODIES: usize = 2;
/// The one that is steered by an angle.
pub const BY_ANGLE: usize = 2;

pub fn settings() -> Vec<f32> {
    vec![
        1.0, 0.0, 1.0, 0.0, -1.0, 0.0, 0.0, 0.0, 1.0, 1.0, 1.0, 8.0, 2.0, 2.0, 0.5, 1.0, 0.3125,
        1024.0, 0.1,
    ]
}

pub fn controls() -> Vec<f32> {
    vec![12.0, 3.0, 0.0, 0.0, 0.0, 1.0]
}

pub fn by_angle() -> Vec<f32> {
    vec![12.0, 3.0, 0.5]
}

pub fn chassis() -> Vec<f32> {
    let mut numbers = vec![0.0; len::CHASSIS];
    numbers[6] = 1.0;
    numbers[10..13].copy_from_slice(&[12.0, 0.0, 5.0]);
    numbers[16..20].fill(0.25);
    numbers
}

/// One wheel on body 1, one on body 2 with an upward normal, one in the air.
pub fn drive() -> Drive {
    let body = [0.0, -1.0, 0.0, 0.5, 0.0, 0.0, 0.0, 0.0, 0.0, 0.5, 0.1, 0.0, 0.0, 0.1, 0.0, 0.1];
    Drive {
        dt: 0.5,
        bodies: body.repeat(BODIES),
        dynamic: vec![1, 0],
        kinds: vec![kind::HIT, kind::HIT_UP, kind::NOTHING],
        named: vec![1, 2, 0],
        rays: [0.75, 0.0, 1.0, 0.0, 0.0, -1.0, 0.0].repeat(WHEELS),
    }
}

/// The car at each moment of its life, with its name. Its first two wheels are steered by a rotation, the last by an angle.
pub fn moments() -> [(&'static str, Lent); 3] {
    let nothing =
        Lent { table: vec![0.0; len::TABLE], whole: vec![0; len::WHOLE], results: vec![] };
    let new = nothing
        .after(&[Call::SetUp(1, 0)])
        .after(&vec![Call::Add(settings()); WHEELS])
        .after(&[Call::Controls(0, controls()), Call::ByAngle(BY_ANGLE as u32, by_angle())]);
    let aimed = new.clone().after(&[Call::Aim(chassis())]);
    let driven = aimed.clone().after(&[Call::Drive(drive())]);
    [("new", new), ("aimed", aimed), ("driven", driven)]
}

/// One accepted call of each kind, and the car at the moment at which it is accepted.
pub fn accepted() -> [(Call, Lent); 7] {
    let [(_, new), (_, aimed), (_, driven)] = moments();
    [
        (Call::SetUp(1, 0), driven.clone()),
        (Call::Add(settings()), new.clone()),
        (Call::Controls(1, controls()), new.clone()),
        (Call::ByAngle(1, by_angle()), new.clone()),
        (Call::Aim(chassis()), new),
        (Call::Drive(drive()), aimed),
        (Call::Read(2), driven),
    ]
}
