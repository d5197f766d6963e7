//! The vehicle controller in Rust: typed, safe calls over the proved static library.
//!
//! A [`Vehicle`] owns its table and is always set up. A frame is a chain: [`Vehicle::aim`] gives an [`Aimed`] vehicle with the rays to cast, its
//! [`Aimed::drive`] a [`Driven`] one, whose wheels can be read. Written so, a drive without an aim and a read before a drive do not compile:
//!
//! ```compile_fail
//! # use vehicle_controller::*;
//! # fn frame(vehicle: &mut Vehicle, chassis: &Chassis) -> Result<(), Refused> {
//! let aimed = vehicle.aim(chassis)?;
//! let tyre = aimed.read(0)?; // an aimed vehicle has nothing to read
//! # Ok(()) }
//! ```
//!
//! ```compile_fail
//! # use vehicle_controller::*;
//! # fn frame(vehicle: &mut Vehicle, chassis: &Chassis, wheel: &WheelSettings) -> Result<(), Refused> {
//! let driven = vehicle.aim(chassis)?.drive(0.5, &[], &[])?;
//! vehicle.add_wheel(wheel)?; // from here on the wheels are those before the drive
//! let tyre = driven.read(0)?;
//! # Ok(()) }
//! ```
//!
//! A frame as it is meant, with a car of 1200 kg whose wheels stand on flat ground at height 0:
//!
//! ```
//! # use vehicle_controller::*;
//! # fn draw(_: Vector) {}
//! let mut vehicle = Vehicle::new(Axis::Y, Axis::X)?.strict(|doubt| eprintln!("{doubt}"));
//! for connection in [[1.25, -0.3, 0.75], [1.25, -0.3, -0.75], [-1.25, -0.3, 0.75], [-1.25, -0.3, -0.75]] {
//!     let mount = Mount {
//!         connection: connection.into(),
//!         direction: Vector::new(0.0, -1.0, 0.0),
//!         axle: Vector::new(0.0, 0.0, 1.0),
//!         rest_length: 0.3,
//!         radius: 0.3,
//!     };
//!     vehicle.add_wheel(&WheelSettings { stiffness: 30.0, travel: 0.2, slip: 0.9, ..mount.wheel() })?;
//! }
//! vehicle.set_controls(0, &Controls { engine: 1500.0, brake: 0.0, steering: Steering::Angle(0.3) })?;
//! let size = Vector::new(4.0, 1.2, 1.8);
//! let body = RigidBody { position: Vector::new(0.0, 0.8, 0.0), ..RigidBody::new(1200.0, Inertia::of_box(1200.0, size)) };
//!
//! let aimed = vehicle.aim(&body.chassis())?;
//! let ground = |sight: &Sight| {
//!     RayAnswer::at_distance(sight, sight.start.y, Vector::new(0.0, 1.0, 0.0), None)
//! };
//! let answers: Vec<RayAnswer> = aimed.sights().iter().map(ground).collect();
//! let driven = aimed.drive(1.0 / 60.0, &[], &answers)?;
//! draw(driven.read(0)?.settled);
//! let velocity = driven.velocity();
//! assert!(velocity.linear.x > 0.0 && velocity.linear.z < 0.0, "forward, and to the left");
//! # Ok::<(), Refused>(())
//! ```
//!
//! What the library refuses comes back as [`Refused`], which says in words which number broke which bound and what to do; then the vehicle is as
//! it was before the call. What is accepted and hardly meant, [`Vehicle::strict`] reports. Units, frames and signs of every number are told in
//! `docs/NUMBERS.md`, the rules and refusals in `docs/RULES.md`.
#![deny(unsafe_code, missing_docs)]

#[allow(unsafe_code, missing_docs)]
pub mod ffi;
mod flat;
mod parts;
mod refusal;

pub use ffi::help::Finding;
pub use parts::{
    Axis, Chassis, Controls, GroundBody, Inertia, Mount, RayAnswer, Reading, RigidBody, Rotation,
    Sight, Steering, Vector, Velocity, WheelSettings,
};
pub use refusal::{NotSaved, Refusal, Refused};

use std::error::Error;
use std::fmt;
use std::sync::Arc;

use ffi::{help, len};

/// Whom a strict vehicle reports to.
#[derive(Clone)]
struct Report(Arc<dyn Fn(&Finding) + Send + Sync>);

impl fmt::Debug for Report {
    fn fmt(&self, f: &mut fmt::Formatter<'_>) -> fmt::Result {
        f.write_str("Report")
    }
}

/// A vehicle: its table, and the whole numbers beside it. A clone is a second vehicle in the same state.
#[derive(Clone, Debug)]
pub struct Vehicle {
    table: Box<[f32; len::TABLE]>,
    whole: [u32; len::WHOLE],
    report: Option<Report>,
}

impl Vehicle {
    fn empty() -> Self {
        Vehicle { table: Box::new([0.0; len::TABLE]), whole: [0; len::WHOLE], report: None }
    }

    /// A vehicle with no wheels, set up with these two axes of the chassis.
    pub fn new(up: Axis, forward: Axis) -> Result<Self, Refused> {
        let mut vehicle = Vehicle::empty();
        let (table, whole) = (&mut vehicle.table[..], &mut vehicle.whole);
        let (up, forward) = (up as u32, forward as u32);
        let number = ffi::set_up(table, whole, up, forward);
        Refused::unless_accepted(number, || {
            help::explain_set_up(number, table, whole, up, forward)
        })?;
        Ok(vehicle)
    }

    /// From here on each accepted call reports what is hardly meant of the numbers that it was handed, with why, each time that it is made; the
    /// axes at once. It changes no call and no answer. A clone reports too, a restored vehicle does not.
    pub fn strict(mut self, report: impl Fn(&Finding) + Send + Sync + 'static) -> Self {
        self.report = Some(Report(Arc::new(report)));
        self.doubt(|whole| help::doubts_set_up(whole[flat::UP], whole[flat::FORWARD]));
        self
    }

    fn doubt(&self, doubts: impl FnOnce(&[u32; len::WHOLE]) -> Vec<Finding>) {
        if let Some(Report(report)) = &self.report {
            doubts(&self.whole).iter().for_each(|doubt| report(doubt));
        }
    }

    /// How many wheels were added.
    pub fn wheel_count(&self) -> u32 {
        self.whole[flat::COUNT]
    }

    /// Adds a wheel and gives its number.
    pub fn add_wheel(&mut self, settings: &WheelSettings) -> Result<u32, Refused> {
        let (table, whole) = (&mut self.table[..], &mut self.whole);
        let settings = flat::settings(settings);
        let number = ffi::add_wheel(table, whole, &settings);
        Refused::unless_accepted(number, || {
            help::explain_add_wheel(number, table, whole, &settings)
        })?;
        self.doubt(|whole| help::doubts_add_wheel(whole, &settings));
        Ok(self.wheel_count() - 1)
    }

    /// Sets the engine force, brake and steering of one wheel, which stay until they are set again.
    pub fn set_controls(&mut self, wheel: u32, controls: &Controls) -> Result<(), Refused> {
        match controls.steering {
            Steering::Angle(angle) => self.control(
                wheel,
                &flat::controls_by_angle(controls, angle),
                ffi::set_controls_by_angle,
                help::explain_set_controls_by_angle,
                help::doubts_set_controls_by_angle,
            ),
            Steering::Rotation(rotation) => self.control(
                wheel,
                &flat::controls(controls, rotation),
                ffi::set_controls,
                help::explain_set_controls,
                help::doubts_set_controls,
            ),
        }
    }

    /// Sets controls by either form of the call.
    fn control<const N: usize>(
        &mut self,
        wheel: u32,
        controls: &[f32; N],
        call: impl FnOnce(&mut [f32], &mut [u32], u32, &[f32]) -> u32,
        explain: impl FnOnce(u32, &[f32], &[u32], u32, &[f32]) -> Option<Finding>,
        doubts: impl FnOnce(&[u32; len::WHOLE], u32, &[f32; N]) -> Vec<Finding>,
    ) -> Result<(), Refused> {
        let (table, whole) = (&mut self.table[..], &mut self.whole);
        let number = call(table, whole, wheel, controls);
        Refused::unless_accepted(number, || explain(number, table, whole, wheel, controls))?;
        self.doubt(|whole| doubts(whole, wheel, controls));
        Ok(())
    }

    /// Takes the chassis, and gives the rays that are to be cast.
    pub fn aim(&mut self, chassis: &Chassis) -> Result<Aimed<'_>, Refused> {
        let (table, whole) = (&mut self.table[..], &mut self.whole);
        let (chassis, mut results) = (flat::chassis(chassis), [0.0; len::AIM]);
        let number = ffi::aim(table, whole, &chassis, &mut results);
        Refused::unless_accepted(number, || {
            help::explain_aim(number, table, whole, &chassis, &results)
        })?;
        self.doubt(|whole| help::doubts_aim(whole, &chassis));
        Ok(Aimed { speed: results[0], sights: flat::sights(&results), vehicle: self })
    }

    /// The vehicle as bytes, with a version, the sizes of its arrays and a sum over all. Whom it reports to is not among them.
    pub fn save(&self) -> Vec<u8> {
        help::save(&self.table, &self.whole).to_vec()
    }

    /// The vehicle that was saved as these bytes, at the same moment of its frame.
    pub fn restore(bytes: &[u8]) -> Result<Self, NotSaved> {
        let mut vehicle = Vehicle::empty();
        help::restore(bytes, &mut vehicle.table, &mut vehicle.whole).map_err(NotSaved)?;
        Ok(vehicle)
    }
}

/// The plain calls, for a host that cannot hold an [`Aimed`] or a [`Driven`] from one part of its frame to the next. At a wrong moment they
/// answer [`Refusal::WrongMoment`].
impl Vehicle {
    /// Drives the vehicle by one step, if it was aimed: see [`Aimed::drive`].
    pub fn drive(
        &mut self,
        dt: f32,
        bodies: &[GroundBody],
        answers: &[RayAnswer],
    ) -> Result<Velocity, Refused> {
        let (table, whole) = (&mut self.table[..], &mut self.whole);
        let flat::Lists { bodies, dynamic, kinds, named, rays } = flat::Lists::of(bodies, answers);
        let mut results = [0.0; len::DRIVE];
        let number =
            ffi::drive(table, whole, dt, &bodies, &dynamic, &kinds, &named, &rays, &mut results);
        Refused::unless_accepted(number, || {
            help::explain_drive(
                number, table, whole, dt, &bodies, &dynamic, &kinds, &named, &rays, &results,
            )
        })?;
        self.doubt(|_| help::doubts_drive(&self.table, dt, &bodies, &kinds, &rays));
        Ok(flat::velocity(&results))
    }

    /// Reads one wheel, if the vehicle was driven: see [`Driven::read`].
    pub fn read_wheel(&self, wheel: u32) -> Result<Reading, Refused> {
        let mut results = [0.0; len::READ];
        let number = ffi::read_wheel(&self.table[..], &self.whole, wheel, &mut results);
        Refused::unless_accepted(number, || {
            help::explain_read_wheel(number, &self.table[..], &self.whole, wheel, &results)
        })?;
        Ok(flat::reading(&results))
    }
}

/// A vehicle that was aimed and not touched since.
#[derive(Debug)]
pub struct Aimed<'a> {
    vehicle: &'a mut Vehicle,
    speed: f32,
    sights: [Sight; len::WHEELS],
}

impl<'a> Aimed<'a> {
    /// The speed, negative if the vehicle moves backwards.
    pub fn speed(&self) -> f32 {
        self.speed
    }

    /// The ray of each wheel, in the wheels' order. Cast it up to time 1.
    pub fn sights(&self) -> &[Sight] {
        &self.sights[..self.vehicle.wheel_count() as usize]
    }

    /// Drives the vehicle by one step of `dt` seconds, with one answer for each sight. A refusal gives the aim back, for a corrected drive.
    #[allow(clippy::result_large_err)] // what it gives back is what it was
    pub fn drive(
        self,
        dt: f32,
        bodies: &[GroundBody],
        answers: &[RayAnswer],
    ) -> Result<Driven<'a>, NotDriven<'a>> {
        match self.vehicle.drive(dt, bodies, answers) {
            Ok(velocity) => Ok(Driven { vehicle: self.vehicle, velocity }),
            Err(refused) => Err(NotDriven { aimed: self, refused }),
        }
    }
}

/// A refused drive: the aim as it was, and why. `?` makes a [`Refused`] of it.
#[derive(Debug)]
pub struct NotDriven<'a> {
    /// The aim that was not driven.
    pub aimed: Aimed<'a>,
    /// Why.
    pub refused: Refused,
}

impl From<NotDriven<'_>> for Refused {
    fn from(not: NotDriven<'_>) -> Self {
        not.refused
    }
}

impl fmt::Display for NotDriven<'_> {
    fn fmt(&self, f: &mut fmt::Formatter<'_>) -> fmt::Result {
        self.refused.fmt(f)
    }
}

/// So that `?` works in a function that gives any error: what is kept is why, and not the borrowed aim.
impl From<NotDriven<'_>> for Box<dyn Error> {
    fn from(not: NotDriven<'_>) -> Self {
        not.refused.into()
    }
}

impl From<NotDriven<'_>> for Box<dyn Error + Send + Sync> {
    fn from(not: NotDriven<'_>) -> Self {
        not.refused.into()
    }
}

/// A vehicle that was driven and not touched since.
#[derive(Clone, Copy, Debug)]
pub struct Driven<'a> {
    vehicle: &'a Vehicle,
    velocity: Velocity,
}

impl Driven<'_> {
    /// The chassis' new velocities, and whether it is to be woken.
    pub fn velocity(&self) -> Velocity {
        self.velocity
    }

    /// One wheel after the drive. Its tyre is drawn at [`Reading::settled`].
    pub fn read(&self, wheel: u32) -> Result<Reading, Refused> {
        self.vehicle.read_wheel(wheel)
    }
}
