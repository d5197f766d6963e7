//! The library's side: a table that an aim has left, and one call at a time on it.

use vehicle_controller::ffi::{self, len};

use crate::math::Rotation;
use crate::scene::{Scene, DT};

/// The place of the mark among the whole numbers, and the mark of an aimed table.
const MARK: usize = 1;
const AIMED: u32 = 1;
/// The kept chassis' two velocities.
const VELOCITIES: std::ops::Range<usize> = 10..16;
/// The numbers of a wheel's row, and where the world axle stands in it.
const ROW: usize = (len::TABLE - len::CHASSIS) / len::WHEELS;
const AXLE: std::ops::Range<usize> = 16..19;

pub struct Library<'a> {
    scene: &'a Scene,
    pub table: Vec<f32>,
    pub whole: [u32; len::WHOLE],
    pub sights: [f32; len::AIM],
    pub driven: [f32; len::DRIVE],
    pub read: [f32; len::READ],
}

impl<'a> Library<'a> {
    /// The scene's car, aimed.
    pub fn new(scene: &'a Scene) -> Self {
        let mut library = Library {
            scene,
            table: vec![0.0; len::TABLE],
            whole: [0; len::WHOLE],
            sights: [0.0; len::AIM],
            driven: [0.0; len::DRIVE],
            read: [0.0; len::READ],
        };
        library.add_all();
        for (wheel, controls) in (0..).zip(&scene.controls) {
            assert_eq!(
                ffi::set_controls(&mut library.table, &mut library.whole, wheel, controls),
                0
            );
        }
        library.aim();
        library
    }

    /// The same with every wheel steered by its angle.
    pub fn by_angle(scene: &'a Scene) -> Self {
        let mut library = Library::new(scene);
        for ((wheel, [engine, brake, ..]), angle) in (0..).zip(&scene.controls).zip(&scene.angles) {
            let Library { table, whole, .. } = &mut library;
            let controls = [*engine, *brake, *angle];
            assert_eq!(ffi::set_controls_by_angle(table, whole, wheel, &controls), 0);
        }
        library.aim();
        library
    }

    /// The same with every wheel steered by a rotation.
    pub fn by_rotation(scene: &'a Scene, rotations: &[Rotation]) -> Self {
        let mut library = Library::new(scene);
        for ((wheel, [engine, brake, ..]), rotation) in (0..).zip(&scene.controls).zip(rotations) {
            let Library { table, whole, .. } = &mut library;
            let [x, y, z, w] = rotation.parts();
            let controls = [*engine, *brake, x, y, z, w];
            assert_eq!(ffi::set_controls(table, whole, wheel, &controls), 0);
        }
        library.aim();
        library
    }

    /// Each wheel's axle in the world.
    pub fn axles(&self) -> Vec<&[f32]> {
        let rows = self.table[len::CHASSIS..].chunks(ROW);
        rows.take(self.scene.settings.len()).map(|row| &row[AXLE]).collect()
    }

    /// Set up, and every wheel added.
    pub fn add_all(&mut self) {
        assert_eq!(ffi::set_up(&mut self.table, &mut self.whole, 1, 0), 0);
        for settings in &self.scene.settings {
            assert_eq!(ffi::add_wheel(&mut self.table, &mut self.whole, settings), 0);
        }
    }

    pub fn aim(&mut self) {
        assert_eq!(
            ffi::aim(&mut self.table, &mut self.whole, &self.scene.chassis, &mut self.sights),
            0
        );
    }

    /// A drive from the state that the aim left: the mark and the velocities are put back first.
    pub fn drive(&mut self) {
        self.whole[MARK] = AIMED;
        self.table[VELOCITIES].copy_from_slice(&self.scene.chassis[VELOCITIES]);
        self.drive_on();
    }

    /// A drive right after an aim.
    pub fn drive_on(&mut self) {
        let Scene { bodies, dynamic, kinds, named, rays, .. } = self.scene;
        let Library { table, whole, driven, .. } = self;
        assert_eq!(ffi::drive(table, whole, DT, bodies, dynamic, kinds, named, rays, driven), 0);
    }

    pub fn read(&mut self, wheel: u32) {
        assert_eq!(ffi::read_wheel(&self.table, &self.whole, wheel, &mut self.read), 0);
    }
}
