//! The library's own calls, over slices of any length. They are safe: the library looks at the lengths first, and answers
//! every number. Each gives document 01's number: 0 accepted, else a refusal, which leaves all that was lent as it was.
//!
//! The only module with unsafe code. It passes each slice on as its pointer and its length.
#![allow(clippy::too_many_arguments)]

pub mod help;

/// The lengths of what is lent and handed in, and the places in it. `tests/sizes.rs` holds them to the library's own.
pub mod len {
    pub const TABLE: usize = 922;
    pub const WHOLE: usize = 4;
    pub const SETTINGS: usize = 19;
    /// Controls with a rotation, and with an angle.
    pub const CONTROLS: usize = 6;
    pub const CONTROLS_BY_ANGLE: usize = 3;
    pub const CHASSIS: usize = 26;
    /// One ground body.
    pub const BODY: usize = 16;
    /// One wheel's ray answer.
    pub const RAY: usize = 7;
    pub const AIM: usize = 97;
    pub const DRIVE: usize = 7;
    pub const READ: usize = 20;
    /// The most wheels of a vehicle, and the most ground bodies of a drive.
    pub const WHEELS: usize = 16;
    pub const BODIES: usize = 64;
}

/// The kinds of ray answers.
pub mod kind {
    pub const NOTHING: u32 = 0;
    pub const HIT: u32 = 1;
    pub const HIT_UP: u32 = 2;
}

/// Safe functions over the library's, each with the declaration of the C function that it calls. `of x: T` is a slice that is read and `to x: T`
/// one that may be written: both go as their pointer and their length. `by x: T` goes as it is. What is given is given on, or by a method of it.
macro_rules! calls {
    ($($(#[$about:meta])* $name:ident = $in_c:ident($($how:ident $x:ident: $t:ty),*) -> $out:ty $(, $made:ident -> $given:ty)?;)*) => {
        $(calls! { @one [$(#[$about])*] $name $in_c [$($how $x: $t,)*] [$out] $([$made $given])? })*
    };
    (@one [$($about:tt)*] $name:ident $in_c:ident [$($how:ident $x:ident: $t:ty,)*] [$out:ty]) => {
        $($about)*
        pub fn $name($($x: calls!(@type $how $t)),*) -> $out {
            calls!(@declare $in_c $out; [] $($how $x: $t,)*);
            // SAFETY: each pointer stands with the length of its own slice, and Rust keeps a `&mut` apart from every other slice. The library
            // reads and writes no further, and writes only where a slice may be written.
            unsafe { calls!(@call $in_c; [] $($how $x,)*) }
        }
    };
    (@one [$($about:tt)*] $name:ident $in_c:ident [$($how:ident $x:ident: $t:ty,)*] [$out:ty] [$made:ident $given:ty]) => {
        $($about)*
        pub fn $name($($x: calls!(@type $how $t)),*) -> $given {
            calls!(@declare $in_c $out; [] $($how $x: $t,)*);
            // SAFETY: as above.
            unsafe { calls!(@call $in_c; [] $($how $x,)*) }.$made()
        }
    };
    (@type of $t:ty) => { &[$t] };
    (@type to $t:ty) => { &mut [$t] };
    (@type by $t:ty) => { $t };
    (@declare $in_c:ident $out:ty; [$($c:tt)*]) => { extern "C" { fn $in_c($($c)*) -> $out; } };
    (@declare $in_c:ident $out:ty; [$($c:tt)*] of $x:ident: $t:ty, $($rest:tt)*) => {
        calls!(@declare $in_c $out; [$($c)* _: *const $t, _: usize,] $($rest)*)
    };
    (@declare $in_c:ident $out:ty; [$($c:tt)*] to $x:ident: $t:ty, $($rest:tt)*) => {
        calls!(@declare $in_c $out; [$($c)* _: *mut $t, _: usize,] $($rest)*)
    };
    (@declare $in_c:ident $out:ty; [$($c:tt)*] by $x:ident: $t:ty, $($rest:tt)*) => {
        calls!(@declare $in_c $out; [$($c)* _: $t,] $($rest)*)
    };
    (@call $in_c:ident; [$($c:tt)*]) => { $in_c($($c)*) };
    (@call $in_c:ident; [$($c:tt)*] of $x:ident, $($rest:tt)*) => {
        calls!(@call $in_c; [$($c)* $x.as_ptr(), $x.len(),] $($rest)*)
    };
    (@call $in_c:ident; [$($c:tt)*] to $x:ident, $($rest:tt)*) => {
        calls!(@call $in_c; [$($c)* $x.as_mut_ptr(), $x.len(),] $($rest)*)
    };
    (@call $in_c:ident; [$($c:tt)*] by $x:ident, $($rest:tt)*) => {
        calls!(@call $in_c; [$($c)* $x,] $($rest)*)
    };
}
pub(crate) use calls;

calls! {
    /// Makes the lent numbers a vehicle with no wheels, whatever they hold.
    set_up = vehicle_set_up(to table: f32, to whole: u32, by up: u32, by forward: u32) -> u32;

    /// Adds a wheel. `settings`: connection, direction and axle (3 each), rest, radius, stiffness, compression, damping, travel, side, slip, most,
    /// roll influence.
    add_wheel = vehicle_add_wheel(to table: f32, to whole: u32, of settings: f32) -> u32;

    /// Sets the controls of one wheel: engine, brake, steering as a rotation in world space (x, y, z, w).
    set_controls = vehicle_set_controls(to table: f32, to whole: u32, by wheel: u32, of controls: f32) -> u32;

    /// Sets the controls of one wheel: engine, brake, steering as an angle in radians.
    set_controls_by_angle = vehicle_set_controls_by_angle(to table: f32, to whole: u32, by wheel: u32, of controls: f32) -> u32;

    /// Aims. `chassis`: translation 3, rotation 4, centre of mass 3, linear velocity 3, angular velocity 3, inverse mass, effective inverse
    /// masses 3, inverse inertia 6. `results`: the signed speed; for each of 16 wheels its hard point and its ray.
    aim = vehicle_aim(to table: f32, to whole: u32, of chassis: f32, to results: f32) -> u32;

    /// Drives. For each ground body 16 numbers and a flag, 1 if it is dynamic; for each wheel its kind of answer, 0 or the number of the body
    /// that was hit, counted from 1, and 7 numbers: time, normal, upward normal. `results`: linear velocity, angular velocity, 1 to wake.
    drive = vehicle_drive(
        to table: f32, to whole: u32, by dt: f32, of bodies: f32, of dynamic: u32, of kinds: u32, of named: u32, of rays: f32, to results: f32
    ) -> u32;

    /// Reads a wheel. `results`: centre, direction, axle (3 each), length, force, forward, side, skid, rotation, settled centre (3), no axis, no
    /// forward direction (1 or 0 each).
    read_wheel = vehicle_read_wheel(of table: f32, of whole: u32, by wheel: u32, to results: f32) -> u32;

    /// The square root, correctly rounded. A NaN, and a number below zero, give a NaN.
    root = vehicle_root(by x: f32) -> f32;
    /// The sine of half a steering angle, a number from -1 to 1: within 2^-20 of its Taylor sum through the twelfth power.
    sine = vehicle_sine(by half_angle: f32) -> f32;
    /// Its cosine, as near.
    cosine = vehicle_cosine(by half_angle: f32) -> f32;

    /// The sizes of `len`, as the library has them.
    table_len = vehicle_table_len() -> u32;
    whole_len = vehicle_whole_len() -> u32;
    settings_len = vehicle_settings_len() -> u32;
    controls_len = vehicle_controls_len() -> u32;
    controls_by_angle_len = vehicle_controls_by_angle_len() -> u32;
    chassis_len = vehicle_chassis_len() -> u32;
    body_len = vehicle_body_len() -> u32;
    ray_len = vehicle_ray_len() -> u32;
    aim_len = vehicle_aim_len() -> u32;
    drive_len = vehicle_drive_len() -> u32;
    read_len = vehicle_read_len() -> u32;
}
