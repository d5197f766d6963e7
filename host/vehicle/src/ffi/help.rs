//! `vehicle_help.h` over slices: why a call was refused, what is accepted and hardly meant, lists from what a host has, and a vehicle as bytes.
//! Nothing here changes what a call answers.

use std::ffi::{c_char, CStr};

use super::{calls, len};

/// The lengths of `vehicle_help.h`. `tests/sizes.rs` holds them to it.
pub const BOUND: usize = 128;
pub const WORDS: usize = 640;
/// How many bytes a saved vehicle has.
pub const SAVED: usize = 20 + 4 * (len::TABLE + len::WHOLE) + 4;

/// One number that broke a bound, or is hardly meant.
#[derive(Clone, Debug, PartialEq)]
pub struct Finding {
    /// The wheel that it is of.
    pub wheel: Option<u32>,
    /// The ground body that it is of, by its place in the list.
    pub body: Option<u32>,
    /// What the number is called.
    pub field: &'static str,
    /// What it is.
    pub value: f64,
    /// What holds for it.
    pub bound: String,
    /// What to do at this call.
    pub advice: &'static str,
    /// All that in words.
    pub words: String,
}

impl std::fmt::Display for Finding {
    fn fmt(&self, f: &mut std::fmt::Formatter<'_>) -> std::fmt::Result {
        f.write_str(&self.words)
    }
}

/// A finding as the library gives it.
#[repr(C)]
#[derive(Clone, Copy)]
struct Found {
    refusal: u32,
    wheel: i32,
    body: i32,
    field: *const c_char,
    value: f64,
    bound: [c_char; BOUND],
    advice: *const c_char,
}

const NONE: Found = Found {
    refusal: 0,
    wheel: -1,
    body: -1,
    field: std::ptr::null(),
    value: 0.0,
    bound: [0; BOUND],
    advice: std::ptr::null(),
};

impl Found {
    fn finding(&self) -> Option<Finding> {
        if self.field.is_null() {
            return None;
        }
        let mut words = [0 as c_char; WORDS];
        // SAFETY: `field` and `advice` are texts of the library, which stay; `bound` and `words` are ended by it within their lengths.
        let (field, advice, bound, words) = unsafe {
            library::vehicle_words(self, words.as_mut_ptr(), words.len());
            let text = |start: *const c_char| CStr::from_ptr(start);
            (text(self.field), text(self.advice), text(self.bound.as_ptr()), text(words.as_ptr()))
        };
        Some(Finding {
            wheel: u32::try_from(self.wheel).ok(),
            body: u32::try_from(self.body).ok(),
            field: field.to_str().unwrap_or(""),
            value: self.value,
            bound: bound.to_string_lossy().into_owned(),
            advice: advice.to_str().unwrap_or(""),
            words: words.to_string_lossy().into_owned(),
        })
    }
}

/// A rigid body as the library takes it.
#[repr(C)]
pub struct RigidBody {
    pub mass: f32,
    pub local_centre_of_mass: [f32; 3],
    pub local_inertia: [f32; 6],
    pub position: [f32; 3],
    pub rotation: [f32; 4],
    pub linear_velocity: [f32; 3],
    pub angular_velocity: [f32; 3],
    pub locked: [u32; 3],
}

/// A wheel's place on the chassis as the library takes it.
#[repr(C)]
pub struct Mount {
    pub connection: [f32; 3],
    pub direction: [f32; 3],
    pub axle: [f32; 3],
    pub rest_length: f32,
    pub radius: f32,
}

mod library {
    use super::{c_char, Found, Mount, RigidBody};

    extern "C" {
        pub fn vehicle_words(finding: *const Found, text: *mut c_char, text_len: usize) -> usize;
        pub fn vehicle_doubts_set_up(
            up: u32,
            forward: u32,
            doubts: *mut Found,
            most: usize,
        ) -> usize;
        pub fn vehicle_doubts_add_wheel(
            whole: *const u32,
            settings: *const f32,
            doubts: *mut Found,
            most: usize,
        ) -> usize;
        pub fn vehicle_doubts_set_controls(
            whole: *const u32,
            wheel: u32,
            controls: *const f32,
            doubts: *mut Found,
            most: usize,
        ) -> usize;
        pub fn vehicle_doubts_set_controls_by_angle(
            whole: *const u32,
            wheel: u32,
            controls: *const f32,
            doubts: *mut Found,
            most: usize,
        ) -> usize;
        pub fn vehicle_doubts_aim(
            whole: *const u32,
            chassis: *const f32,
            doubts: *mut Found,
            most: usize,
        ) -> usize;
        pub fn vehicle_doubts_drive(
            table: *const f32,
            dt: f32,
            bodies: *const f32,
            bodies_len: usize,
            kinds: *const u32,
            kinds_len: usize,
            rays: *const f32,
            rays_len: usize,
            doubts: *mut Found,
            most: usize,
        ) -> usize;
        pub fn vehicle_make_chassis(of: *const RigidBody, chassis: *mut f32);
        pub fn vehicle_make_ground(of: *const RigidBody, body: *mut f32);
        pub fn vehicle_make_box_inertia(mass: f32, size: *const f32, inertia: *mut f32);
        pub fn vehicle_make_wheel(of: *const Mount, settings: *mut f32);
        pub fn vehicle_make_time(ray: *const f32, distance: f32) -> f32;
        pub fn vehicle_save(table: *const f32, whole: *const u32, bytes: *mut u8);
        pub fn vehicle_restore(
            bytes: *const u8,
            bytes_len: usize,
            table: *mut f32,
            whole: *mut u32,
        ) -> *const c_char;
    }
}

// Why a call was refused: what it answered, and then what it was handed.
calls! {
    /// Why a set-up was refused.
    explain_set_up = vehicle_explain_set_up(by answer: u32, of table: f32, of whole: u32, by up: u32, by forward: u32)
        -> Found, finding -> Option<Finding>;
    /// Why adding a wheel was refused.
    explain_add_wheel = vehicle_explain_add_wheel(by answer: u32, of table: f32, of whole: u32, of settings: f32)
        -> Found, finding -> Option<Finding>;
    /// Why controls with a rotation were refused.
    explain_set_controls = vehicle_explain_set_controls(by answer: u32, of table: f32, of whole: u32, by wheel: u32, of controls: f32)
        -> Found, finding -> Option<Finding>;
    /// Why controls with an angle were refused.
    explain_set_controls_by_angle = vehicle_explain_set_controls_by_angle(
        by answer: u32, of table: f32, of whole: u32, by wheel: u32, of controls: f32
    ) -> Found, finding -> Option<Finding>;
    /// Why an aim was refused.
    explain_aim = vehicle_explain_aim(by answer: u32, of table: f32, of whole: u32, of chassis: f32, of results: f32)
        -> Found, finding -> Option<Finding>;
    /// Why a drive was refused.
    explain_drive = vehicle_explain_drive(
        by answer: u32, of table: f32, of whole: u32, by dt: f32, of bodies: f32, of dynamic: u32, of kinds: u32, of named: u32, of rays: f32,
        of results: f32
    ) -> Found, finding -> Option<Finding>;
    /// Why a read was refused.
    explain_read_wheel = vehicle_explain_read_wheel(by answer: u32, of table: f32, of whole: u32, by wheel: u32, of results: f32)
        -> Found, finding -> Option<Finding>;
}

/// What the library doubts, as it writes it to a list and gives the number of all: asked for none it only counts them.
fn doubts(ask: impl Fn(*mut Found, usize) -> usize) -> Vec<Finding> {
    let mut list = vec![NONE; ask(std::ptr::null_mut(), 0)];
    ask(list.as_mut_ptr(), list.len());
    list.iter().filter_map(Found::finding).collect()
}

/// What is hardly meant of two axes.
pub fn doubts_set_up(up: u32, forward: u32) -> Vec<Finding> {
    // SAFETY: the library writes to no more findings than the list has; so below. An array has the length that the library reads.
    doubts(|list, most| unsafe { library::vehicle_doubts_set_up(up, forward, list, most) })
}

/// What is hardly meant of the wheel that was added last.
pub fn doubts_add_wheel(
    whole: &[u32; len::WHOLE],
    settings: &[f32; len::SETTINGS],
) -> Vec<Finding> {
    doubts(|list, most| unsafe {
        library::vehicle_doubts_add_wheel(whole.as_ptr(), settings.as_ptr(), list, most)
    })
}

/// What is hardly meant of controls with a rotation.
pub fn doubts_set_controls(
    whole: &[u32; len::WHOLE],
    wheel: u32,
    controls: &[f32; len::CONTROLS],
) -> Vec<Finding> {
    doubts(|list, most| unsafe {
        let (whole, controls) = (whole.as_ptr(), controls.as_ptr());
        library::vehicle_doubts_set_controls(whole, wheel, controls, list, most)
    })
}

/// What is hardly meant of controls with an angle.
pub fn doubts_set_controls_by_angle(
    whole: &[u32; len::WHOLE],
    wheel: u32,
    controls: &[f32; len::CONTROLS_BY_ANGLE],
) -> Vec<Finding> {
    doubts(|list, most| unsafe {
        let (whole, controls) = (whole.as_ptr(), controls.as_ptr());
        library::vehicle_doubts_set_controls_by_angle(whole, wheel, controls, list, most)
    })
}

/// What is hardly meant of a chassis.
pub fn doubts_aim(whole: &[u32; len::WHOLE], chassis: &[f32; len::CHASSIS]) -> Vec<Finding> {
    doubts(|list, most| unsafe {
        library::vehicle_doubts_aim(whole.as_ptr(), chassis.as_ptr(), list, most)
    })
}

/// What is hardly meant of what a drive was handed.
pub fn doubts_drive(
    table: &[f32; len::TABLE],
    dt: f32,
    bodies: &[f32],
    kinds: &[u32],
    rays: &[f32],
) -> Vec<Finding> {
    doubts(|list, most| unsafe {
        library::vehicle_doubts_drive(
            table.as_ptr(),
            dt,
            bodies.as_ptr(),
            bodies.len(),
            kinds.as_ptr(),
            kinds.len(),
            rays.as_ptr(),
            rays.len(),
            list,
            most,
        )
    })
}

/// The chassis that an aim takes.
pub fn make_chassis(of: &RigidBody) -> [f32; len::CHASSIS] {
    let mut chassis = [0.0; len::CHASSIS];
    // SAFETY: the list has the length that the library writes; so below.
    unsafe { library::vehicle_make_chassis(of, chassis.as_mut_ptr()) };
    chassis
}

/// The ground body that a drive takes.
pub fn make_ground(of: &RigidBody) -> [f32; len::BODY] {
    let mut body = [0.0; len::BODY];
    // SAFETY: as in `make_chassis`.
    unsafe { library::vehicle_make_ground(of, body.as_mut_ptr()) };
    body
}

/// The inertia of a solid box.
pub fn make_box_inertia(mass: f32, size: &[f32; 3]) -> [f32; 6] {
    let mut inertia = [0.0; 6];
    // SAFETY: as in `make_chassis`.
    unsafe { library::vehicle_make_box_inertia(mass, size.as_ptr(), inertia.as_mut_ptr()) };
    inertia
}

/// The settings that adding a wheel takes.
pub fn make_wheel(of: &Mount) -> [f32; len::SETTINGS] {
    let mut settings = [0.0; len::SETTINGS];
    // SAFETY: as in `make_chassis`.
    unsafe { library::vehicle_make_wheel(of, settings.as_mut_ptr()) };
    settings
}

/// The time of a hit at this distance along a ray.
pub fn make_time(ray: &[f32; 3], distance: f32) -> f32 {
    // SAFETY: the library reads three numbers.
    unsafe { library::vehicle_make_time(ray.as_ptr(), distance) }
}

/// A vehicle as bytes.
pub fn save(table: &[f32; len::TABLE], whole: &[u32; len::WHOLE]) -> [u8; SAVED] {
    let mut bytes = [0; SAVED];
    // SAFETY: each array has the length that the library reads or writes; so below.
    unsafe { library::vehicle_save(table.as_ptr(), whole.as_ptr(), bytes.as_mut_ptr()) };
    bytes
}

/// A vehicle from bytes, or why they are none; then nothing is written.
pub fn restore(
    bytes: &[u8],
    table: &mut [f32; len::TABLE],
    whole: &mut [u32; len::WHOLE],
) -> Result<(), &'static str> {
    // SAFETY: as in `save`; what the library gives is a text of its own, which stays, or null.
    let why = unsafe {
        let (table, whole) = (table.as_mut_ptr(), whole.as_mut_ptr());
        let why = library::vehicle_restore(bytes.as_ptr(), bytes.len(), table, whole);
        (!why.is_null()).then(|| CStr::from_ptr(why))
    };
    why.map_or(Ok(()), |why| Err(why.to_str().unwrap_or("")))
}
