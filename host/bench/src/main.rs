//! The library and the Rust source that it is a port of, side by side in one process on the same inputs; the results are used, and are held
//! to be equal. What is timed on each side:
//!
//! - library: the call through the C interface, as a host makes it: all its tests, the step on a copy, and the copy back.
//! - source: the file's own `update_vehicle` over document 01's arithmetic, on a vehicle, bodies and ray answers that stand ready: no conversion,
//!   no refusals, nothing allocated. Steering is the identity, but in the aims of steered wheels.
//! - source less transforms: the same of a copy that leaves the wheels' transforms alone: what a drive after an aim has to do.
//!
//! Before each drive and each update the chassis' six velocities are put back, and on the library's side the mark.
#![deny(unsafe_code)]

mod library;
mod measure;
mod pipeline;
mod scene;
mod source;

// The Rust source and what it stands on: see build.rs.
include!(concat!(env!("OUT_DIR"), "/modules.rs"));

/// The names by which the source reaches the rest of its surroundings.
mod alloc_prelude {}
mod prelude {
    pub use crate::pipeline::QueryPipelineMut;
}

use std::hint::black_box;

use library::Library;
use measure::{in_turn, Times};
use scene::Scene;
use source::{rotations, AsSent, Guarded, Scaled, World, TRANSFORMS};

const ROUNDS: usize = 201;

fn main() {
    match std::env::args().nth(1).as_deref() {
        // For a profiler: the drive of four wheels alone, so many times.
        Some("loop") => drives(
            std::env::args().nth(2).and_then(|turns| turns.parse().ok()).unwrap_or(1_000_000),
        ),
        Some("quick") => quick(),
        Some(_) => eprintln!("usage: bench [quick | loop [N]]"),
        None => whole(),
    }
}

fn drives(turns: usize) {
    let scene = Scene::new(4, 0);
    let mut library = Library::new(&scene);
    for _ in 0..turns {
        library.drive();
        black_box(&library.driven);
    }
}

/// The one number that the budget is about.
fn quick() {
    let Times { ns, ratios } = drive(4, 0);
    println!("a drive of 4 grounded wheels: library {:.0} ns, source less transforms {:.0} ns (ratio {:.2}), source as sent {:.0} ns (ratio {:.2})", ns[0], ns[1], ratios[1], ns[2], ratios[2]);
}

fn whole() {
    println!("Medians of {ROUNDS} rounds, the sides in turn, in nanoseconds.\n");
    drive_table("A drive, by grounded wheels", (0..=16).map(|wheels| (wheels, 0)));
    drive_table(
        "A drive of 4 grounded wheels, by ground bodies",
        [0, 1, 2, 4, 8, 16, 32, 64].map(|bodies| (4, bodies)).into_iter(),
    );
    println!("The other calls\n");
    println!("| call | wheels | library | source | ratio |\n|---|---|---|---|---|");
    for wheels in [1, 4, 16] {
        row(
            "a frame: aim, drive, read each wheel; source: `update_vehicle`, read each wheel",
            wheels,
            frame(wheels),
        );
        row("aim; source: transforms and speed", wheels, aim(wheels));
        row("set up and add each wheel; source: `new`, `add_wheel` each", wheels, add(wheels));
        row(
            "read one wheel; source: its fields copied, with the settled centre and what fell back",
            wheels,
            read(wheels),
        );
    }
    println!("\nAn aim of steered wheels: the library by angle and by the rotation that the angle makes; source: transforms and speed, by angle\n");
    println!(
        "| wheels | by angle | by rotation | ratio | source | ratio |\n|---|---|---|---|---|---|"
    );
    for wheels in [1, 4, 16] {
        let Times { ns, ratios } = steered_aim(wheels);
        println!(
            "| {wheels} | {:.0} | {:.0} | {:.2} | {:.0} | {:.2} |",
            ns[0], ns[1], ratios[1], ns[2], ratios[2]
        );
    }
    println!("\nMemory, in bytes\n");
    let table = std::mem::size_of::<[f32; vehicle_controller::ffi::len::TABLE]>();
    let whole = std::mem::size_of::<[u32; vehicle_controller::ffi::len::WHOLE]>();
    println!("- a vehicle of up to 16 wheels: {} (table {table}, whole numbers {whole}), none of it on the heap of the library", table + whole);
    let wheel = std::mem::size_of::<as_sent::Wheel>();
    let two_vectors = 2 * std::mem::size_of::<math::Vector>();
    let vehicle = std::mem::size_of::<as_sent::DynamicRayCastVehicleController>();
    println!(
        "- the source's: {vehicle} and {} for each wheel: {} for 4, {} for 16",
        wheel + two_vectors,
        vehicle + 4 * (wheel + two_vectors),
        vehicle + 16 * (wheel + two_vectors)
    );
}

fn drive_table(title: &str, sizes: impl Iterator<Item = (usize, usize)>) {
    println!("{title}\n");
    println!("| wheels | bodies | library | source less transforms | ratio | source as sent | ratio |\n|---|---|---|---|---|---|---|");
    for (wheels, bodies) in sizes {
        let Times { ns, ratios } = drive(wheels, bodies);
        println!(
            "| {wheels} | {bodies} | {:.0} | {:.0} | {:.2} | {:.0} | {:.2} |",
            ns[0], ns[1], ratios[1], ns[2], ratios[2]
        );
    }
    println!();
}

fn row(what: &str, wheels: usize, Times { ns, ratios }: Times<2>) {
    println!("| {what} | {wheels} | {:.0} | {:.0} | {:.2} |", ns[0], ns[1], ratios[1]);
}

/// One drive: the library, the source less transforms, the source as sent.
fn drive(wheels: usize, bodies: usize) -> Times<3> {
    let scene = Scene::new(wheels, bodies);
    let mut library = Library::new(&scene);
    let (mut world, mut guarded) = (World::new(&scene), Guarded::new(&scene));
    guarded.aim(&world);
    let (mut other_world, mut as_sent) = (World::new(&scene), AsSent::new(&scene));
    TRANSFORMS.set(false);
    let times = in_turn(
        ROUNDS,
        [
            &mut |turns| {
                for _ in 0..turns {
                    library.drive();
                    black_box(&library.driven);
                }
            },
            &mut |turns| {
                for _ in 0..turns {
                    guarded.update(&mut world);
                    black_box(&world.bodies.bodies[0]);
                }
            },
            &mut |turns| {
                for _ in 0..turns {
                    as_sent.update(&mut other_world);
                    black_box(&other_world.bodies.bodies[0]);
                }
            },
        ],
    );
    TRANSFORMS.set(true);
    assert_eq!(library.driven, world.driven(), "both sides give the same velocities");
    assert_eq!(library.driven, other_world.driven(), "both sides give the same velocities");
    times
}

/// A whole frame.
fn frame(wheels: usize) -> Times<2> {
    let scene = Scene::new(wheels, 0);
    let mut library = Library::new(&scene);
    let (mut world, mut source) = (World::new(&scene), Guarded::new(&scene));
    in_turn(
        ROUNDS,
        [
            &mut |turns| {
                for _ in 0..turns {
                    library.aim();
                    black_box(&library.sights);
                    library.drive_on();
                    black_box(&library.driven);
                    for wheel in 0..wheels as u32 {
                        library.read(wheel);
                        black_box(&library.read);
                    }
                }
            },
            &mut |turns| {
                for _ in 0..turns {
                    source.update(&mut world);
                    black_box(&world.bodies.bodies[0]);
                    for wheel in 0..wheels {
                        black_box(source.0.reading(wheel));
                    }
                }
            },
        ],
    )
}

fn aim(wheels: usize) -> Times<2> {
    let scene = Scene::new(wheels, 0);
    let mut library = Library::new(&scene);
    let (world, mut source) = (World::new(&scene), Guarded::new(&scene));
    let times = in_turn(
        ROUNDS,
        [
            &mut |turns| {
                for _ in 0..turns {
                    library.aim();
                    black_box(&library.sights);
                }
            },
            &mut |turns| {
                for _ in 0..turns {
                    source.aim(black_box(&world));
                    black_box(&source.0);
                }
            },
        ],
    );
    assert_eq!(library.sights[0], source.0.current_vehicle_speed, "both sides give the same speed");
    times
}

/// An aim of wheels that are all steered: by angle, by rotation, and the source by angle.
fn steered_aim(wheels: usize) -> Times<3> {
    let scene = Scene::new(wheels, 0);
    let mut by_angle = Library::by_angle(&scene);
    let mut by_rotation = Library::by_rotation(&scene, &rotations(&scene));
    let (world, mut source) = (World::new(&scene), Scaled::steered(&scene));
    let times = in_turn(
        ROUNDS,
        [
            &mut |turns| {
                for _ in 0..turns {
                    by_angle.aim();
                    black_box(&by_angle.sights);
                }
            },
            &mut |turns| {
                for _ in 0..turns {
                    by_rotation.aim();
                    black_box(&by_rotation.sights);
                }
            },
            &mut |turns| {
                for _ in 0..turns {
                    source.aim(black_box(&world));
                    black_box(&source.0);
                }
            },
        ],
    );
    assert_eq!(by_angle.axles(), by_rotation.axles(), "both ways steer alike");
    let near = |ours: &f32, theirs: f32| (ours - theirs).abs() < 1.0 / 1_048_576.0;
    for (ours, theirs) in by_angle.axles().into_iter().zip(source.axles()) {
        let all = ours.iter().zip(theirs).all(|(ours, theirs)| near(ours, theirs));
        assert!(all, "both sides steer alike: {ours:?} {theirs:?}");
    }
    times
}

fn add(wheels: usize) -> Times<2> {
    let scene = Scene::new(wheels, 0);
    let mut library = Library::new(&scene);
    in_turn(
        ROUNDS,
        [
            &mut |turns| {
                for _ in 0..turns {
                    library.add_all();
                    black_box(&library.table);
                }
            },
            &mut |turns| {
                for _ in 0..turns {
                    black_box(AsSent::with_wheels(black_box(&scene)).0);
                }
            },
        ],
    )
}

fn read(wheels: usize) -> Times<2> {
    let scene = Scene::new(wheels, 0);
    let mut library = Library::new(&scene);
    library.drive();
    let (mut world, mut source) = (World::new(&scene), Guarded::new(&scene));
    source.update(&mut world);
    let last = wheels - 1;
    library.read(last as u32);
    assert_eq!(library.read, source.0.reading(last), "both sides give the same reading");
    in_turn(
        ROUNDS,
        [
            &mut |turns| {
                for _ in 0..turns {
                    library.read(last as u32);
                    black_box(&library.read);
                }
            },
            &mut |turns| {
                for _ in 0..turns {
                    black_box(black_box(&source).0.reading(last));
                }
            },
        ],
    )
}
