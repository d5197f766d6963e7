//! Wild finite numbers in wild orders of calls.

use vehicle::handed::{Chassis, Controls, NewWheel};
use vehicle::math::{Pose, Rotation};

use crate::parts::Size;
use crate::random::Random;
use crate::script::{stream_of, Script};

pub fn scenario(random: &mut Random) -> Vec<u8> {
    let size = Size::any(random);
    // One call in so many is of another size, or has a number out of its range.
    let strays = random.pick(&[4, 12, 100]);
    let mut script = Script::new();
    for _ in 0..random.below(6) {
        let wheel = size.wheel(random);
        script.add(wheel);
    }
    for _ in 0..10 + random.below(50) {
        let size = if random.once_in(strays) { Size::any(random) } else { size };
        call(random, size, &mut script, strays);
    }
    script.read_all();
    stream_of(&script.finished())
}

fn call(random: &mut Random, size: Size, script: &mut Script, strays: usize) {
    let stray = random.once_in(strays * 4);
    let wheel = if stray { random.below(20) } else { random.below(script.count().max(1)) } as u32;
    match random.below(16) {
        0 => {
            let new = size.wheel(random);
            let radius = if stray { -new.radius } else { new.radius };
            script.add(NewWheel { radius, ..new });
        }
        1..=3 => {
            let controls = size.controls(random);
            let brake = if stray { -controls.brake } else { controls.brake };
            script.controls(wheel, Controls { brake, ..controls });
        }
        4..=7 => {
            let chassis = size.chassis(random);
            let rotation = chassis.pose.rotation;
            let rotation = if stray { unfit(rotation) } else { rotation };
            script.aim(Chassis { pose: Pose { rotation, ..chassis.pose }, ..chassis });
        }
        8..=11 => {
            let wheels = if stray { random.below(17) } else { script.count() };
            let drive = size.drive(random, wheels);
            script.drive(drive);
        }
        12 => {
            // Whole frames, so that most drives find the table aimed.
            let chassis = size.chassis(random);
            script.aim(chassis);
            let drive = size.drive(random, script.count());
            script.drive(drive);
            script.read_all();
        }
        _ => script.read(wheel),
    }
}

/// A rotation outside its band.
fn unfit(rotation: Rotation) -> Rotation {
    let [x, y, z, w] = rotation.parts().map(|part| part * 1.01);
    Rotation::new(x, y, z, w)
}
