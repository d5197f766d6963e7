
// Lines of ours, appended by the benchmark's build to its copies of the file above; the file itself stays as sent.
impl DynamicRayCastVehicleController {
    /// What `update_vehicle` does first, and an aim does: the wheels' transforms, and the signed speed.
    pub fn aim_part(&mut self, chassis: &RigidBody) {
        for i in 0..self.wheels.len() {
            self.update_wheel_transform(chassis, i);
        }
        self.current_vehicle_speed = chassis.linvel().length();
        let forward_w = chassis.position().rotation * Vector::ith(self.index_forward_axis, 1.0);
        if forward_w.dot(chassis.linvel()) < 0.0 {
            self.current_vehicle_speed *= -1.0;
        }
    }

    /// What a read gives. The file has no settled centre, and does not say what fell back: both are worked out here from its numbers.
    pub fn reading(&self, wheel: usize) -> [Real; 20] {
        let fell_back = [self.axle[wheel], self.forward_ws[wheel]].map(|direction| direction == Vector::ZERO);
        let wheel = &self.wheels[wheel];
        let [centre, direction, axle] = [wheel.center, wheel.wheel_direction_ws, wheel.wheel_axle_ws].map(Vector::parts);
        let info = &wheel.raycast_info;
        let settled = (info.hard_point_ws + wheel.wheel_direction_ws * info.suspension_length).parts();
        let on_the_ground = info.ground_object.is_some();
        let [no_axis, no_forward] = fell_back.map(|fell_back| if on_the_ground && fell_back { 1.0 } else { 0.0 });
        [
            centre[0],
            centre[1],
            centre[2],
            direction[0],
            direction[1],
            direction[2],
            axle[0],
            axle[1],
            axle[2],
            wheel.raycast_info.suspension_length,
            wheel.wheel_suspension_force,
            wheel.forward_impulse,
            wheel.side_impulse,
            wheel.skid_info,
            wheel.rotation,
            settled[0],
            settled[1],
            settled[2],
            no_axis,
            no_forward,
        ]
    }
}
