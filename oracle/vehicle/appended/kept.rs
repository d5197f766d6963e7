
// Lines of ours, appended by the oracle's build to a copy of the file above; the file itself stays as sent.
impl crate::step::Kept for Wheel {
    /// The numbers that a row keeps, in its order. Steering is kept elsewhere.
    fn kept(&mut self) -> [&mut Real; crate::row::KEPT] {
        let info = &mut self.raycast_info;
        [
            &mut info.contact_normal_ws.x,
            &mut info.contact_normal_ws.y,
            &mut info.contact_normal_ws.z,
            &mut info.contact_point_ws.x,
            &mut info.contact_point_ws.y,
            &mut info.contact_point_ws.z,
            &mut info.suspension_length,
            &mut info.hard_point_ws.x,
            &mut info.hard_point_ws.y,
            &mut info.hard_point_ws.z,
            &mut self.center.x,
            &mut self.center.y,
            &mut self.center.z,
            &mut self.wheel_direction_ws.x,
            &mut self.wheel_direction_ws.y,
            &mut self.wheel_direction_ws.z,
            &mut self.wheel_axle_ws.x,
            &mut self.wheel_axle_ws.y,
            &mut self.wheel_axle_ws.z,
            &mut self.chassis_connection_point_cs.x,
            &mut self.chassis_connection_point_cs.y,
            &mut self.chassis_connection_point_cs.z,
            &mut self.direction_cs.x,
            &mut self.direction_cs.y,
            &mut self.direction_cs.z,
            &mut self.axle_cs.x,
            &mut self.axle_cs.y,
            &mut self.axle_cs.z,
            &mut self.suspension_rest_length,
            &mut self.radius,
            &mut self.suspension_stiffness,
            &mut self.damping_compression,
            &mut self.damping_relaxation,
            &mut self.max_suspension_travel,
            &mut self.side_friction_stiffness,
            &mut self.friction_slip,
            &mut self.max_suspension_force,
            &mut self.roll_influence,
            &mut self.engine_force,
            &mut self.brake,
            &mut self.suspension_relative_velocity,
            &mut self.clipped_inv_contact_dot_suspension,
            &mut self.rotation,
            &mut self.delta_rotation,
            &mut self.wheel_suspension_force,
            &mut self.forward_impulse,
            &mut self.side_impulse,
            &mut self.skid_info,
        ]
    }
}

impl crate::step::Directed for DynamicRayCastVehicleController {
    /// What the last update worked out for this wheel.
    fn directions(&self, wheel: usize) -> crate::step::Directions {
        crate::step::Directions { axis: self.axle[wheel], forward: self.forward_ws[wheel] }
    }
}
