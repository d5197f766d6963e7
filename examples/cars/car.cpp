// A car that drives forward, steers left and stops, in C++20.
#include <cmath>
#include <cstdio>

#include "vehicle.hpp"

using namespace vehicle;

const double DT = 1.0 / 60, GRAVITY = 9.81;
const float MASS = 1200;

static float narrow(double x) { return static_cast<float>(x); }

// Flat ground at height 0.
static RayAnswer ground(const Sight& sight)
{
    const float time = narrow(std::max(double(sight.start.y) / -double(sight.ray.y), 0.0));
    return time <= 1 ? RayAnswer::hit(time, {0, 1, 0}) : RayAnswer::nothing();
}

int main()
{
    Vehicle car(Axis::y, Axis::x);
    car.strict([](const Finding& doubt) { std::fprintf(stderr, "%s\n", doubt.words.c_str()); });
    for (const auto& [x, z] : {std::pair{1.25f, 0.75f}, {1.25f, -0.75f}, {-1.25f, 0.75f}, {-1.25f, -0.75f}}) {
        const Mount mount{.connection = {x, -0.1f, z}, .direction = {0, -1, 0}, .axle = {0, 0, 1}, .rest_length = 0.3f, .radius = 0.3f};
        WheelSettings wheel = mount.wheel();
        wheel.stiffness = 30, wheel.compression = 2.2f, wheel.damping = 2.7f, wheel.travel = 0.2f, wheel.slip = 1;
        car.add_wheel(wheel);
    }
    RigidBody body{.mass = MASS, .local_inertia = box_inertia(MASS, {4, 1.2f, 1.8f})};
    double p[3] = {0, 0.61, 0}, q[4] = {0, 0, 0, 1};
    for (int frame = 1; frame <= 360; frame++) {
        const float engine = frame <= 240 ? 1000 : 0, brake = frame <= 240 ? 0 : 30;
        const float angle = frame > 120 && frame <= 240 ? 0.1f : 0;
        for (uint32_t wheel = 0; wheel < 4; wheel++)
            car.set_controls(wheel, {.engine = wheel < 2 ? 0 : engine, .brake = brake, .steering = Steering::angle(wheel < 2 ? angle : 0)});
        body.position = {narrow(p[0]), narrow(p[1]), narrow(p[2])};
        body.rotation = {narrow(q[0]), narrow(q[1]), narrow(q[2]), narrow(q[3])};
        Aimed aimed = car.aim(body.chassis());
        std::vector<RayAnswer> answers;
        for (const Sight& sight : aimed.sights()) answers.push_back(ground(sight));
        const Driven driven = aimed.drive(narrow(DT), {}, answers);
        const auto& [linear, angular, wake] = driven.velocity();
        const Vector tyre = driven.read(0).settled;
        const double v[3] = {linear.x, linear.y - GRAVITY * DT, linear.z}; // the host's own step: gravity, then the new place
        for (int i = 0; i < 3; i++) p[i] = p[i] + v[i] * DT;
        const double a = angular.x, b = angular.y, c = angular.z, x = q[0], y = q[1], z = q[2], s = q[3];
        const double turn[4] = {a * s + b * z - c * y, b * s + c * x - a * z, c * s + a * y - b * x, -(a * x + b * y + c * z)};
        for (int i = 0; i < 4; i++) q[i] = q[i] + 0.5 * DT * turn[i];
        const double size = std::sqrt(q[0] * q[0] + q[1] * q[1] + q[2] * q[2] + q[3] * q[3]);
        for (double& part : q) part = part / size;
        body.linear_velocity = {narrow(v[0]), narrow(v[1]), narrow(v[2])}, body.angular_velocity = angular;
        if (frame % 20 != 0) continue;
        std::printf("frame %d: at (%.3f, %.3f, %.3f), speed %.3f, tyre 0 at height %.3f ", frame, p[0], p[1], p[2], aimed.speed(), tyre.y);
        for (const Vector& part : {linear, angular, tyre}) for (float number : array_of(part)) std::printf("%08x", std::bit_cast<uint32_t>(number));
        std::printf("\n");
    }
}
