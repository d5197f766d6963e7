// The typed calls of vehicle.hpp: frames whose numbers can be worked out by hand, refusals and their words, the strict
// mode, saved vehicles and the makers. Each line is asserted.
#include <cmath>
#include <cstdio>
#include <cstdlib>
#include <cstring>
#include <limits>
#include <memory>
#include <string>
#include <vector>

#include "vehicle.hpp"

using namespace vehicle;

static int checks = 0;

// Unlike assert, it stays in a build with NDEBUG.
static void check(bool holds, const char* what, int line)
{
    checks++;
    if (!holds) {
        std::fprintf(stderr, "wrapper.cpp:%d: %s\n", line, what);
        std::exit(1);
    }
}
#define CHECK(...) check((__VA_ARGS__), #__VA_ARGS__, __LINE__)

static constexpr float nan_number = std::numeric_limits<float>::quiet_NaN();
static constexpr float infinity = std::numeric_limits<float>::infinity();
static constexpr Vector up{0, 1, 0};
static constexpr Vector down{0, -1, 0};
static constexpr Vector across{0, 0, 1};

static bool has(const std::string& text, const std::string& part)
{
    return text.find(part) != std::string::npos;
}

static bool is_near(double number, double expected)
{
    return std::fabs(number - expected) <= 1e-6 * std::fabs(expected) + 1e-9;
}

static bool is_near(const Vector& vector, const Vector& expected)
{
    return is_near(vector.x, expected.x) && is_near(vector.y, expected.y) && is_near(vector.z, expected.z);
}

// The refusal of a call, or one of number 0 if it was accepted.
template <typename Call>
static Refused refused_by(Call call)
{
    try {
        call();
    } catch (const Refused& refused) {
        return refused;
    }
    return Refused(VEHICLE_ACCEPTED, Finding{});
}

// Whether it is this refusal, with a finding of this field, and with these words in it.
static bool says(const Refused& refused, uint32_t number, const std::string& field, const std::string& words)
{
    if (refused.number() != number || !refused.finding() || refused.finding()->field != field)
        return false;
    const std::string what = "refused (" + std::to_string(number) + "): " + refused.finding()->words;
    return refused.what() == what && has(what, words);
}

// ---- What holds at compile time ----

static_assert(std::is_aggregate_v<Vector> && std::is_aggregate_v<Rotation> && std::is_aggregate_v<Inertia>);
static_assert(std::is_aggregate_v<WheelSettings> && std::is_aggregate_v<Mount> && std::is_aggregate_v<Steering>);
static_assert(std::is_aggregate_v<Controls> && std::is_aggregate_v<Chassis> && std::is_aggregate_v<GroundBody>);
static_assert(std::is_aggregate_v<RigidBody> && std::is_aggregate_v<Sight> && std::is_aggregate_v<RayAnswer>);
static_assert(std::is_aggregate_v<Velocity> && std::is_aggregate_v<Reading> && std::is_aggregate_v<Finding>);

static_assert(!std::is_default_constructible_v<Aimed> && !std::is_constructible_v<Aimed, Vehicle&>);
static_assert(!std::is_default_constructible_v<Driven> && !std::is_constructible_v<Driven, const Vehicle&>);
static_assert(!std::is_constructible_v<Driven, const Vehicle&, const Velocity&>);

template <typename Type>
concept SightsOfTemporary = requires(Type type) { std::move(type).sights(); };
template <typename Type>
concept AimOfTemporary = requires(Type type) { std::move(type).aim(Chassis{}); };
template <typename Type>
concept AimOfStrictTemporary = requires(Type type) { std::move(type).strict({}).aim(Chassis{}); };
static_assert(!SightsOfTemporary<Aimed> && !AimOfTemporary<Vehicle> && !AimOfStrictTemporary<Vehicle>);

// ---- The car of small_car.c ----

static WheelSettings small_wheel()
{
    return {
        .connection = {1, 0, 1},
        .direction = down,
        .axle = across,
        .rest_length = 1,
        .radius = 1,
        .stiffness = 8,
        .compression = 2,
        .damping = 2,
        .travel = 0.5f,
        .side_stiffness = 1,
        .slip = 0.3125f,
        .most_force = 1024,
    };
}

static Vehicle small_car()
{
    Vehicle car;
    WheelSettings wheel = small_wheel();
    CHECK(wheel.roll_influence == VEHICLE_ROLL_INFLUENCE);
    CHECK(car.add_wheel(wheel) == 0);
    wheel.connection = {1, 0, -1};
    CHECK(car.add_wheel(wheel) == 1);
    wheel.connection = {-1, 0, 1};
    CHECK(car.add_wheel(wheel) == 2);
    wheel.connection = {-1, 0, -1};
    wheel.slip = 8;
    CHECK(car.add_wheel(wheel) == 3);
    CHECK(car.wheel_count() == 4);
    car.set_controls(0, {.engine = 12});
    car.set_controls(1, {.brake = 6});
    return car;
}

// Mass 4 and no inverse inertia, so that impulses only push.
static Chassis moving(const Vector& velocity)
{
    Chassis chassis = Chassis::at_rest(0.25f, {});
    chassis.linear_velocity = velocity;
    return chassis;
}

// Every wheel's ray met flat ground at three quarters of it.
static std::vector<RayAnswer> flat(size_t wheels)
{
    return std::vector<RayAnswer>(wheels, RayAnswer::hit(0.75f, up));
}

// The two frames that small_car.c has.
static void frames()
{
    Vehicle car = small_car();
    Aimed aimed = car.aim(moving({12, 0, 5}));
    CHECK(aimed.speed() == 13);
    CHECK(aimed.sights().size() == 4);
    CHECK(aimed.sights()[0] == Sight{.start = {1, 0, 1}, .ray = {0, -2, 0}});
    CHECK(aimed.sights()[3] == Sight{.start = {-1, 0, -1}, .ray = {0, -2, 0}});

    const Driven driven = aimed.drive(0.5f, {}, flat(4));
    CHECK(driven.velocity() == Velocity{.linear = {12, 8, 2.375f}, .angular = {0, 0, 0}, .wake = true});
    const Reading tyre = driven.read(0);
    CHECK(tyre.centre == Vector{1, 0, 1} && tyre.settled == Vector{1, -0.5f, 1});
    CHECK(tyre.direction == down && tyre.axle == across);
    CHECK(tyre.length == 0.5f && tyre.force == 16);
    CHECK(tyre.forward == 3 && tyre.side == -2 && tyre.skid == 0.5f && tyre.rotation == 6);
    CHECK(!tyre.no_axis && !tyre.no_forward);
    CHECK(driven.read(3).skid == 1);

    Aimed back = car.aim(moving({-12, 0, 5}));
    CHECK(back.speed() == -13);
    const Driven flown = back.drive(0.5f, {}, std::vector<RayAnswer>(4, RayAnswer::nothing()));
    CHECK(flown.velocity().linear == Vector{-12, 0, 5});
    CHECK(flown.read(0).centre == Vector{1, -0.5f, 1} && flown.read(0).length == 1);
    CHECK(flown.read(0).settled == Vector{1, -1, 1});
}

// A wheel that has no direction on the ground: its axle lies along the normal.
static void dead_tyre()
{
    Vehicle car;
    WheelSettings wheel = small_wheel();
    wheel.axle = up;
    car.add_wheel(wheel);
    Aimed aimed = car.aim(moving({12, 0, 5}));
    const Reading tyre = aimed.drive(0.5f, {}, flat(1)).read(0);
    CHECK(tyre.no_axis && tyre.no_forward && tyre.forward == 0 && tyre.side == 0);
}

// The example of docs/NUMBERS.md: an angle of 0.5 takes the axle from z toward x. A rotation by the same angle about y
// does the same, and one without a turn leaves it.
static void steered()
{
    Vehicle car;
    for (int wheel = 0; wheel < 3; wheel++)
        car.add_wheel(small_wheel());
    car.set_controls(0, {.steering = Steering::angle(0.5f)});
    car.set_controls(1, {.steering = Steering::rotation({0, vehicle_sine(0.25f), 0, vehicle_cosine(0.25f)})});
    car.set_controls(2, {});
    Aimed aimed = car.aim(moving({}));
    const Driven driven = aimed.drive(0.5f, {}, flat(3));
    CHECK(is_near(driven.read(0).axle, {0.479426f, 0, 0.877583f}));
    CHECK(is_near(driven.read(1).axle, {0.479426f, 0, 0.877583f}));
    CHECK(driven.read(2).axle == across);
}

// One wheel of slip 8 with a brake of 6 on a chassis of mass 4 that moves by (12, 0, 5), over half a second. The spring
// pushes by 8 * (1 - 0.5) * 4 = 16, and so by 8 in half a second: 2 upward. Ground that rests takes a fifth of the
// sideways motion, 1, and the brake 6 / 4 = 1.5 of the rolling. Ground that moves along with the car takes neither.
static void ground_bodies()
{
    Vehicle car;
    WheelSettings wheel = small_wheel();
    wheel.slip = 8;
    car.add_wheel(wheel);
    car.set_controls(0, {.brake = 6});
    const std::vector<GroundBody> bodies = {{.dynamic = true}, {.linear_velocity = {12, 0, 5}, .dynamic = true}};
    const auto driven_on = [&](const RayAnswer& answer) {
        Aimed aimed = car.aim(moving({12, 0, 5}));
        return aimed.drive(0.5f, bodies, std::array{answer}).velocity().linear;
    };
    CHECK(driven_on(RayAnswer::hit(0.75f, up)) == Vector{10.5f, 2, 4});
    CHECK(driven_on(RayAnswer::hit(0.75f, up, 0)) == Vector{10.5f, 2, 4});
    CHECK(driven_on(RayAnswer::hit(0.75f, up, 1)) == Vector{12, 2, 5});
    // From inside the shape: the spring is at its shortest, 0.5, and the normal is minus that of the upward cast.
    CHECK(driven_on(RayAnswer::hit_up(0, {}, down, 1)) == Vector{12, 2, 5});
    CHECK(says(refused_by([&] { driven_on(RayAnswer::hit_up(0, {}, {})); }), VEHICLE_BAD_NORMAL,
               "sum of squares of the upward normal", "wheel 0: "));
    CHECK(says(refused_by([&] { driven_on(RayAnswer::hit(0.75f, up, 2)); }), VEHICLE_BAD_LISTS, "ground body",
               "wheel 0: ground body 2, this drive has 2, "));
    const uint32_t last = std::numeric_limits<uint32_t>::max();
    CHECK(says(refused_by([&] { driven_on(RayAnswer::hit(0.75f, up, last)); }), VEHICLE_BAD_LISTS, "ground body",
               "wheel 0: ground body "));
}

static void empty_lists()
{
    Vehicle car;
    Aimed aimed = car.aim(moving({12, 0, 5}));
    CHECK(aimed.sights().empty());
    CHECK(aimed.drive(0.5f, {}, {}).velocity() == Velocity{.linear = {12, 0, 5}});
    const std::vector<GroundBody> no_body;
    const std::vector<RayAnswer> no_answer;
    car.aim(moving({12, 0, 5}));
    CHECK(car.drive(0.5f, no_body, no_answer).linear == Vector{12, 0, 5});
    std::vector<float> list;
    CHECK(detail::start_of(list) != nullptr);
    list = {1, 2};
    CHECK(detail::start_of(list) == list.data());
    const std::span<const uint8_t> no_bytes;
    CHECK(detail::start_of(no_bytes) != nullptr);
}

// ---- Refusals ----

static void refused_drive()
{
    Vehicle car = small_car();
    Aimed aimed = car.aim(moving({12, 0, 5}));
    std::vector<RayAnswer> answers = flat(4);
    answers[2].time = 1.3f;
    const Refused refused = refused_by([&] { aimed.drive(0.5f, {}, answers); });
    const std::string words = "wheel 2: hit time 1.3, times are fractions of the ray from 0 to 1";
    CHECK(says(refused, VEHICLE_BAD_LISTS, "hit time", words));
    CHECK(has(refused.what(), "refused (6): wheel 2: hit time 1.3"));
    CHECK(refused.finding()->wheel == 2u && !refused.finding()->body && refused.finding()->value == 1.3f);
    CHECK(refused.finding()->bound == "times are fractions of the ray from 0 to 1");
    CHECK(has(refused.finding()->words, refused.finding()->advice) && refused.finding()->advice[0] != 0);
    answers[2].normal = {0, 2, 0};
    answers[2].time = 0.75f;
    CHECK(says(refused_by([&] { aimed.drive(0.5f, {}, answers); }), VEHICLE_BAD_NORMAL, "sum of squares of the normal",
               "wheel 2: sum of squares of the normal 4"));
    CHECK(says(refused_by([&] { aimed.drive(0.5f, {}, flat(3)); }), VEHICLE_BAD_LISTS, "number of ray answers", "3"));
    CHECK(says(refused_by([&] { aimed.drive(16, {}, flat(4)); }), VEHICLE_OUT_OF_RANGE, "dt", "dt 16"));
    const std::vector<GroundBody> bodies(VEHICLE_MOST_BODIES + 1);
    CHECK(says(refused_by([&] { aimed.drive(0.5f, bodies, flat(4)); }), VEHICLE_BAD_LISTS, "number of ground bodies",
               "number of ground bodies 65"));
    answers[2].normal = up;
    CHECK(aimed.drive(0.5f, {}, answers).velocity().linear == Vector{12, 8, 2.375f});
}

static void wrong_moments()
{
    Vehicle car = small_car();
    CHECK(says(refused_by([&] { car.read_wheel(0); }), VEHICLE_WRONG_MOMENT, "mark", "mark 0"));
    CHECK(says(refused_by([&] { car.drive(0.5f, {}, flat(4)); }), VEHICLE_WRONG_MOMENT, "mark", "not aimed"));

    Aimed aimed = car.aim(moving({12, 0, 5}));
    CHECK(says(refused_by([&] { car.read_wheel(0); }), VEHICLE_WRONG_MOMENT, "mark", "Drive first"));
    car.set_controls(0, {.engine = 12});
    CHECK(says(refused_by([&] { aimed.drive(0.5f, {}, flat(4)); }), VEHICLE_WRONG_MOMENT, "mark", "aim again"));

    aimed = car.aim(moving({12, 0, 5}));
    const Driven driven = aimed.drive(0.5f, {}, flat(4));
    CHECK(says(refused_by([&] { aimed.drive(0.5f, {}, flat(4)); }), VEHICLE_WRONG_MOMENT, "mark", "Aim again"));
    CHECK(driven.read(0) == car.read_wheel(0));
    CHECK(says(refused_by([&] { driven.read(4); }), VEHICLE_NO_SUCH_WHEEL, "wheel number", "wheel number 4"));
    car.add_wheel(small_wheel());
    CHECK(says(refused_by([&] { driven.read(0); }), VEHICLE_WRONG_MOMENT, "mark", "mark 0"));
    CHECK(aimed.sights().size() == 4);
}

// Whether a call throws that its Aimed or its Driven is of an earlier aim.
template <typename Call>
static bool is_of_an_earlier_aim(Call call)
{
    try {
        call();
    } catch (const std::logic_error& error) {
        return has(error.what(), "an earlier aim");
    }
    return false;
}

static void earlier_aims()
{
    Vehicle car = small_car();
    Aimed first = car.aim(moving({12, 0, 5}));
    const Driven driven = first.drive(0.5f, {}, flat(4));
    CHECK(refused_by([&] { car.aim({}); }).number() == VEHICLE_OUT_OF_RANGE);
    CHECK(driven.read(0) == car.read_wheel(0)); // a refused aim takes nothing away
    Aimed second = car.aim(moving({12, 0, 5}));
    CHECK(is_of_an_earlier_aim([&] { first.drive(0.5f, {}, flat(4)); }));
    const Driven next = second.drive(0.5f, {}, flat(4));
    CHECK(is_of_an_earlier_aim([&] { driven.read(0); }));
    CHECK(next.read(0) == car.read_wheel(0));

    const Vehicle before = car;
    Aimed gone = car.aim(moving({12, 0, 5}));
    car = before;
    car.aim(moving({1, 0, 0}));
    CHECK(is_of_an_earlier_aim([&] { gone.drive(0.5f, {}, flat(4)); }));
}

static void named_fields()
{
    Vehicle car = small_car();
    Chassis chassis = moving({12, nan_number, 5});
    CHECK(says(refused_by([&] { car.aim(chassis); }), VEHICLE_BAD_NUMBER, "linear_velocity.y", "velocity.y NaN"));
    chassis = moving({});
    chassis.inverse_inertia.zz = nan_number;
    CHECK(says(refused_by([&] { car.aim(chassis); }), VEHICLE_BAD_NUMBER, "inverse_inertia.zz", "NaN"));
    chassis = moving({});
    chassis.rotation.w = 2;
    CHECK(says(refused_by([&] { car.aim(chassis); }), VEHICLE_OUT_OF_RANGE, "sum of squares of the chassis' rotation",
               "rotation 4"));
    CHECK(says(refused_by([&] { car.aim({}); }), VEHICLE_OUT_OF_RANGE, "inverse_mass", "inverse_mass 0"));

    WheelSettings wheel = small_wheel();
    wheel.stiffness = nan_number;
    CHECK(says(refused_by([&] { car.add_wheel(wheel); }), VEHICLE_BAD_NUMBER, "stiffness", "wheel 4: stiffness NaN"));
    wheel = small_wheel();
    wheel.roll_influence = 1.5f;
    CHECK(says(refused_by([&] { car.add_wheel(wheel); }), VEHICLE_OUT_OF_RANGE, "roll_influence", "influence 1.5"));
    CHECK(says(refused_by([&] { car.add_wheel({}); }), VEHICLE_OUT_OF_RANGE, "radius", "wheel 4: radius 0"));
    CHECK(car.wheel_count() == 4);

    CHECK(says(refused_by([&] { car.set_controls(2, {.brake = -1}); }), VEHICLE_OUT_OF_RANGE, "brake", "wheel 2: "));
    CHECK(says(refused_by([&] { car.set_controls(2, {.steering = Steering::angle(30)}); }), VEHICLE_OUT_OF_RANGE,
               "steering angle", "wheel 2: steering angle 30"));
    CHECK(says(refused_by([&] { car.set_controls(2, {.steering = Steering::rotation({.y = nan_number})}); }),
               VEHICLE_BAD_NUMBER, "steering.y", "wheel 2: steering.y NaN"));

    Aimed aimed = car.aim(moving({}));
    const std::vector<GroundBody> bodies = {{}, {.angular_velocity = {0, nan_number, 0}}};
    const Refused refused = refused_by([&] { aimed.drive(0.5f, bodies, flat(4)); });
    CHECK(says(refused, VEHICLE_BAD_NUMBER, "angular_velocity.y", "ground body 1: angular_velocity.y NaN"));
    CHECK(refused.finding()->body == 1u && !refused.finding()->wheel && std::isnan(refused.finding()->value));
}

static void other_refusals()
{
    CHECK(says(refused_by([] { Vehicle(Axis{3}, Axis::x); }), VEHICLE_NO_VEHICLE, "up axis", "up axis 3"));
    Vehicle car;
    for (uint32_t wheel = 0; wheel < VEHICLE_MOST_WHEELS; wheel++)
        CHECK(car.add_wheel(small_wheel()) == wheel);
    CHECK(says(refused_by([&] { car.add_wheel(small_wheel()); }), VEHICLE_FULL, "wheel count", "16"));
    Aimed aimed = car.aim(moving({}));
    CHECK(aimed.sights().size() == VEHICLE_MOST_WHEELS);
    CHECK(aimed.sights().back() == Sight{.start = {1, 0, 1}, .ray = {0, -2, 0}});

    Vehicle hanging;
    hanging.add_wheel({.axle = across, .rest_length = 1, .radius = 1});
    hanging.set_controls(0, {.steering = Steering::angle(0)});
    CHECK(says(refused_by([&] { hanging.aim(moving({})); }), VEHICLE_BAD_TURN, "sum of squares of the direction",
               "wheel 0: sum of squares of the direction 0"));

    const Refused unexplained(99, {});
    CHECK(unexplained.number() == 99 && !unexplained.finding() && std::string(unexplained.what()) == "refused (99)");
}

// ---- Saved vehicles ----

// Both drive a frame, to the same bits.
static void drive_on(Vehicle& one, Vehicle& other)
{
    const Velocity velocity = one.drive(0.5f, {}, flat(4)), same = other.drive(0.5f, {}, flat(4));
    CHECK(std::memcmp(&velocity.linear, &same.linear, sizeof same.linear) == 0);
    CHECK(std::memcmp(&velocity.angular, &same.angular, sizeof same.angular) == 0 && velocity.wake == same.wake);
    CHECK(one.save() == other.save());
    CHECK(one.read_wheel(2) == other.read_wheel(2));
}

static void saved()
{
    Vehicle car = small_car();
    car.aim(moving({12, 0, 5}));
    car.drive(0.3f, {}, flat(4));
    car.aim(moving({11, -1, 3}));
    const std::vector<uint8_t> bytes = car.save();
    Vehicle other = Vehicle::restore(bytes);
    CHECK(other.wheel_count() == 4 && other.save() == bytes);
    drive_on(car, other);
    car.aim(moving({10, 1, 2}));
    other.aim(moving({10, 1, 2}));
    drive_on(car, other);
}

// Why these bytes are not restored, or no words if they are.
static std::string unlike(std::span<const uint8_t> bytes)
{
    try {
        Vehicle::restore(bytes);
    } catch (const std::invalid_argument& why) {
        return why.what();
    }
    return "";
}

static void damaged()
{
    const std::vector<uint8_t> bytes = small_car().save();
    CHECK(bytes.size() == VEHICLE_SAVED_LEN);
    CHECK(has(unlike({}), "not a saved vehicle"));
    CHECK(has(unlike(std::span(bytes).first(10)), "not a saved vehicle"));
    CHECK(has(unlike(std::span(bytes).first(bytes.size() - 1)), "cut short"));
    std::vector<uint8_t> changed = bytes;
    changed.push_back(0);
    CHECK(has(unlike(changed), "something behind it"));
    changed = bytes;
    changed[100] ^= 1;
    CHECK(has(unlike(changed), "something has changed"));
    changed = bytes;
    changed[0] ^= 1;
    CHECK(has(unlike(changed), "not a saved vehicle"));
    changed = bytes;
    changed[8]++; // the version
    CHECK(has(unlike(changed), "version"));
    changed = bytes;
    changed[12]++; // the table's size
    CHECK(has(unlike(changed), "table of another size"));
}

static void copies()
{
    Vehicle car = small_car();
    car.aim(moving({12, 0, 5}));
    Vehicle copy = car;
    drive_on(car, copy);
    const std::vector<uint8_t> before = car.save();
    CHECK(copy.add_wheel(small_wheel()) == 4 && car.wheel_count() == 4 && car.save() == before);
    const std::unique_ptr<Vehicle> moved = std::make_unique<Vehicle>(std::move(copy));
    CHECK(moved->wheel_count() == 5);
}

// ---- The strict mode ----

// What was reported since the last look, each as its words.
struct Reports {
    std::vector<Finding> list;

    std::function<void(const Finding&)> gather()
    {
        return [this](const Finding& finding) { list.push_back(finding); };
    }

    // Whether it was one finding, of this field, with this in its words.
    bool are(const std::string& field, const std::string& words)
    {
        const std::vector<Finding> seen = std::exchange(list, {});
        return seen.size() == 1 && seen[0].field == field && has(seen[0].words, words);
    }
};

static void doubted_wheels()
{
    Reports reports;
    Vehicle spinning = Vehicle(Axis::y, Axis::y).strict(reports.gather());
    CHECK(reports.are("forward axis", "forward axis 1"));

    Vehicle car;
    CHECK(&car.strict(reports.gather()) == &car && reports.list.empty());
    WheelSettings wheel = small_wheel();
    wheel.direction = {0, -2, 0};
    car.add_wheel(wheel);
    CHECK(reports.are("length of the direction", "wheel 0: length of the direction 2"));
    wheel = small_wheel();
    wheel.axle = {};
    car.add_wheel(wheel);
    CHECK(reports.list.at(0).wheel == 1u && reports.list.at(0).value == 0);
    CHECK(reports.are("length of the axle", "wheel 1: length of the axle 0"));
    wheel.axle = {0, 0, -1};
    Vehicle(car).add_wheel(wheel);
    CHECK(reports.are("rolling direction along the forward axis", "wheel 2: "));
    car.set_controls(1, {.brake = 5000});
    CHECK(reports.are("brake", "wheel 1: brake 5000"));
    car.set_controls(1, {.brake = 5000, .steering = Steering::angle(0.25f)});
    CHECK(reports.are("brake", "wheel 1: brake 5000"));
    car.set_controls(0, {.steering = Steering::rotation({1, 0, 0, 0})});
    CHECK(reports.are("up part of up turned by the steering", "wheel 0: "));
}

static void doubted_frames()
{
    Reports reports;
    Vehicle car = small_car().strict(reports.gather());
    car.aim(Chassis::at_rest(1500, {}));
    CHECK(reports.are("inverse_mass", "inverse_mass 1500"));
    Aimed aimed = car.aim(Chassis::at_rest(0.25f, {}));
    CHECK(refused_by([&] { aimed.drive(0.5f, {}, flat(3)); }).number() == VEHICLE_BAD_LISTS);
    CHECK(reports.list.empty()); // only what is accepted is doubted
    aimed.drive(0.5f, {}, flat(4));
    CHECK(reports.are("dt", "dt 0.5"));

    car.aim(Chassis::at_rest(0.25f, {}));
    const std::vector<GroundBody> light(VEHICLE_MOST_BODIES, GroundBody{.inverse_mass = 1500});
    car.drive(0.0625f, light, flat(4));
    CHECK(reports.list.size() == VEHICLE_MOST_BODIES && reports.list.back().body == VEHICLE_MOST_BODIES - 1u);
    reports.list.clear();

    car.aim(Chassis::at_rest(0.25f, {}));
    std::vector<RayAnswer> answers = flat(4);
    answers[1] = RayAnswer::hit(0.75f, down);
    car.drive(0.0625f, {}, answers);
    CHECK(reports.are("part of the normal along the ray", "wheel 1: "));

    Vehicle copy = car;
    copy.set_controls(0, {.brake = 5000});
    CHECK(reports.are("brake", "wheel 0: brake 5000"));
    copy.strict({}).set_controls(0, {.brake = 5000});
    CHECK(reports.list.empty());

    // A report may end the mode that it is told by.
    Vehicle once = car;
    int told = 0;
    once.strict([&, text = std::string(64, 'x')](const Finding&) {
        once.strict({});
        told += text.size() == 64;
    });
    once.set_controls(0, {.engine = 90000, .brake = 5000});
    CHECK(told == 3);
    once.set_controls(0, {.engine = 90000, .brake = 5000});
    CHECK(told == 3);
}

// A car of 1200 kg on four wheels at its corners, half a metre above the ground that it stands on.
static RigidBody sound_body()
{
    return {
        .mass = 1200,
        .local_centre_of_mass = {0, -0.25f, 0},
        .local_inertia = box_inertia(1200, {4, 1, 2}),
        .position = {100, 0.5f, -40},
        .linear_velocity = {20, 0, 0},
    };
}

static void sound_car()
{
    Reports reports;
    Vehicle car = Vehicle().strict(reports.gather());
    for (const Vector& corner : {Vector{1.5f, 0, 1}, Vector{1.5f, 0, -1}, Vector{-1.5f, 0, 1}, Vector{-1.5f, 0, -1}}) {
        const Mount mount{.connection = corner, .direction = down, .axle = across, .rest_length = 0.3f, .radius = 0.3f};
        WheelSettings settings = mount.wheel();
        settings.stiffness = 30, settings.travel = 0.2f, settings.slip = 1;
        const uint32_t wheel = car.add_wheel(settings);
        car.set_controls(wheel, {.engine = 800, .brake = 0, .steering = Steering::angle(corner.x > 0 ? 0.2f : 0)});
    }
    Aimed aimed = car.aim(sound_body().chassis());
    std::vector<RayAnswer> answers;
    for (const Sight& sight : aimed.sights())
        answers.push_back(RayAnswer::at_distance(sight, sight.start.y, up, 0));
    RigidBody road{.mass = 50000, .local_inertia = box_inertia(50000, {30, 1, 30}), .position = {100, -0.5f, -40}};
    const Driven driven = aimed.drive(1.0f / 60, std::array{road.ground()}, answers);
    CHECK(driven.velocity().wake && driven.velocity().linear.y > 0 && driven.read(0).force > 0);
    CHECK(driven.read(3).settled.y > 0.19f && driven.read(3).settled.y < 0.31f);
    CHECK(reports.list.empty());
}

// ---- The makers ----

// A box of 1200 kg and 4 by 1 by 2 m has, with 1200 / 12 = 100, the inertia xx = 100 * (1 + 4) = 500,
// yy = 100 * (16 + 4) = 2000 and zz = 100 * (16 + 1) = 1700. A quarter turn about y takes x to -z and z to x. So in the
// world the inverse has xx = 1 / 1700, yy = 1 / 2000 and zz = 1 / 500, and the centre of mass (1, 0.5, 0.25) is at
// (0.25, 0.5, -1) from the position (10, 2, 3): at (10.25, 2.5, 2).
static void rigid_bodies()
{
    const float root = vehicle_root(0.5f);
    CHECK(box_inertia(1200, {4, 1, 2}) == Inertia{.xx = 500, .yy = 2000, .zz = 1700});
    const RigidBody body{
        .mass = 1200,
        .local_centre_of_mass = {1, 0.5f, 0.25f},
        .local_inertia = box_inertia(1200, {4, 1, 2}),
        .position = {10, 2, 3},
        .rotation = {0, root, 0, root},
        .linear_velocity = {4, 5, 6},
        .angular_velocity = {7, 8, 9},
        .locked = {false, true, false},
    };
    const Chassis chassis = body.chassis();
    CHECK(chassis.translation == body.position && chassis.rotation == body.rotation);
    CHECK(is_near(chassis.centre_of_mass, {10.25f, 2.5f, 2}));
    CHECK(chassis.linear_velocity == Vector{4, 5, 6} && chassis.angular_velocity == Vector{7, 8, 9});
    const float inverse_mass = chassis.inverse_mass;
    CHECK(is_near(inverse_mass, 1.0 / 1200));
    CHECK(chassis.effective_inverse_masses == Vector{inverse_mass, 0, inverse_mass});
    const Inertia& inverse = chassis.inverse_inertia;
    CHECK(is_near(inverse.xx, 1.0 / 1700) && is_near(inverse.yy, 1.0 / 2000) && is_near(inverse.zz, 1.0 / 500));
    CHECK(is_near(inverse.xy, 0) && is_near(inverse.xz, 0) && is_near(inverse.yz, 0));

    const GroundBody ground = body.ground();
    CHECK(ground.dynamic && ground.centre_of_mass == chassis.centre_of_mass && ground.inverse_inertia == inverse);
    CHECK(ground.linear_velocity == Vector{4, 5, 6} && ground.angular_velocity == Vector{7, 8, 9});
    CHECK(ground.inverse_mass == inverse_mass);

    Vehicle car;
    RigidBody weightless = body;
    weightless.mass = 0;
    CHECK(says(refused_by([&] { car.aim(weightless.chassis()); }), VEHICLE_BAD_NUMBER, "inverse_mass", "infinity"));
}

// A direction of length two is halved, and (0, 3, 4) has length 5.
static void mounts()
{
    const Mount mount{
        .connection = {1, 2, 3}, .direction = {0, -2, 0}, .axle = {0, 3, 4}, .rest_length = 0.5f, .radius = 0.25f};
    CHECK(mount.wheel() == WheelSettings{
                               .connection = {1, 2, 3},
                               .direction = {0, -1, 0},
                               .axle = {0, 0.6f, 0.8f},
                               .rest_length = 0.5f,
                               .radius = 0.25f,
                               .stiffness = 5.88f,
                               .compression = 0.83f,
                               .damping = 0.88f,
                               .travel = 5,
                               .side_stiffness = 1,
                               .slip = 10.5f,
                               .most_force = 6000,
                               .roll_influence = 0.1f,
                           });
}

// The ray (0, -2, 0) has length two.
static void distances()
{
    const Sight sight{.start = {1, 0, 1}, .ray = {0, -2, 0}};
    CHECK(RayAnswer::at_distance(sight, 1.5f, up) == RayAnswer::hit(0.75f, up));
    CHECK(RayAnswer::at_distance(sight, 1.5f, up, 7) == RayAnswer::hit(0.75f, up, 7));
    CHECK(RayAnswer::at_distance(sight, 2, up) == RayAnswer::hit(1, up));
    CHECK(RayAnswer::at_distance(sight, 2.5f, up, 7) == RayAnswer::nothing());
    CHECK(RayAnswer::at_distance(sight, std::nextafter(2.0f, 3.0f), up) == RayAnswer::nothing());
    CHECK(RayAnswer::at_distance(sight, infinity, up) == RayAnswer::nothing());

    Vehicle car = small_car();
    Aimed aimed = car.aim(moving({}));
    std::vector<RayAnswer> answers = flat(4);
    answers[1] = RayAnswer::at_distance(aimed.sights()[1], nan_number, up);
    CHECK(says(refused_by([&] { aimed.drive(0.5f, {}, answers); }), VEHICLE_BAD_LISTS, "hit time",
               "wheel 1: hit time NaN"));
}

static void arrays()
{
    const float three[3] = {1, 2, 3};
    const std::array<float, 4> four = {1, 2, 3, 4};
    CHECK(vector_of(three) == Vector{1, 2, 3} && array_of({1, 2, 3}) == std::array<float, 3>{1, 2, 3});
    CHECK(xyzw(four) == Rotation{.x = 1, .y = 2, .z = 3, .w = 4} && Rotation{} == Rotation{0, 0, 0, 1});
    CHECK(Controls{}.steering == Steering::rotation({}) && Steering::angle(0) != Steering{});
}

int main()
{
    frames();
    dead_tyre();
    steered();
    ground_bodies();
    empty_lists();
    refused_drive();
    wrong_moments();
    earlier_aims();
    named_fields();
    other_refusals();
    saved();
    damaged();
    copies();
    doubted_wheels();
    doubted_frames();
    sound_car();
    rigid_bodies();
    mounts();
    distances();
    arrays();
    std::printf("wrapper: %d checks hold\n", checks);
    return 0;
}
