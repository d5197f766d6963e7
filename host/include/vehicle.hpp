// The vehicle controller in C++20: typed calls over vehicle.h and vehicle_help.h, all of it in this header.
//
// Link with libvehicle_help.a, and behind it libvehicle_controller.a. What each call means and refuses stands in
// vehicle.h, what each number means in docs/NUMBERS.md.
//
// A frame is a chain: Vehicle::aim gives an Aimed with the rays to cast, its drive a Driven, whose wheels can be read.
//
//     vehicle::Vehicle car;
//     const uint32_t wheel = car.add_wheel(mount.wheel());
//     car.set_controls(wheel, {.engine = 500, .steering = vehicle::Steering::angle(0.3f)});
//     vehicle::Aimed aimed = car.aim(body.chassis());
//     for (const vehicle::Sight& sight : aimed.sights())
//         answers.push_back(cast(sight));
//     const vehicle::Driven driven = aimed.drive(1.0f / 60, bodies, answers);
//     draw(driven.read(wheel).settled);
//
// A refused call throws Refused, which says which number broke which bound, and has changed nothing: it can be
// corrected and made again.
//
// What C++ cannot hold at compile time: an Aimed or a Driven refers to its vehicle, which has to outlive it and to stay
// where it is in memory. One that is kept after another call on the vehicle is answered by refusal 5 at run time, where
// that call took its moment away: controls or a wheel before an Aimed drives, a drive before it drives again, a wheel
// before a Driven is read. One of an earlier aim throws a std::logic_error.
//
// About numbers: the library and libvehicle_help.a give the same bits whatever the host is compiled with, as long as the
// processor is in its usual floating-point mode (vehicle.h), and this header does no arithmetic. The host's own arithmetic, as moving the chassis or casting rays, may differ in the last
// bits between compilers and flags: GCC fuses a*b+c into one rounding by default where the target has such an
// instruction (-march=haswell or -march=native, Arm), Clang too within an expression. So a host that compares its
// numbers compiles itself with -ffp-contract=off and without -ffast-math.
#ifndef VEHICLE_HPP
#define VEHICLE_HPP

#include <algorithm>
#include <array>
#include <atomic>
#include <bit>
#include <cstddef>
#include <cstdint>
#include <functional>
#include <optional>
#include <span>
#include <stdexcept>
#include <string>
#include <string_view>
#include <tuple>
#include <type_traits>
#include <utility>
#include <vector>

#include "vehicle.h"
#include "vehicle_help.h"

namespace vehicle {

// ---- What a host hands in and gets back. ----
//
// Where a struct has a list in vehicle.h or vehicle_help.h, its fields stand in the order of the list, so that the one
// can be cast to the other.

struct Vector {
    float x = 0;
    float y = 0;
    float z = 0;

    bool operator==(const Vector&) const = default;
};

// A quaternion of unit length; by itself the one that turns nothing.
struct Rotation {
    float x = 0;
    float y = 0;
    float z = 0;
    float w = 1;

    bool operator==(const Rotation&) const = default;
};

// The six numbers of a symmetric array of three by three: an inertia, or the inverse of one.
struct Inertia {
    float xx = 0;
    float xy = 0;
    float xz = 0;
    float yy = 0;
    float yz = 0;
    float zz = 0;

    bool operator==(const Inertia&) const = default;
};

// An axis of the chassis.
enum class Axis : uint32_t { x = 0, y = 1, z = 2 };

// What a wheel is made of; connection, direction and axle are relative to the chassis. Mount::wheel gives one with the
// Rust source's tuning, where this has zeros.
struct WheelSettings {
    Vector connection{}; // where the suspension is fixed to the chassis
    Vector direction{};  // where the suspension points: down, of length one
    Vector axle{};       // of length one
    float rest_length = 0;
    float radius = 0; // above 0
    float stiffness = 0;
    float compression = 0; // the suspension's damping while it is compressed
    float damping = 0;     // the suspension's damping while it is released
    float travel = 0;      // how far it can be pressed below its rest length
    float side_stiffness = 0;
    float slip = 0; // how much grip the tyre has
    float most_force = 0;
    float roll_influence = VEHICLE_ROLL_INFLUENCE; // how much a push sideways leans the chassis, from 0 to 1

    bool operator==(const WheelSettings&) const = default;
};

// A wheel's place on the chassis: direction and axle may have any length but zero.
struct Mount {
    Vector connection{};
    Vector direction{};
    Vector axle{};
    float rest_length = 0;
    float radius = 0;

    // The settings of a wheel here, with the Rust source's tuning; direction and axle are made unit length.
    WheelSettings wheel() const;

    bool operator==(const Mount&) const = default;
};

// How a wheel is steered; by itself straight on, by the rotation that turns nothing however the chassis stands.
struct Steering {
    bool by_angle = false;
    float radians = 0; // where it is by an angle
    Rotation turn{};   // where it is not

    // By an angle from -2 to 2, with which the wheel stays steered when the chassis turns. Above 0 is to the left where
    // the suspension points down.
    static Steering angle(float radians)
    {
        return {.by_angle = true, .radians = radians};
    }

    // By a rotation in world space, which has to be set anew before the aim when the chassis has turned.
    static Steering rotation(const Rotation& turn)
    {
        return {.turn = turn};
    }

    bool operator==(const Steering&) const = default;
};

// What drives, brakes and steers one wheel.
struct Controls {
    float engine = 0; // a force; above 0 drives forward
    float brake = 0;  // the greatest impulse in a step, at least 0
    Steering steering{};

    bool operator==(const Controls&) const = default;
};

// The chassis at the start of a frame, all in world space.
struct Chassis {
    Vector translation{};
    Rotation rotation{};
    Vector centre_of_mass{};
    Vector linear_velocity{};
    Vector angular_velocity{};
    float inverse_mass = 0;            // from 2^-20 to 2^20
    Vector effective_inverse_masses{}; // the inverse mass along each axis, or 0 where the chassis is locked
    Inertia inverse_inertia{};

    // One that stands still at the origin, free to move.
    static Chassis at_rest(float inverse_mass, const Inertia& inverse_inertia)
    {
        return {
            .inverse_mass = inverse_mass,
            .effective_inverse_masses = {inverse_mass, inverse_mass, inverse_mass},
            .inverse_inertia = inverse_inertia,
        };
    }

    bool operator==(const Chassis&) const = default;
};

// A body that a wheel may stand on, in world space.
struct GroundBody {
    Vector centre_of_mass{};
    Vector linear_velocity{};
    Vector angular_velocity{};
    float inverse_mass = 0; // at least 0
    Inertia inverse_inertia{};
    bool dynamic = false;

    bool operator==(const GroundBody&) const = default;
};

// A rigid body as a physics engine has it, in SI units: the chassis and the ground are made of it.
struct RigidBody {
    float mass = 0;
    Vector local_centre_of_mass{}; // from the position, along the body's own axes
    Inertia local_inertia{};       // about the centre of mass, along the body's own axes
    Vector position{};
    Rotation rotation{};
    Vector linear_velocity{}; // of the centre of mass
    Vector angular_velocity{};
    std::array<bool, 3> locked{}; // where it cannot move along this axis of the world

    Chassis chassis() const;

    // A dynamic body. One that never gives way is written as a GroundBody, with its velocities and zeros elsewhere.
    GroundBody ground() const;

    bool operator==(const RigidBody&) const = default;
};

// The ray of one wheel, in world space: at time 1 it is at start + ray.
struct Sight {
    Vector start{};
    Vector ray{};

    bool operator==(const Sight&) const = default;
};

// What a wheel's ray met. A body is named by its place, from 0, among the bodies of the same drive. A normal has length
// one; only that of a hit at time 0 may be zero, where the ray starts inside a shape.
struct RayAnswer {
    enum class Kind : uint32_t { nothing = VEHICLE_NOTHING, hit = VEHICLE_HIT, hit_up = VEHICLE_HIT_UP };

    Kind kind = Kind::nothing;
    float time = 0; // the fraction of the ray, from 0 to 1
    Vector normal{};
    Vector upward{};
    std::optional<uint32_t> body{};

    static RayAnswer nothing()
    {
        return {};
    }

    static RayAnswer hit(float time, const Vector& normal, std::optional<uint32_t> body = {})
    {
        return {.kind = Kind::hit, .time = time, .normal = normal, .body = body};
    }

    // With the normal that the same ray meets when it is cast upward from its end against the same shape: it is used
    // where the time is 0.
    static RayAnswer hit_up(float time, const Vector& normal, const Vector& upward, std::optional<uint32_t> body = {})
    {
        return {.kind = Kind::hit_up, .time = time, .normal = normal, .upward = upward, .body = body};
    }

    // For a cast that gives a distance in metres: nothing where that is beyond the end of the sight's ray.
    static RayAnswer at_distance(const Sight& sight, float distance, const Vector& normal,
                                 std::optional<uint32_t> body = {});

    bool operator==(const RayAnswer&) const = default;
};

// What a drive gives: the chassis' new velocities, and whether it is to be woken.
struct Velocity {
    Vector linear{};
    Vector angular{};
    bool wake = false;

    bool operator==(const Velocity&) const = default;
};

// One wheel after a drive.
struct Reading {
    Vector centre{};         // the Rust source's, to be compared with it: drawn, it is a frame late
    Vector direction{};      // in world space
    Vector axle{};           // in world space
    float length = 0;        // of the suspension
    float force = 0;         // of the suspension
    float forward = 0;       // the tyre's impulse along its rolling direction
    float side = 0;          // the tyre's impulse along its axis
    float skid = 0;          // 1 where the tyre grips, below 1 where it slides
    float rotation = 0;      // how far it has rolled, in radians, above 0 forward
    Vector settled{};        // where the tyre is drawn
    bool no_axis = false;    // the axle has no direction on the ground: a dead tyre
    bool no_forward = false; // the tyre has no rolling direction

    bool operator==(const Reading&) const = default;
};

// A number that broke a bound, or that was accepted and is hardly meant.
struct Finding {
    std::optional<uint32_t> wheel{}; // the wheel that it is of
    std::optional<uint32_t> body{};  // the ground body that it is of, by its place in the list
    std::string_view field{};
    double value = 0;
    std::string bound{};     // what holds for it
    const char* advice = ""; // what to do at this call
    std::string words{};     // all of this in words
};

// ---- From the structs to the lists, and back. ----

namespace detail {

// A list of numbers with flags behind it, as a ground body, a velocity and a reading are laid out.
template <std::size_t Numbers, std::size_t Flags>
struct Flagged {
    std::array<float, Numbers> numbers{};
    std::array<bool, Flags> flags{};
};

using FlaggedBody = Flagged<VEHICLE_BODY_LEN, 1>;

// Where the axes stand among the whole numbers.
inline constexpr std::size_t up_place = 2;
inline constexpr std::size_t forward_place = 3;

// The struct of a call's results, the last of which are 1 or 0 for flags.
template <typename Struct, std::size_t Flags, std::size_t Len>
Struct from_results(const std::array<float, Len>& results)
{
    Flagged<Len - Flags, Flags> flagged;
    std::copy_n(results.begin(), Len - Flags, flagged.numbers.begin());
    std::transform(results.end() - Flags, results.end(), flagged.flags.begin(), [](float flag) { return flag == 1; });
    return std::bit_cast<Struct>(flagged);
}

template <typename Struct, std::size_t Len>
void put(const Struct& from, float (&to)[Len])
{
    const auto numbers = std::bit_cast<std::array<float, Len>>(from);
    std::copy(numbers.begin(), numbers.end(), to);
}

inline vehicle_rigid_body rigid_body_of(const RigidBody& from)
{
    vehicle_rigid_body to{};
    to.mass = from.mass;
    put(from.local_centre_of_mass, to.local_centre_of_mass);
    put(from.local_inertia, to.local_inertia);
    put(from.position, to.position);
    put(from.rotation, to.rotation);
    put(from.linear_velocity, to.linear_velocity);
    put(from.angular_velocity, to.angular_velocity);
    std::copy(from.locked.begin(), from.locked.end(), to.locked);
    return to;
}

// The lists of a drive.
struct Lists {
    std::vector<float> bodies, rays;
    std::vector<uint32_t> dynamic, kinds, named;

    Lists(std::span<const GroundBody> ground, std::span<const RayAnswer> answers)
    {
        for (const GroundBody& body : ground)
            add(body);
        for (const RayAnswer& answer : answers)
            add(answer);
    }

    void add(const GroundBody& body)
    {
        const auto flagged = std::bit_cast<FlaggedBody>(body);
        bodies.insert(bodies.end(), flagged.numbers.begin(), flagged.numbers.end());
        dynamic.push_back(flagged.flags[0]);
    }

    void add(const RayAnswer& answer)
    {
        struct Ray {
            float time;
            Vector normal, upward;
        };
        const Ray ray{answer.time, answer.normal, answer.upward};
        const auto numbers = std::bit_cast<std::array<float, VEHICLE_RAY_LEN>>(ray);
        rays.insert(rays.end(), numbers.begin(), numbers.end());
        kinds.push_back(static_cast<uint32_t>(answer.kind));
        // One more than the place; the last place there is would come round to 0, no body, and stays beyond every list.
        named.push_back(answer.body ? std::max(*answer.body, *answer.body + 1) : 0);
    }
};

// Where a list starts: never null, as the C calls ask for, though data() of an empty one may be.
template <typename List>
auto start_of(List& list)
{
    static std::remove_const_t<typename List::value_type> none{};
    return list.empty() ? &none : list.data();
}

// What a C call takes for it: a number as it is, a list as its start and its length.
template <typename Handed>
auto spread(Handed& handed)
{
    if constexpr (std::is_arithmetic_v<Handed>)
        return std::make_tuple(handed);
    else
        return std::make_tuple(start_of(handed), handed.size());
}

// A number for each accepted aim of the program, so that a vehicle that was put back to an earlier state has no aim twice.
inline uint64_t next_frame()
{
    static std::atomic<uint64_t> last{0};
    return ++last;
}

inline std::optional<uint32_t> unless_none(int32_t number)
{
    return number == VEHICLE_NONE ? std::nullopt : std::optional(static_cast<uint32_t>(number));
}

inline Finding finding_of(const vehicle_finding& from)
{
    std::array<char, VEHICLE_WORDS_LEN> words{};
    vehicle_words(&from, words.data(), words.size());
    return {
        .wheel = unless_none(from.wheel),
        .body = unless_none(from.body),
        .field = from.field,
        .value = from.value,
        .bound = from.bound,
        .advice = from.advice,
        .words = words.data(),
    };
}

} // namespace detail

inline Vector vector_of(std::span<const float, 3> numbers)
{
    return {numbers[0], numbers[1], numbers[2]};
}

// The name is the order: many libraries have w first.
inline Rotation xyzw(std::span<const float, 4> numbers)
{
    return {numbers[0], numbers[1], numbers[2], numbers[3]};
}

inline std::array<float, 3> array_of(const Vector& vector)
{
    return {vector.x, vector.y, vector.z};
}

// The inertia of a solid box of this size along its own axes.
inline Inertia box_inertia(float mass, const Vector& size)
{
    std::array<float, 6> inertia{};
    vehicle_make_box_inertia(mass, array_of(size).data(), inertia.data());
    return std::bit_cast<Inertia>(inertia);
}

inline WheelSettings Mount::wheel() const
{
    const auto of = std::bit_cast<vehicle_mount>(*this);
    std::array<float, VEHICLE_SETTINGS_LEN> settings{};
    vehicle_make_wheel(&of, settings.data());
    return std::bit_cast<WheelSettings>(settings);
}

inline Chassis RigidBody::chassis() const
{
    const vehicle_rigid_body of = detail::rigid_body_of(*this);
    std::array<float, VEHICLE_CHASSIS_LEN> chassis{};
    vehicle_make_chassis(&of, chassis.data());
    return std::bit_cast<Chassis>(chassis);
}

inline GroundBody RigidBody::ground() const
{
    const vehicle_rigid_body of = detail::rigid_body_of(*this);
    detail::FlaggedBody body{.flags = {true}};
    vehicle_make_ground(&of, body.numbers.data());
    return std::bit_cast<GroundBody>(body);
}

inline RayAnswer RayAnswer::at_distance(const Sight& sight, float distance, const Vector& normal,
                                        std::optional<uint32_t> body)
{
    const float time = vehicle_make_time(array_of(sight.ray).data(), distance);
    return time > 1 ? nothing() : hit(time, normal, body);
}

// ---- Refusals. ----

// A call that was refused, and has changed nothing.
class Refused : public std::runtime_error {
public:
    Refused(uint32_t number, std::optional<Finding> finding)
        : std::runtime_error("refused (" + std::to_string(number) + ")" + (finding ? ": " + finding->words : "")),
          number_(number), finding_(std::move(finding))
    {
    }

    // Which refusal of vehicle.h it is, as VEHICLE_BAD_LISTS.
    uint32_t number() const
    {
        return number_;
    }

    // The first number found that explains it.
    const std::optional<Finding>& finding() const
    {
        return finding_;
    }

private:
    uint32_t number_;
    std::optional<Finding> finding_;
};

namespace detail {

// Makes a call, and where it is refused throws its explanation, which takes the same arguments.
template <typename Call, typename Explain, typename... Handed>
void ask(Call call, Explain explain, Handed&... handed)
{
    const auto arguments = std::tuple_cat(spread(handed)...);
    const uint32_t answer = std::apply(call, arguments);
    if (answer == VEHICLE_ACCEPTED)
        return;
    const vehicle_finding why = std::apply(explain, std::tuple_cat(std::make_tuple(answer), arguments));
    throw Refused(answer, why.field ? std::optional(finding_of(why)) : std::nullopt);
}

} // namespace detail

// ---- The calls. ----

class Aimed;

// A vehicle, always set up. A copy is a second vehicle in the same state.
class Vehicle {
public:
    // One with no wheels; the axes are those of the chassis.
    explicit Vehicle(Axis up = Axis::y, Axis forward = Axis::x)
    {
        const auto up_number = static_cast<uint32_t>(up), forward_number = static_cast<uint32_t>(forward);
        detail::ask(vehicle_set_up, vehicle_explain_set_up, table_, whole_, up_number, forward_number);
    }

    uint32_t wheel_count() const
    {
        return vehicle_wheel_count(whole_.data());
    }

    // Gives the wheel's number: they count from 0.
    uint32_t add_wheel(const WheelSettings& wheel)
    {
        const auto settings = std::bit_cast<std::array<float, VEHICLE_SETTINGS_LEN>>(wheel);
        detail::ask(vehicle_add_wheel, vehicle_explain_add_wheel, table_, whole_, settings);
        doubt(vehicle_doubts_add_wheel, whole_.data(), settings.data());
        return wheel_count() - 1;
    }

    // They stay until they are set again.
    void set_controls(uint32_t wheel, const Controls& controls);

    // Takes the chassis, and gives the rays that are to be cast.
    Aimed aim(const Chassis& chassis) &;

    // The plain calls, for a host that cannot hold an Aimed or a Driven from one part of its frame to the next. At a
    // wrong moment they are refused with 5.

    Velocity drive(float dt, std::span<const GroundBody> bodies, std::span<const RayAnswer> answers)
    {
        const detail::Lists lists(bodies, answers);
        std::array<float, VEHICLE_DRIVE_LEN> results{};
        detail::ask(vehicle_drive, vehicle_explain_drive, table_, whole_, dt, lists.bodies, lists.dynamic, lists.kinds,
                    lists.named, lists.rays, results);
        doubt(vehicle_doubts_drive, table_.data(), dt, detail::start_of(lists.bodies), lists.bodies.size(),
              detail::start_of(lists.kinds), lists.kinds.size(), detail::start_of(lists.rays), lists.rays.size());
        return detail::from_results<Velocity, 1>(results);
    }

    Reading read_wheel(uint32_t wheel) const
    {
        std::array<float, VEHICLE_READ_LEN> results{};
        detail::ask(vehicle_read_wheel, vehicle_explain_read_wheel, table_, whole_, wheel, results);
        return detail::from_results<Reading, 2>(results);
    }

    // The strict mode: from now on each accepted call reports what is hardly meant of what it was handed, and this one
    // that of the axes. What the report throws comes out of a call that has been made. An empty function ends the mode.
    Vehicle& strict(std::function<void(const Finding&)> report) &
    {
        report_ = std::move(report);
        doubt(vehicle_doubts_set_up, whole_[detail::up_place], whole_[detail::forward_place]);
        return *this;
    }

    Vehicle strict(std::function<void(const Finding&)> report) &&
    {
        strict(std::move(report));
        return std::move(*this);
    }

    // The vehicle as bytes, the same on every machine; the strict mode is not among them.
    std::vector<uint8_t> save() const
    {
        std::vector<uint8_t> bytes(VEHICLE_SAVED_LEN);
        vehicle_save(table_.data(), whole_.data(), bytes.data());
        return bytes;
    }

    // The vehicle that was saved, at the same moment: one that was aimed can be driven. Throws std::invalid_argument,
    // which says why, where the bytes are not what save gave.
    static Vehicle restore(std::span<const uint8_t> bytes)
    {
        Vehicle vehicle;
        const char* why =
            vehicle_restore(detail::start_of(bytes), bytes.size(), vehicle.table_.data(), vehicle.whole_.data());
        if (why)
            throw std::invalid_argument(why);
        return vehicle;
    }

private:
    // Reports, in the strict mode, all that one of the vehicle_doubts_... finds: asked for none it gives how many.
    template <typename Look, typename... Handed>
    void doubt(Look look, Handed... handed) const
    {
        if (!report_)
            return;
        std::vector<vehicle_finding> doubts(look(handed..., nullptr, 0));
        look(handed..., doubts.data(), doubts.size());
        const auto report = report_; // what it does may be to end the mode
        for (const vehicle_finding& one : doubts)
            report(detail::finding_of(one));
    }

    // Holds an Aimed or a Driven to the aim that it is of.
    void expect(uint64_t frame) const
    {
        if (frame != frame_)
            throw std::logic_error("this is of an earlier aim of the vehicle: its rays and its wheels are gone");
    }

    friend class Aimed;
    friend class Driven;
    std::array<float, VEHICLE_TABLE_LEN> table_{};
    std::array<uint32_t, VEHICLE_WHOLE_LEN> whole_{};
    uint64_t frame_ = 0; // the last accepted aim
    std::function<void(const Finding&)> report_;
};

// A vehicle that was driven; one comes from Aimed::drive alone.
class Driven {
public:
    const Velocity& velocity() const&
    {
        return velocity_;
    }

    // A value where the Driven itself is about to go.
    Velocity velocity() const&&
    {
        return velocity_;
    }

    // The tyre is drawn at its settled.
    Reading read(uint32_t wheel) const
    {
        vehicle_->expect(frame_);
        return vehicle_->read_wheel(wheel);
    }

private:
    friend class Aimed;
    Driven(const Vehicle& vehicle, const Velocity& velocity)
        : vehicle_(&vehicle), frame_(vehicle.frame_), velocity_(velocity)
    {
    }

    const Vehicle* vehicle_;
    uint64_t frame_;
    Velocity velocity_;
};

// A vehicle that was aimed; one comes from Vehicle::aim alone.
class Aimed {
public:
    // Negative if the vehicle moves backwards.
    float speed() const
    {
        return results_.speed;
    }

    // The ray of each wheel, in the wheels' order: cast it up to time 1.
    std::span<const Sight> sights() const&
    {
        return std::span(results_.sights).first(count_);
    }

    // The rays are kept in the Aimed: those of one that is about to go would be gone when they are cast.
    std::span<const Sight> sights() const&& = delete;

    // Drives by one step of dt seconds, with one answer for each sight. After a refusal the Aimed can still be driven.
    Driven drive(float dt, std::span<const GroundBody> bodies, std::span<const RayAnswer> answers)
    {
        vehicle_->expect(frame_);
        return Driven(*vehicle_, vehicle_->drive(dt, bodies, answers));
    }

private:
    friend class Vehicle;
    Aimed(Vehicle& vehicle, const std::array<float, VEHICLE_AIM_LEN>& results)
        : vehicle_(&vehicle), frame_(vehicle.frame_), count_(vehicle.wheel_count()),
          results_(std::bit_cast<Results>(results))
    {
    }

    struct Results {
        float speed;
        std::array<Sight, VEHICLE_MOST_WHEELS> sights;
    };

    Vehicle* vehicle_;
    uint64_t frame_;
    uint32_t count_;
    Results results_;
};

inline void Vehicle::set_controls(uint32_t wheel, const Controls& controls)
{
    const auto set = [this, wheel](auto call, auto explain, auto look, const auto& numbers) {
        detail::ask(call, explain, table_, whole_, wheel, numbers);
        doubt(look, whole_.data(), wheel, numbers.data());
    };
    const auto& [x, y, z, w] = controls.steering.turn;
    if (controls.steering.by_angle)
        set(vehicle_set_controls_by_angle, vehicle_explain_set_controls_by_angle, vehicle_doubts_set_controls_by_angle,
            std::array{controls.engine, controls.brake, controls.steering.radians});
    else
        set(vehicle_set_controls, vehicle_explain_set_controls, vehicle_doubts_set_controls,
            std::array{controls.engine, controls.brake, x, y, z, w});
}

inline Aimed Vehicle::aim(const Chassis& chassis) &
{
    const auto numbers = std::bit_cast<std::array<float, VEHICLE_CHASSIS_LEN>>(chassis);
    std::array<float, VEHICLE_AIM_LEN> results{};
    detail::ask(vehicle_aim, vehicle_explain_aim, table_, whole_, numbers, results);
    frame_ = detail::next_frame();
    doubt(vehicle_doubts_aim, whole_.data(), numbers.data());
    return Aimed(*this, results);
}

} // namespace vehicle

#endif
