"""A car that drives forward, steers left and stops, in Python over the C calls: python3 car.py vehicle_controller.so"""
import math, struct, sys
from ctypes import CDLL, Structure, byref, c_char, c_char_p, c_double, c_float, c_int32, c_size_t, c_uint32, create_string_buffer
lib = CDLL(sys.argv[1])

class Finding(Structure):
    _fields_ = [("refusal", c_uint32), ("wheel", c_int32), ("body", c_int32), ("field", c_char_p), ("value", c_double), ("bound", c_char * 128), ("advice", c_char_p)]

class RigidBody(Structure):
    _fields_ = [("mass", c_float), ("local_centre_of_mass", c_float * 3), ("local_inertia", c_float * 6), ("position", c_float * 3), ("rotation", c_float * 4),
                ("linear_velocity", c_float * 3), ("angular_velocity", c_float * 3), ("locked", c_uint32 * 3)]

def floats(*numbers): return (c_float * len(numbers))(*numbers)
def wholes(*numbers): return (c_uint32 * len(numbers))(*numbers)

table, whole = floats(*[0] * lib.vehicle_table_len()), wholes(0, 0, 0, 0)

def call(name, *handed):
    """Makes a call; an array goes with its length. What is refused is raised, in words."""
    flat = [part for x in (table, whole, *handed) for part in ((x, c_size_t(len(x))) if hasattr(x, "__len__") else (x,))]
    if answer := getattr(lib, "vehicle_" + name)(*flat):
        explain, text = getattr(lib, "vehicle_explain_" + name), create_string_buffer(640)
        explain.restype = Finding
        lib.vehicle_words(byref(explain(answer, *flat)), text, c_size_t(len(text)))
        raise ValueError(f"refused ({answer}): {text.value.decode()}")

DT, GRAVITY, MASS = 1 / 60, 9.81, 1200
call("set_up", 1, 0)
for x, z in [(1.25, 0.75), (1.25, -0.75), (-1.25, 0.75), (-1.25, -0.75)]:
    mount = (x, -0.1, z, 0, -1, 0, 0, 0, 1, 0.3, 0.3)  # connection, direction, axle, rest length, radius
    call("add_wheel", floats(*mount, 30, 2.2, 2.7, 0.2, 1, 1, 6000, 0.1))
inertia = floats(*[0] * 6)
lib.vehicle_make_box_inertia(c_float(MASS), floats(4, 1.2, 1.8), inertia)
p, q, v, w = [0, 0.61, 0], [0, 0, 0, 1], [0, 0, 0], [0, 0, 0]
for frame in range(1, 361):
    engine, brake = (1000, 0) if frame <= 240 else (0, 30)
    angle = 0.1 if 120 < frame <= 240 else 0
    for wheel in range(4):
        call("set_controls_by_angle", wheel, floats(0, brake, angle) if wheel < 2 else floats(engine, brake, 0))
    body = RigidBody(MASS, floats(0, 0, 0), inertia, floats(*p), floats(*q), floats(*v), floats(*w))
    chassis, sights, moved, tyre = (floats(*[0] * size) for size in (26, 97, 7, 20))
    lib.vehicle_make_chassis(byref(body), chassis)
    call("aim", chassis, sights)
    times = [max(sights[2 + 6 * wheel] / -sights[5 + 6 * wheel], 0) for wheel in range(4)]  # flat ground at height 0
    rays = floats(*(number for time in times for number in (time, 0, 1, 0, 0, 0, 0)))
    call("drive", c_float(DT), floats(), wholes(), wholes(*(time <= 1 for time in times)), wholes(0, 0, 0, 0), rays, moved)
    call("read_wheel", 0, tyre)
    v, w = moved[0:3], moved[3:6]
    v[1] -= GRAVITY * DT  # the host's own step: gravity, then the new place
    p = [p[i] + v[i] * DT for i in range(3)]
    (a, b, c), (x, y, z, s) = w, q
    turn = [a * s + b * z - c * y, b * s + c * x - a * z, c * s + a * y - b * x, -(a * x + b * y + c * z)]
    q = [q[i] + 0.5 * DT * turn[i] for i in range(4)]
    size = math.sqrt(q[0] * q[0] + q[1] * q[1] + q[2] * q[2] + q[3] * q[3])
    q = [part / size for part in q]
    if frame % 20 == 0:
        bits = struct.pack(">9f", *moved[0:6], *tyre[15:18]).hex()
        print(f"frame {frame}: at ({p[0]:.3f}, {p[1]:.3f}, {p[2]:.3f}), speed {sights[0]:.3f}, tyre 0 at height {tyre[16]:.3f} {bits}")
