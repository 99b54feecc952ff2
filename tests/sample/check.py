#!/usr/bin/env python3
"""check.py KERNEL PROGRAM...: what PROGRAM (`ask`, the words that start it) answers about the sample kernel, held against what is published.

1. JPL's initial conditions of DE405 at JD 2440400.5, constants of the ephemeris's own header (au, au/day): planets
   and Sun about the barycenter of the solar system, the Moon about the Earth.
2. The Astronomical Almanac's low-precision formulas for the distance of the Sun (0.0003 au) and the Moon (0.2 Earth
   radii), which owe nothing to DE405, day by day over the kernel's span.
"""

import math
import os
import struct
import subprocess
import sys
import tempfile

AU, DAY, RADIUS = 149597870.691, 86400.0, 6378.14
EPOCH = 2440400.5
START, DAYS = 2440304.5, 192

INITIAL = {
    (1, 0): (0.3617627146035093, -0.09078196772958605, -0.08571498318176335, 0.00336749391398414, 0.024894520467648874, 0.012946300688650358),
    (2, 0): (0.612751941341838, -0.3483653684949682, -0.19527828898022992, 0.010952068361699194, 0.015617684365262055, 0.006331105553601057),
    (3, 0): (0.12051741729540039, -0.9258384789394528, -0.401540220801811, 0.016811268303992644, 0.0017483093133816164, 0.0007582028689905378),
    (4, 0): (-0.11018607428285881, -1.3275994561325557, -0.6058891326142037, 0.014481653059735103, 0.0002424631177602962, -0.00028152073424800533),
    (5, 0): (-5.379706898835912, -0.8304805814601515, -0.22482870022837284, 0.0010920115430088524, -0.006518116565792683, -0.0028207831653650475),
    (6, 0): (7.894392441979052, 4.596477801626945, 1.5586975735302668, -0.003217555239303309, 0.004335809858955276, 0.0019286465656538445),
    (7, 0): (-18.265398306822032, -1.1619445055181146, -0.25010348393737786, 0.00022118841741776543, -0.003762475932846577, -0.001651014703068002),
    (8, 0): (-16.05504258376823, -23.942181216178568, -9.40015672354883, 0.0026427710433669163, -0.0014983144553592097, -0.0006790419030179561),
    (9, 0): (-30.483319603999316, -0.8724783554957969, 8.911563040989932, 0.00032221044772358804, -0.0031435703021520205, -0.0010779488297393042),
    (301, 399): (-0.0008081773279114842, -0.0019946300016203994, -0.0010872626608381018, 0.0006010848166591299, -0.00016744546061515147, -8.556214497398616e-05),
    (10, 0): (0.0045025081562338936, 0.0007670747009323788, 0.00026605680517702713, -3.5174820964518867e-07, 5.17762539958483e-06, 2.229101854391665e-06),
}


def seconds(jd):
    """TDB seconds past J2000 of a Julian date."""
    return (jd - 2451545.0) * DAY


def ask(program, kernel, asked):
    """The six numbers of each question."""
    with tempfile.TemporaryDirectory() as folder:
        path = os.path.join(folder, "questions")
        with open(path, "wb") as f:
            for (target, center), jd in asked:
                f.write(b"\xa5\x5b" + struct.pack("<2id", target, center, seconds(jd)))
        lines = subprocess.run([*program, kernel, path], capture_output=True, text=True, check=True).stdout.split("\n")
    answers = [line.split(" ")[-6:] for line in lines if len(line.split(" ")) >= 8]
    if len(answers) != len(asked):
        raise SystemExit(f"{len(answers)} answers to {len(asked)} questions: {lines[0]}")
    return [[struct.unpack(">d", bytes.fromhex(word))[0] for word in six] for six in answers]


def sun_distance(jd):
    """Astronomical Almanac, page C5: the Sun's distance in au."""
    g = math.radians(357.528 + 0.9856003 * (jd - 2451545.0))
    return 1.00014 - 0.01671 * math.cos(g) - 0.00014 * math.cos(2 * g)


def moon_distance(jd):
    """Astronomical Almanac, page D22: the Moon's distance in Earth radii, from its parallax."""
    t = (jd - 2451545.0) / 36525.0
    terms = ((0.0518, 134.9, 477198.85), (0.0095, 259.2, -413335.38), (0.0078, 235.7, 890534.23), (0.0028, 269.9, 954397.70))
    parallax = 0.9508 + sum(a * math.cos(math.radians(b + c * t)) for a, b, c in terms)
    return 1.0 / math.sin(math.radians(parallax))


def initial_conditions(program, kernel):
    worst = 0.0
    states = ask(program, kernel, [(pair, EPOCH) for pair in INITIAL])
    print("JD 2440400.5, differences from JPL's initial conditions (km, km/s):")
    for (pair, published), six in zip(INITIAL.items(), states):
        scale = [AU] * 3 + [AU / DAY] * 3
        differences = [mine - p * s for mine, p, s in zip(six, published, scale)]
        print(f"  {pair[0]:3} about {pair[1]:3}: " + " ".join(f"{d:9.1e}" for d in differences))
        worst = max(worst, *map(abs, differences))
    return worst


def distances(program, kernel, pair, unit, formula):
    """The greatest difference over the span and the range of the distance, in the formula's unit."""
    days = [START + d for d in range(DAYS + 1)]
    mine = [math.dist(six[:3], (0, 0, 0)) / unit for six in ask(program, kernel, [(pair, jd) for jd in days])]
    return max(abs(m - formula(jd)) for m, jd in zip(mine, days)), min(mine) * unit, max(mine) * unit


def main():
    if len(sys.argv) < 3:
        sys.exit("usage: check.py KERNEL PROGRAM")
    kernel, program = sys.argv[1], sys.argv[2:]
    worst = initial_conditions(program, kernel)
    sun, near, far = distances(program, kernel, (399, 10), AU, sun_distance)
    print(f"Earth to Sun {near:.0f} to {far:.0f} km; from the Almanac's formula at most {sun:.6f} au")
    moon, low, high = distances(program, kernel, (301, 399), RADIUS, moon_distance)
    print(f"Earth to Moon {low:.0f} to {high:.0f} km; from the Almanac's formula at most {moon:.3f} Earth radii")
    good = worst < 2e-6 and sun < 0.0003 and moon < 0.25
    print("agrees" if good else "does NOT agree")
    sys.exit(0 if good else 1)


if __name__ == "__main__":
    main()
