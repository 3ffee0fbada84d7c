"""The days of the equinoxes in Japan, by Meeus, Astronomical Algorithms (2nd edition), chapter 27: an instant, and its day in Japan."""
import datetime
import math

# In days of dynamical time, by powers of thousands of years from 2000 on (table 27.B).
MEAN = {3: (2451623.80984, 365242.37404, 0.05169, -0.00411, -0.00057), 9: (2451810.21715, 365242.01767, -0.11575, 0.00337, 0.00078)}

# Amplitudes in hundred-thousandths of a day, angles in degrees, and degrees a century (table 27.C).
PERIODIC = ((485, 324.96, 1934.136), (203, 337.23, 32964.467), (199, 342.08, 20.186), (182, 27.85, 445267.112), (156, 73.14, 45036.886),
            (136, 171.52, 22518.443), (77, 222.54, 65928.934), (74, 296.72, 3034.906), (70, 243.58, 9037.513), (58, 119.81, 33718.147),
            (52, 297.17, 150.678), (50, 21.02, 2281.226), (45, 247.54, 29929.562), (44, 325.15, 31555.956), (29, 60.93, 4443.417),
            (18, 155.12, 67555.328), (17, 288.79, 4562.452), (16, 198.04, 62894.029), (14, 199.76, 31436.921), (12, 95.39, 14577.848),
            (12, 287.11, 31931.756), (12, 320.81, 34777.259), (9, 227.73, 1222.114), (8, 15.45, 16859.074))

# Universal time is behind dynamical time by a minute or so in these years, and Japan is nine hours before it.
JAPAN = 9 / 24 - 70 / 86_400

# The Julian day at the beginning of the day before 1 January of year 1, which is day 0.
JULIAN_DAYS = 1_721_424.5


def equinox_of_japan(year, month):
    """The date in Japan of the equinox in March or in September."""
    mean = sum(it * ((year - 2000) / 1000) ** power for power, it in enumerate(MEAN[month]))
    centuries = (mean - 2_451_545) / 36_525
    longitude = math.radians(35_999.373 * centuries - 2.47)
    speed = 1 + 0.0334 * math.cos(longitude) + 0.0007 * math.cos(2 * longitude)
    swings = sum(size * math.cos(math.radians(angle + turn * centuries)) for size, angle, turn in PERIODIC)
    return datetime.date.fromordinal(math.floor(mean + 0.00001 * swings / speed + JAPAN - JULIAN_DAYS))
