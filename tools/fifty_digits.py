"""Vectors with 50 digits, for the measurements beside."""
from decimal import Decimal, getcontext

getcontext().prec = 50
PI = Decimal("3.14159265358979323846264338327950288419716939937511")


def sin_cos(angle):
    """Taylor's series, of an angle below 7."""
    term, n, sums = Decimal(1), 0, [Decimal(0), Decimal(0), Decimal(0), Decimal(0)]
    while abs(term) > Decimal(10) ** -48 or n < 10:
        sums[n % 4] += term
        n += 1
        term *= angle / n
    return sums[1] - sums[3], sums[0] - sums[2]


def vector(lon, lat):
    (sin_lon, cos_lon), (sin_lat, cos_lat) = sin_cos(Decimal(lon)), sin_cos(Decimal(lat))
    return (cos_lat * cos_lon, cos_lat * sin_lon, sin_lat)


def dot(a, b):
    return sum(x * y for x, y in zip(a, b))


def cross(a, b):
    return (a[1] * b[2] - a[2] * b[1], a[2] * b[0] - a[0] * b[2], a[0] * b[1] - a[1] * b[0])


def at_height(normal, z):
    """The two points with the height z on the great circle with this normal, which may have any length."""
    x0, y0, z0 = normal
    squares = x0 * x0 + y0 * y0
    root = (squares * (1 - z * z) - (z * z0) ** 2).sqrt()
    return [((-z * z0 * x0 + r * y0) / squares, (-z * z0 * y0 - r * x0) / squares, z) for r in (root, -root)]
