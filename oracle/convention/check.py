"""Shows records to readers of the FITS SIP convention, and holds what they make of them.

The folder that the first word names has the frames that frames.c made. The a and b lines of each
record go into a FITS header as they stand, and two readers take it: astropy, which evaluates the
polynomial itself and leaves plate and sky to wcslib, and wcslib alone.

Held of every frame:
- Its record is of format 2.
- The stars in the corners lie nearer to the catalogue with the polynomial than without, and
  farther than without where all its signs are turned, as format 1 had them.
- Both readers take pixels to the sky as the convention's words do, to 1e-9 pixels: sky_of is
  these words in plain floats.
"""
import math
import pathlib
import re
import struct
import sys
from typing import NamedTuple

import astropy
import numpy
from astropy.io import fits
from astropy.wcs import WCS, Wcsprm, _wcs

LIMIT = 1e-9  # pixels
ORDERS, EACH = (2, 3, 4, 5), 6
GRID = 21  # pixels a side that the readers are asked for, beside the stars


class Wrong(Exception):
    """What is wrong with a frame."""


class Frame(NamedTuple):
    """A record, and where its stars are: pixels from zero, the rest in degrees."""

    record: dict
    side: float
    centre: list
    pixels: list
    places: list


class Found(NamedTuple):
    """Of a frame, in pixels: the corner stars off the catalogue, the readers off the words; and how
    many of these stars each sign takes the right way by itself."""

    without: float
    by: float
    turned: float
    astropy: float
    wcslib: float
    stars: int
    nearer: int
    farther: int


# ---- files


def float_of(digits):
    """The float of 16 hex digits."""
    return struct.unpack(">d", bytes.fromhex(digits))[0]


def read_record(text):
    """The numbers of a record by their names, and under "a" and "b" those of each term."""
    lines = text.splitlines()
    if lines[0] != "format=2":
        raise Wrong(f"its record begins with {lines[0]}")
    record = {"a": {}, "b": {}}
    for name, value in (line.split("=") for line in lines[1:]):
        term = re.fullmatch(r"([ab])_(\d)_(\d)", name)
        if name in ("rows", "order"):
            record[name] = int(value)
        elif term:
            record[term[1]][int(term[2]), int(term[3])] = float_of(value)
        else:
            record[name] = float_of(value)
    return record


def read_frame(folder, name):
    """The frame of a name."""
    record = read_record((folder / f"{name}.record").read_text())
    lines = [line.split("=") for line in (folder / f"{name}.stars").read_text().splitlines()]
    numbers = [(key, [float(number) for number in value.split(",")]) for key, value in lines]
    stars = [star for key, star in numbers if key == "star"]
    (side,), centre = dict(numbers)["side"], dict(numbers)["centre"]
    return Frame(record, side, centre, [s[:2] for s in stars], [s[2:] for s in stars])


# ---- the convention


def header_of(frame, sign=1.0):
    """The FITS header of a record. FITS counts pixels from one."""
    record = frame.record
    cards = {"CTYPE1": "'RA---TAN-SIP'", "CTYPE2": "'DEC--TAN-SIP'"}
    for i in (1, 2):
        cards[f"CRPIX{i}"] = record[f"crpix{i}"] + 1.0
        cards[f"CRVAL{i}"] = frame.centre[i - 1]
        cards |= {f"CD{i}_{j}": record[f"cd{i}_{j}"] for j in (1, 2)}
    for axis in "ab":
        cards[f"{axis.upper()}_ORDER"] = record["order"]
        for (p, q), number in record[axis].items():
            cards[f"{axis.upper()}_{p}_{q}"] = sign * number
    # as text, since astropy would round the numbers to 16 digits
    lines = [f"{key:<8}= {value}".replace("e", "E") for key, value in cards.items()]
    return fits.Header.fromstring("\n".join(lines), sep="\n")


def sky_of(frame, pixel):
    """Right ascension and declination of a pixel, by the convention's words."""
    record, (ra, dec) = frame.record, frame.centre
    u, v = pixel[0] - record["crpix1"], pixel[1] - record["crpix2"]
    f = u + sum(number * u**p * v**q for (p, q), number in record["a"].items())
    g = v + sum(number * u**p * v**q for (p, q), number in record["b"].items())
    xi = math.radians(record["cd1_1"] * f + record["cd1_2"] * g)
    eta = math.radians(record["cd2_1"] * f + record["cd2_2"] * g)
    sine, cosine = math.sin(math.radians(dec)), math.cos(math.radians(dec))
    outward, up = cosine - eta * sine, sine + eta * cosine
    return [
        ra + math.degrees(math.atan2(xi, outward)),
        math.degrees(math.atan2(up, math.hypot(xi, outward))),
    ]


# ---- what is found


def corner_stars(frame):
    """The pixels and the places of the stars in the outer tenth of both sides."""

    def at_edge(x):
        return min(abs(x), abs(frame.side - x)) <= frame.side / 10

    found = [s for s in zip(frame.pixels, frame.places) if at_edge(s[0][0]) and at_edge(s[0][1])]
    return [pixel for pixel, _ in found], [place for _, place in found]


def off_words(frame, pixels, skies):
    """The most that a reader is off the convention's words, in pixels."""
    cd = [[frame.record[f"cd{i}_{j}"] for j in (1, 2)] for i in (1, 2)]
    angles = []
    for pixel, (ra, dec) in zip(pixels, skies):
        # nearly equal numbers, which are subtracted exactly
        own_ra, own_dec = sky_of(frame, pixel)
        turn = math.remainder(ra - own_ra, 360.0) * math.cos(math.radians(dec))
        angles.append(math.hypot(turn, dec - own_dec))
    return numpy.max(angles) / math.sqrt(abs(numpy.linalg.det(cd)))


def look(frame):
    """What both readers make of a frame."""
    header = header_of(frame)
    plate, turned = WCS(header), WCS(header_of(frame, -1.0))
    alone = Wcsprm(header.tostring(endcard=False, padding=False).encode(), relax=True)
    pixels, places = corner_stars(frame)
    ideal = plate.wcs_world2pix(places, 0)

    def off_catalogue(skies):
        return numpy.linalg.norm(plate.wcs_world2pix(skies, 0) - ideal, axis=1)

    stars = [
        off_catalogue(plate.wcs_pix2world(pixels, 0)),
        off_catalogue(plate.all_pix2world(pixels, 0)),
        off_catalogue(turned.all_pix2world(pixels, 0)),
    ]
    steps = numpy.linspace(0.0, frame.side, GRID).tolist()
    grid = frame.pixels + [[x, y] for y in steps for x in steps]
    return Found(
        *(math.sqrt(numpy.mean(far * far)) for far in stars),
        off_words(frame, grid, plate.all_pix2world(grid, 0)),
        off_words(frame, grid, alone.p2s(grid, 0)["world"]),
        len(pixels),
        int(numpy.sum(stars[1] < stars[0])),
        int(numpy.sum(stars[2] > stars[0])),
    )


# ---- what is held


def check(name, frame, found):
    """Raises what is wrong with a frame. A NaN is wrong everywhere."""
    if not found.by < found.without:
        raise Wrong("its corners are no nearer with the polynomial than without")
    if not found.turned > found.without:
        raise Wrong("its corners are no farther with the signs of format 1 than without")
    for reader in ("astropy", "wcslib"):
        if not getattr(found, reader) <= LIMIT:
            raise Wrong(f"{reader} is {getattr(found, reader):.1e} pixels off the words")
    if name != "smallest":
        return
    # solved as 0.5, so that the pixel (2, 0) is two pixels off its ideal place, (0, 0)
    if (frame.record["a"], frame.record["b"]) != ({(2, 0): -0.5}, {}):
        raise Wrong("its record is not that of A_2_0 = -0.5 alone")
    if not numpy.max(numpy.abs(numpy.subtract(found[:3], (2.0, 0.0, 4.0)))) <= LIMIT:
        raise Wrong("the pixel (2, 0) is not off by 2, 0 and 4 pixels")


# ---- the table


def line(name, cells):
    """A line of the table."""
    return f"{name:8}" + "".join(f"{cell:>9}" for cell in cells)


def row(name, founds):
    """The line of some frames: medians, the worst ratios, and the most off the words."""
    middle, most = numpy.median(founds, axis=0), numpy.max(founds, axis=0)
    nearer = max(found.by / found.without for found in founds)
    farther = min(found.turned / found.without for found in founds)
    distances = [f"{number:.3f}" for number in (*middle[:3], nearer, farther)]
    return line(name, [len(founds), *distances, f"{most[3]:.1e}", f"{most[4]:.1e}"])


def stars_line(founds):
    """How the corner stars of all frames go one by one, of which nothing is held."""
    stars, nearer, farther = (sum(numbers) for numbers in list(zip(*founds))[5:])
    return f"of {stars} stars {nearer} nearer with, {farther} farther with the signs of format 1"


def main(folder):
    """Prints the table and what is wrong; true where something is."""
    print(f"astropy {astropy.__version__}, wcslib {_wcs.__version__}")
    print("pixels, corner stars: medians of the frames, worst ratios, the most off the words")
    print(f"{'off the catalogue':>44}{'of that without':>18}{'off the words':>18}")
    kinds = ("without", "with", "format 1", "with", "format 1", "astropy", "wcslib")
    print(line("", ("frames", *kinds)))
    groups = {"smallest": ["smallest"]}
    for order in ORDERS:
        groups[f"order {order}"] = [f"order_{order}_{i}" for i in range(1, EACH + 1)]
    wrong, every = [], []
    for title, names in groups.items():
        founds = []
        for name in names:
            try:
                frame = read_frame(folder, name)
                founds.append(look(frame))
                check(name, frame, founds[-1])
            except Wrong as what:
                wrong.append(f"{name}: {what}")
        every += founds
        if founds:
            print(row(title, founds))
    if every:
        print(stars_line(every))
    for what in wrong:
        print(what)
    print(f"failed: {len(wrong)} frames" if wrong else "passed")
    return bool(wrong)


if __name__ == "__main__":
    sys.exit(main(pathlib.Path(sys.argv[1])))
