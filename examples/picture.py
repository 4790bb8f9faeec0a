#!/usr/bin/env python3
"""Makes the picture of README: a field of sea surface temperatures that looks like one, and what a query over it answers.

    python3 picture.py PROGRAM PICTURE.png

The field is made of waves and of noise with a fixed seed, in tenths of a degree, with -9999 on land; a file of it is written by ncgen.
The query takes the mean of each row over the sea, and prints each cell's difference from it. Wants matplotlib, numpy and ncgen.
"""

import math
import random
import subprocess
import sys
import tempfile
from pathlib import Path

import matplotlib

matplotlib.use("Agg")
import matplotlib.pyplot as plot  # noqa: E402
import numpy  # noqa: E402

sys.path.insert(0, str(Path(__file__).resolve().parent))
import values  # noqa: E402

ROWS, COLUMNS, LAND = 90, 180, -9999
SCRIPT = f"""
readval \\sst using NETCDFZ2 at ("field.nc", "sst", (0,0), ({ROWS},{COLUMNS}));
macro \\lift = fn (\\low,\\x) => if low then 1000-x else 1000+x;
macro \\sea_of = fn \\i => {{j | \\j <- gen!{COLUMNS}, not (sst[i,j] = (true,{-LAND}))}};
val \\zone = [[let val \\cells = sea_of!i in summap(fn \\j => lift!(sst[i,j]))!(cells) / count!cells end default 0 | \\i<{ROWS}]];
val \\warmer = [[if sst[i,j] = (true,{-LAND}) then (true,{-LAND})
  else if lift!(sst[i,j]) < zone[i] then (true, zone[i] - lift!(sst[i,j])) else (false, lift!(sst[i,j]) - zone[i])
  | \\i<{ROWS}, \\j<{COLUMNS}]];
"""


def main():
    program, picture = Path(sys.argv[1]).resolve(), sys.argv[2]
    cells = field(random.Random(3))
    with tempfile.TemporaryDirectory() as folder:
        text = ", ".join(map(str, cells))
        header = f"netcdf field {{ dimensions: lat = {ROWS}; lon = {COLUMNS}; variables: short sst(lat, lon); data: sst = {text}; }}"
        subprocess.run(["ncgen", "-k", "classic", "-o", "field.nc"], input=header.encode(), cwd=folder, check=True)
        run = subprocess.run([program], input=SCRIPT.encode(), stdout=subprocess.PIPE, cwd=folder, check=True)
    pairs = values.numpy_of(values.read(run.stdout.decode())["warmer"])
    signed = numpy.where(pairs[..., 0] == 1, -pairs[..., 1].astype(float), pairs[..., 1]) / 10
    answer = numpy.ma.masked_equal(signed, LAND / 10)
    asked = numpy.ma.masked_equal(numpy.array(cells, float).reshape(ROWS, COLUMNS), LAND) / 10
    figure, sides = plot.subplots(1, 2, figsize=(9, 2.7), layout="constrained")
    show(figure, sides[0], asked, "sst, as the file has it (degrees)", "viridis", -4, 30)
    show(figure, sides[1], answer, "what aql answers: warmer or colder than the mean of the row", "RdBu_r", -6, 6)
    figure.savefig(picture, dpi=80, metadata={"Software": None})


def show(figure, side, cells, title, colours, low, high):
    side.set_facecolor("0.75")
    drawn = side.imshow(cells, cmap=colours, vmin=low, vmax=high, origin="lower", aspect="auto", interpolation="nearest")
    side.set_title(title, fontsize=8)
    side.set_xticks([])
    side.set_yticks([])
    figure.colorbar(drawn, ax=side, shrink=0.9).ax.tick_params(labelsize=7)


def field(chance):
    """Temperatures that fall towards the poles, with waves, eddies and land."""
    waves = [(chance.choice((-1, 1)) * chance.uniform(0.5, 3), chance.uniform(1, 5), chance.uniform(0, 6.3), chance.uniform(0.3, 1)) for _ in range(14)]
    eddies = [(chance.choice((-1, 1)) * chance.uniform(4, 11), chance.uniform(4, 14), chance.uniform(0, 6.3), chance.uniform(2, 7)) for _ in range(18)]
    cells = []
    for i in range(ROWS):
        y = (i + 0.5) / ROWS
        for j in range(COLUMNS):
            x = 2 * math.pi * j / COLUMNS
            height = sum(size * math.sin(round(b) * x + 2 * math.pi * a * y + c) for a, b, c, size in waves)
            swirl = sum(size * math.sin(round(b) * x + 2 * math.pi * a * y + c) for a, b, c, size in eddies)
            warm = 300 * math.sin(math.pi * y) ** 1.3 - 20 + 14 * math.sin(x + 3 * y) + swirl + chance.gauss(0, 2)
            cells.append(LAND if height > 2.2 else max(-30, round(warm)))
    return cells


main()
