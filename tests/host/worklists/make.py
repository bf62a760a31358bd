# Writes the worklists of this folder by Python's csv module, and the sheets that are due: python3 make.py
import csv
import random

# length, place (None: empty), mark, instruments
SMALL = [
    (30, 1, 0, [1, 2]),
    (20, None, 0, [1]),
    (10, 2, 1, [1, 2]),
    (1440, None, 0, [2, 3]),
    (1, 0, 0, [2]),
    (15, 3, 1, [3]),
]
SINGLE = [(length, place, mark, [place or 2]) for length, place, mark, _ in SMALL]


def largest():
    draw = random.Random(18)
    for _ in range(200):
        instruments = list(range(1, 25))
        mark = draw.randrange(2)
        places = instruments if mark else [None, 0, *instruments]
        yield draw.randint(1, 1440), draw.choice(places), mark, instruments


LARGEST = list(largest())


def fields(row):
    length, place, mark, instruments = row
    return [length, place, mark, instruments[0] if len(instruments) == 1 else ",".join(map(str, instruments))]


def make(name, rows, *forms):
    """The rows in these forms by turns."""
    with open(name + ".csv", "w", newline="", encoding="ascii") as file:
        writers = [csv.writer(file, **form) for form in forms]
        for k, row in enumerate(rows):
            writers[k % len(writers)].writerow(row)


def sheet(name, rows, calibrations):
    lines = [[len(calibrations), len(rows)], calibrations]
    for length, place, mark, instruments in rows:
        lines.append([length, place or instruments[0], mark, len(instruments), *instruments])
    with open(name + ".txt", "w", newline="", encoding="ascii") as file:
        for line in lines:
            file.write("".join(f"{number:6}" for number in line) + "\n")


sheet("small", SMALL, [0, 240, 7])
sheet("single", SINGLE, [0, 240, 7])
sheet("largest", LARGEST, [37 * k % 241 for k in range(24)])

small, single, large = ([fields(row) for row in rows] for rows in (SMALL, SINGLE, LARGEST))
minimal = {"quoting": csv.QUOTE_MINIMAL, "lineterminator": "\r\n"}
every = {"quoting": csv.QUOTE_ALL, "lineterminator": "\r\n"}
nonnumeric = {"quoting": csv.QUOTE_NONNUMERIC, "lineterminator": "\r\n"}

# taken
make("minimal", small, minimal)
make("all", small, every)
make("nonnumeric", small, nonnumeric)
make("mixed", small, every, nonnumeric, minimal, {"dialect": "excel"})
make("none", single, {"quoting": csv.QUOTE_NONE, "lineterminator": "\r\n"})
make("largest", large, minimal)
make("largest-all", large, every)

# refused
make("lf", small, {**minimal, "lineterminator": "\n"})
make("unix", small, {"dialect": "unix"})
make("cr", small, {**every, "lineterminator": "\r"})
make("tabs", small, {"dialect": "excel-tab"})
make("semicolons", small, {**minimal, "delimiter": ";"})
make("apostrophes", small, {**minimal, "quotechar": "'"})
make("header", [["length", "place", "started", "instruments"], *small], minimal)
make("escaped", small[1:3], {"quoting": csv.QUOTE_NONE, "escapechar": "\\", "lineterminator": "\r\n"})
make("last-lf", small, *[minimal] * 5, {**minimal, "lineterminator": "\n"})
make("empty-row", [*small[:4], [], *small[4:]], minimal)
make("lines-in-quotes", [*small, [5, "\r\n", 0, "1"], [5, 1, 0, 1]], minimal)
make("quote", [*small, [5, 1, 0, '1,"2"']], minimal)
make("spaces", [*small[:2], [5, 1, 0, "1, 2"]], minimal)
make("two-hundred-and-one", [*large, small[0]], minimal)
