"""How the time and the memory of a run grow with plans, steps, atoms, planners and workers, up to the limits of a run: the workloads for it, a model of
more processors than were measured, and a drawing as SVG."""
import math
import os
import random

from workloads import WALK, grid, on_a_grid, plain, problem, wander

FILE_LIMIT = 1 << 24
PLANS_OF_A_FILE = 1024


def full_files(planners):
    """As many planners, each with a file of 16 MiB that holds 1,024 plans: 64 of them are as much as a run may have. All files are alike."""
    def files(scale):
        rng = random.Random(1)
        places, ways = grid(8)
        size = int(FILE_LIMIT * scale) // PLANS_OF_A_FILE
        init = ["(at c0-0)"] + ways + ["(dark %s)" % place for place in places]
        parts = [plain(wander(rng, 8, size // 16)).ljust(size - 4, "\n") for _ in range(PLANS_OF_A_FILE)]
        text = "---\n".join(parts) + 4 * "\n"
        yield "domain.pddl", WALK
        yield "problem.pddl", problem("grid-8", "walk", " ".join(places), init, ["(way c0-0 c0-1)"])
        for planner in range(planners):
            yield "planner-%d" % planner, text
    return files


ALL_FILES = full_files(64)

# What grows, what the numbers count, and for each of them the files and the number of workers.
SERIES = [
    ("plans", "plans of 16 steps, by one planner", [(n, on_a_grid(8, 1, n, 16, plain), 1) for n in (1024, 2048, 4096, 8192, 16384, 32768, 65536)]),
    ("steps", "steps of one plan on a small grid", [(n, on_a_grid(8, 1, 1, n, plain), 1) for n in (15625, 31250, 62500, 125000, 250000, 500000, 1000000)]),
    ("atoms", "initial atoms, and one plan of 100,000 steps", [(5 * n * n - 4 * n + 1, on_a_grid(n, 1, 1, 100000, plain), 1) for n in (8, 16, 32, 64, 128, 255)]),
    ("planners", "planners, each with 1,024 plans in 16 MiB", [(n, full_files(n), 1) for n in (1, 2, 4, 8, 16, 32, 64)]),
    ("workers", "workers, for 65,536 plans in 64 files of 16 MiB", [(n, ALL_FILES, n) for n in (1, 2, 3, 4, 8, 16, 32)]),
]

WIDTH, HEIGHT, LEFT, BOTTOM, TOP, RIGHT = 420, 300, 62, 46, 34, 16
TIME, MEMORY, MODEL = "#06c", "#c60", "#999"


def fitted(points):
    """The serial and the parallel seconds of a run: the best fit of time = serial + parallel / workers, where each worker has a processor of its own.
    Points are numbers of workers with the seconds and the bytes of memory."""
    used = [(1 / workers, seconds) for workers, seconds, _ in points if workers <= os.cpu_count()]
    middle = sum(share for share, _ in used) / len(used), sum(seconds for _, seconds in used) / len(used)
    above = sum((share - middle[0]) * (seconds - middle[1]) for share, seconds in used)
    below = sum((share - middle[0]) ** 2 for share, _ in used)
    parallel = above / below if below else 0
    return middle[1] - parallel * middle[0], parallel


def decades(low, high):
    """The powers of ten that hold these numbers, from one to the other."""
    first = math.floor(math.log10(low))
    last = max(math.ceil(math.log10(high)), first + 1)
    return first, last


def short(number):
    return "%gM" % (number / 1e6) if number >= 1e6 else "%gk" % (number / 1e3) if number >= 1e3 else "%g" % number


class Panel:
    """One drawing with logarithmic axes."""

    def __init__(self, x0, y0, numbers, values):
        self.x0, self.y0 = x0, y0
        self.left, self.right = decades(min(numbers), max(numbers))
        self.low, self.high = decades(min(values), max(values))

    def at(self, number, value):
        return (self.x0 + LEFT + (math.log10(number) - self.left) / (self.right - self.left) * (WIDTH - LEFT - RIGHT),
                self.y0 + HEIGHT - BOTTOM - (math.log10(value) - self.low) / (self.high - self.low) * (HEIGHT - TOP - BOTTOM))

    def axes(self, title):
        made = ['<text x="%d" y="%d" font-weight="bold">%s</text>' % (self.x0 + LEFT, self.y0 + 18, title)]
        for power in range(self.left, self.right + 1):
            (x, bottom), (_, top) = self.at(10 ** power, 10 ** self.low), self.at(10 ** power, 10 ** self.high)
            made.append('<line x1="%.1f" y1="%.1f" x2="%.1f" y2="%.1f" stroke="#ddd"/>' % (x, bottom, x, top))
            made.append('<text x="%.1f" y="%.1f" text-anchor="middle">%s</text>' % (x, bottom + 16, short(10 ** power)))
        for power in range(self.low, self.high + 1):
            (start, y), (end, _) = self.at(10 ** self.left, 10 ** power), self.at(10 ** self.right, 10 ** power)
            made.append('<line x1="%.1f" y1="%.1f" x2="%.1f" y2="%.1f" stroke="#ddd"/>' % (start, y, end, y))
            made.append('<text x="%.1f" y="%.1f" text-anchor="end">%g</text>' % (start - 6, y + 4, 10 ** power))
        return made

    def line(self, points, colour, dashes=""):
        marks = " ".join("%.1f,%.1f" % self.at(*point) for point in points)
        return ['<polyline fill="none" stroke="%s" stroke-width="2" stroke-dasharray="%s" points="%s"/>' % (colour, dashes, marks)]

    def marks(self, points, colour):
        made = self.line(points, colour)
        for number, value in points:
            x, y = self.at(number, value)
            made.append('<circle cx="%.1f" cy="%.1f" r="3" fill="%s"/>' % (x, y, colour))
            made.append('<text x="%.1f" y="%.1f" text-anchor="middle" font-size="10">%.0f</text>' % (x, y - 8, value))
        return made


def panel(x0, y0, grows, counts, points):
    """The milliseconds and the megabytes of a series, and for workers what the model says."""
    times = [(number, 1e3 * seconds) for number, seconds, _ in points]
    sizes = [(number, size / 1e6) for number, _, size in points]
    model = []
    if grows == "workers":
        serial, parallel = fitted(points)
        model = [(number, 1e3 * (serial + parallel / number)) for number, _, _ in points]
    drawn = Panel(x0, y0, [number for number, _ in times], [value for _, value in times + sizes + model])
    made = drawn.axes(counts)
    if model:
        made += drawn.line(model, MODEL, "5 4")
    return made + drawn.marks(sizes, MEMORY) + drawn.marks(times, TIME)


def legend(x0, y0):
    """What the colours stand for."""
    lines = [(TIME, "milliseconds of wall time"), (MEMORY, "megabytes of memory"),
             (MODEL, "a model: the time if each worker had a processor")]
    made = []
    for index, (colour, words) in enumerate(lines):
        y = y0 + 60 + 24 * index
        made.append('<line x1="%d" y1="%d" x2="%d" y2="%d" stroke="%s" stroke-width="2"/>' % (x0 + LEFT, y, x0 + LEFT + 30, y, colour))
        made.append('<text x="%d" y="%d">%s</text>' % (x0 + LEFT + 40, y + 4, words))
    return made


def drawing(measured):
    """An SVG of all series: each is what grows, what the numbers count, and for each number the seconds and the bytes of memory."""
    rows = (len(measured) + 2) // 2
    made = ['<svg xmlns="http://www.w3.org/2000/svg" width="%d" height="%d" font-family="sans-serif" font-size="12">' % (2 * WIDTH, rows * HEIGHT),
            '<rect width="100%" height="100%" fill="#fff"/>']
    for index, (grows, counts, points) in enumerate(measured):
        made += panel(index % 2 * WIDTH, index // 2 * HEIGHT, grows, counts, points)
    made += legend(len(measured) % 2 * WIDTH, len(measured) // 2 * HEIGHT)
    return "\n".join(made + ["</svg>", ""])
