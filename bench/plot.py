"""A picture of cost against size, as plain SVG: both axes by powers of ten, a line a workload."""
import math

WIDTH, HEIGHT, LEFT, BOTTOM, RIGHT, TOP = 900, 520, 70, 50, 190, 30
COLOURS = ["#1b6ca8", "#c0392b", "#2e8b57", "#8e44ad", "#d68910", "#117a65", "#7b241c", "#34495e"]


def powers(low, high):
    return range(math.floor(math.log10(low)), math.ceil(math.log10(high)) + 1)


def picture(lines):
    """`lines` has for each name its points, pairs of a size and of seconds above 0."""
    lines = {name: points for name, points in lines.items() if len(points) > 1}
    sizes = [size for points in lines.values() for size, _ in points] or [1, 10]
    times = [time for points in lines.values() for _, time in points] or [0.1, 1]
    across, up = powers(min(sizes), max(sizes)), powers(min(times), max(times))
    def x(size):
        return LEFT + (WIDTH - LEFT - RIGHT) * (math.log10(size) - across[0]) / max(across[-1] - across[0], 1)
    def y(time):
        return HEIGHT - BOTTOM - (HEIGHT - TOP - BOTTOM) * (math.log10(time) - up[0]) / max(up[-1] - up[0], 1)
    return "\n".join(frame(across, up, x, y) + [line for place, (name, points) in enumerate(sorted(lines.items()))
                                                 for line in curve(place, name, points, x, y)] + ["</svg>"]) + "\n"


def frame(across, up, x, y):
    out = ['<svg xmlns="http://www.w3.org/2000/svg" viewBox="0 0 %d %d" font-family="sans-serif" font-size="12">' % (WIDTH, HEIGHT),
           '<rect width="100%" height="100%" fill="white"/>']
    for power in across:
        out.append('<line x1="%.1f" x2="%.1f" y1="%d" y2="%d" stroke="#ddd"/>' % (x(10 ** power), x(10 ** power), TOP, HEIGHT - BOTTOM))
        out.append('<text x="%.1f" y="%d" text-anchor="middle">%s</text>' % (x(10 ** power), HEIGHT - BOTTOM + 18, "{:,}".format(10 ** max(power, 0))))
    for power in up:
        out.append('<line x1="%d" x2="%d" y1="%.1f" y2="%.1f" stroke="#ddd"/>' % (LEFT, WIDTH - RIGHT, y(10 ** power), y(10 ** power)))
        out.append('<text x="%d" y="%.1f" text-anchor="end">%g s</text>' % (LEFT - 8, y(10 ** power) + 4, 10 ** power))
    out.append('<text x="%d" y="%d" text-anchor="middle">size</text>' % ((LEFT + WIDTH - RIGHT) // 2, HEIGHT - 10))
    return out


def curve(place, name, points, x, y):
    colour = COLOURS[place % len(COLOURS)]
    path = " ".join("%.1f,%.1f" % (x(size), y(time)) for size, time in points)
    last = points[-1]
    return ['<polyline points="%s" fill="none" stroke="%s" stroke-width="2"/>' % (path, colour)] + [
        '<circle cx="%.1f" cy="%.1f" r="3" fill="%s"/>' % (x(size), y(time), colour) for size, time in points] + [
        '<text x="%.1f" y="%.1f" fill="%s">%s</text>' % (x(last[0]) + 8, y(last[1]) + 4, colour, name)]
