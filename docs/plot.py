#!/usr/bin/env python3
"""plot.py: draws speeds.svg from speeds.txt, both beside it.

speeds.txt has a line for each workload: its name, then the requests per second with 1, 2, 4 and 8 workers of this program, a bar, and
those of the peer. Each line of the plot is scaled to the fastest of its workload."""
import os

HERE = os.path.dirname(os.path.realpath(__file__))
WORKERS = (1, 2, 4, 8)
WIDTH, HEIGHT, LEFT, TOP, STEP = 220, 150, 50, 40, 290


def workloads():
    with open(os.path.join(HERE, 'speeds.txt')) as lines:
        for line in lines:
            if line.strip() and not line.startswith('#'):
                name, ours, theirs = (part.strip() for part in line.split('|'))
                yield name, [float(it) for it in ours.split()], [float(it) for it in theirs.split()]


def points(speeds, most, left):
    step = WIDTH / (len(WORKERS) - 1)
    return [(left + step * n, TOP + HEIGHT * (1 - speed / most)) for n, speed in enumerate(speeds)]


def line(speeds, most, left, color):
    at = points(speeds, most, left)
    yield '<polyline fill="none" stroke="%s" stroke-width="2" points="%s"/>' % (color, ' '.join('%.1f,%.1f' % it for it in at))
    for (x, y), speed in zip(at, speeds):
        yield '<circle cx="%.1f" cy="%.1f" r="3" fill="%s"><title>%d</title></circle>' % (x, y, color, speed)


def chart(number, name, ours, theirs):
    left, most = LEFT + STEP * number, max(ours + theirs)
    bottom = TOP + HEIGHT
    yield '<text x="%d" y="%d" font-weight="bold">%s</text>' % (left, TOP - 20, name)
    yield '<path d="M%d %d V%d H%d" fill="none" stroke="#888"/>' % (left, TOP, bottom, left + WIDTH)
    yield '<text x="%d" y="%d" text-anchor="end">%d</text>' % (left - 4, TOP + 4, most)
    yield '<text x="%d" y="%d" text-anchor="end">0</text>' % (left - 4, bottom + 4)
    for (x, _), workers in zip(points(ours, most, left), WORKERS):
        yield '<text x="%.1f" y="%d" text-anchor="middle">%d</text>' % (x, bottom + 16, workers)
    yield from line(theirs, most, left, '#999999')
    yield from line(ours, most, left, '#1f5fa8')


def main():
    charts = list(workloads())
    width, height = LEFT + STEP * len(charts), TOP + HEIGHT + 50
    text = ['<svg xmlns="http://www.w3.org/2000/svg" width="%d" height="%d" font-family="sans-serif" font-size="11">' % (width, height),
            '<rect width="100%" height="100%" fill="white"/>']
    for number, (name, ours, theirs) in enumerate(charts):
        text += chart(number, name, ours, theirs)
    text += ['<text x="%d" y="%d">requests per second by workers; blue: this program, grey: the peer</text>' % (LEFT, height - 12), '</svg>']
    with open(os.path.join(HERE, 'speeds.svg'), 'w') as svg:
        svg.write('\n'.join(text) + '\n')


if __name__ == '__main__':
    main()
