#!/usr/bin/env python3
"""Draws as SVG how many routes each peer has along an MRT file, from the replies of `bgpdump --play`.

    examples/routes_svg.py FILE >PICTURE
"""
import subprocess
import sys

COLOURS = ['#0072b2', '#d55e00', '#009e73', '#aa3377', '#b58900', '#666666']
LEFT, TOP, WIDTH, HEIGHT = 60, 20, 640, 260  # the place of the lines, in pixels


def replies(file, script):
    run = subprocess.run(['bgpdump', '--play', '-', file], input=script, stdout=subprocess.PIPE, text=True)
    if run.returncode > 1:  # it has said why
        sys.exit(run.returncode)
    return run.stdout.splitlines()


def samples(file):
    """Steps, at most about a thousand, each with the number of routes of the peers that have some there."""
    end = int(replies(file, 'next 4294967295\n')[0].split()[1])
    found = []
    for line in replies(file, ''.join('goto %d\npeers\n' % step for step in range(0, end + 1, end // 1000 + 1))):
        if line.startswith('at '):
            found.append((int(line.split()[1]), {}))
        elif line.startswith('PEER|'):
            _, address, number, routes = line.split('|')
            found[-1][1]['%s AS%s' % (address, number)] = int(routes)
    return found


def ticks(most):
    """Round numbers up to this one, at most a dozen."""
    unit = next(digit * 10 ** zeros for zeros in range(12) for digit in (1, 2, 5) if most < digit * 10 ** zeros * 12)
    return range(0, most + 1, unit)


def text(x, y, words, more='text-anchor="middle"'):
    return '<text x="%g" y="%g" %s>%s</text>' % (x, y, more, words)


def picture(found):
    peers = list(dict.fromkeys(peer for _, routes in found for peer in routes))
    last = max(found[-1][0], 1)
    most = max([1] + [count for _, routes in found for count in routes.values()])
    width, height = LEFT + WIDTH + 250, max(TOP + HEIGHT, 24 * len(peers)) + 60
    parts = ['<svg xmlns="http://www.w3.org/2000/svg" width="%d" height="%d" font-family="sans-serif" font-size="13">'
             '<rect width="%d" height="%d" fill="#fff"/>' % (width, height, width, height),
             text(LEFT + WIDTH / 2, TOP + HEIGHT + 46, 'step'),
             text(-TOP - HEIGHT / 2, 18, 'routes', 'text-anchor="middle" transform="rotate(-90)"')]
    for count in ticks(most):
        y = TOP + HEIGHT - HEIGHT * count / most
        parts += ['<path d="M%d %.1fh%d" stroke="#ddd"/>' % (LEFT, y, WIDTH), text(LEFT - 18, y + 4, count)]
    parts += [text(LEFT + WIDTH * step / last, TOP + HEIGHT + 22, step) for step in ticks(last)]
    for place, peer in enumerate(peers):
        shift = 2.5 * (place - (len(peers) - 1) / 2)  # keeps equal numbers apart
        points = [(LEFT + WIDTH * step / last, TOP + HEIGHT + shift - HEIGHT * routes.get(peer, 0) / most)
                  for step, routes in found]
        line = 'M%.1f %.1f' % points[0] + ''.join('H%.1fV%.1f' % point for point in points[1:])
        key = 'M%d %dh20' % (LEFT + WIDTH + 20, TOP + 10 + 24 * place)
        parts += ['<path d="%s" stroke="%s" stroke-width="2" fill="none"/>' % (part, COLOURS[place % len(COLOURS)])
                  for part in (line, key)]
        parts.append(text(LEFT + WIDTH + 48, TOP + 14 + 24 * place, peer, ''))
    return '\n'.join(parts + ['</svg>'])


if len(sys.argv) != 2:
    sys.exit(__doc__)
if sys.argv[1] in ('-h', '--help'):
    print(__doc__)
    sys.exit()
print(picture(samples(sys.argv[1])))
