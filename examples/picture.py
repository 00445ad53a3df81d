#!/usr/bin/env python3
"""Writes a picture to standard output: 512 rows of 512 grey values, a byte each, without a head. A lit ball in front of the sea,
under a sky with a sun, with the noise of a camera; the same bytes each time."""
import math
import sys

SIZE = 512


def sea(x, y):
    """The brightness of the waves at a place below the horizon."""
    far = 160 / (y - 270)
    across = (x - 256) * far / 40
    height = math.sin(9 * far + across) + 0.6 * math.sin(17 * far - 2.3 * across + 1) + 0.4 * math.sin(31 * far + 4.1 * across)
    return 95 + 18 * height + (y - 320) / 6


def grey(x, y):
    """The brightness at a place, from 0 to 255."""
    across, down = (x - 230) / 120, (y - 270) / 120
    ball = 1 - across ** 2 - down ** 2
    if ball > 0:
        light = max(0.0, -0.45 * across - 0.6 * down + 0.66 * math.sqrt(ball))
        return 30 + 150 * light + 70 * light ** 24
    if y > 320:
        return sea(x, y)
    sun = math.hypot(x - 400, y - 90)
    return 120 + y / 4 + 110 * math.exp(-((sun / 45) ** 2)) + 6 * math.sin(x / 23) * math.sin(y / 17)


def main():
    state = 1
    pixels = bytearray()
    for place in range(SIZE * SIZE):
        noise = -1535
        for _ in range(3):
            state = (state * 1103515245 + 12345) & 0x7FFFFFFF
            noise += (state >> 16) & 1023
        pixels.append(min(255, max(0, round(grey(place % SIZE, place // SIZE) + noise / 500))))
    sys.stdout.buffer.write(pixels)


main()
