#!/usr/bin/env python3
"""Tests the firmware examples/firmware/strip.c: the lights get their colours, at the pace that they need: examples/test_strip.py"""
import os
import sys
import unittest

TOP = os.path.dirname(os.path.dirname(os.path.abspath(__file__)))
sys.path.insert(0, f"{TOP}/tools")
import johvelni  # noqa: E402

IMAGE = f"{TOP}/examples/firmware/strip.uf2"
PIO = {(0, 0): f"{TOP}/examples/ws2812.pio"}
NS = 8  # of a cycle


def pulses(edges):
    """The pulses of a pin: how long it was high, in nanoseconds, and how long from its rise to the next."""
    rises = [cycle for cycle, level in edges if level == 1]
    falls = [cycle for cycle, level in edges if level == 0]
    highs = [(fall - rise) * NS for rise, fall in zip(rises, falls)]
    return highs, [(after - rise) * NS for rise, after in zip(rises, rises[1:])]


class Strip(unittest.TestCase):
    @classmethod
    def setUpClass(cls):
        cls.run_ = johvelni.run(IMAGE, 20000, pio=PIO, probes={1: 0})

    def test_it_ends(self):
        self.assertEqual((self.run_.status, self.run_.error), (0, None))
        self.assertTrue(self.run_.stop.startswith("stop bkpt core0"))

    def test_the_lights_get_their_colours(self):
        highs, _ = pulses(self.run_.edges[0])
        bits = "".join("1" if high > 600 else "0" for high in highs)
        self.assertEqual([int(bits[i:i + 24], 2) for i in range(0, len(bits), 24)], [0xFF0000, 0x00FF80])
        self.assertEqual(self.run_.probes, ["probe 1 pin 0 colours 2 last 00ff80"])

    def test_the_pulses_are_as_long_as_a_light_needs(self):
        highs, periods = pulses(self.run_.edges[0])
        self.assertLessEqual(set(highs), {256, 896})  # a short and a long pulse
        self.assertGreaterEqual(min(periods), 1250)   # a bit takes 1250 ns at least

    def test_the_first_bit_in_a_session(self):
        rise = self.run_.edges[0][0][0]
        with johvelni.Debug(IMAGE, 20000, pio=PIO) as session:
            session.goto(rise)
            self.assertEqual(session.pins()[0], 0)
            self.assertEqual(session.step(), rise + 1)
            self.assertEqual(session.pins()[0], 1)


if __name__ == "__main__":
    unittest.main()
