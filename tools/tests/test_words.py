"""Numbers as words, and the progress bar."""

import argparse
import io
import tempfile
import unittest

from difi_tools.words import LONG_INPUT, Counted, bar, number, number_within


class Screen(io.StringIO):
    def __init__(self, terminal):
        super().__init__()
        self.terminal = terminal

    def isatty(self):
        return self.terminal


def shown(size, terminal=True):
    """What stands on the screen when so many bytes of a file were read."""
    screen = Screen(terminal)
    with tempfile.TemporaryFile() as file:
        file.truncate(size)
        source = Counted(file, screen)
        while source.read(1 << 20):
            pass
        source.close()
    return screen.getvalue()


class Progress(unittest.TestCase):
    def test_a_long_input_has_a_bar_where_there_is_a_terminal(self):
        text = shown(LONG_INPUT)
        self.assertIn("% of 34 MB", text)
        self.assertTrue(text.endswith("\r"))
        self.assertEqual(shown(LONG_INPUT, terminal=False), "")

    def test_a_short_input_has_none(self):
        self.assertEqual(shown(LONG_INPUT - 1), "")

    def test_a_pipe_tells_what_was_read(self):
        screen = Screen(True)
        source = Counted(io.BytesIO(bytes(LONG_INPUT)), screen)
        source.read(LONG_INPUT - 1)
        self.assertEqual(screen.getvalue(), "")
        source.read(1)
        self.assertEqual(screen.getvalue(), "\r34 MB")

    def test_the_bar(self):
        self.assertEqual(bar(5 * 10**7, 10**8), f"[{'#' * 15}{'.' * 15}]  50 % of 100 MB")


class Numbers(unittest.TestCase):
    def test_digits_with_or_without_a_sign_and_hexadecimal_ones(self):
        self.assertEqual([number(text) for text in ("0", "-7", "0x1F", "0Xff")], [0, -7, 31, 255])
        for text in ("", "1.5", "1 ", "0x", "-0x1", "٣"):
            with self.assertRaises(argparse.ArgumentTypeError):
                number(text)

    def test_a_range(self):
        within = number_within(0, 3)
        self.assertEqual((within("0"), within("3")), (0, 3))
        for text in ("-1", "4"):
            with self.assertRaises(argparse.ArgumentTypeError):
                within(text)
