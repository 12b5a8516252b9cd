"""The example of a driver: what is a line of its device."""

import importlib.util
import os
import unittest

_SPEC = importlib.util.spec_from_file_location("driver", os.path.join(os.path.dirname(__file__), "../examples/driver.py"))
driver = importlib.util.module_from_spec(_SPEC)
_SPEC.loader.exec_module(driver)


def lines_of(parts):
    """The lines of a device that has these parts one after another, and then ends."""
    reader, writer = os.pipe()
    there = driver.Driver(None, None)
    try:
        for part in parts:
            os.write(writer, part)
            while part:
                there.take_lines(reader)
                part = part[driver.MOST_BYTES :]
        os.close(writer)
        return list(there.lines), there.take_lines(reader), list(there.lines)
    finally:
        os.close(reader)


class Lines(unittest.TestCase):
    def test_a_line_that_comes_in_parts(self):
        self.assertEqual(lines_of([b"ab", b"cd\n\ne", b"f\r\n"])[0], [b"abcd", b"", b"ef"])

    def test_the_end_of_the_device_ends_the_last_line(self):
        before, goes_on, lines = lines_of([b"one\ntw", b"o"])
        self.assertEqual((before, goes_on, lines), ([b"one"], False, [b"one", b"two"]))

    def test_more_than_one_page(self):
        texts = [b"%04d of some bytes more" % place for place in range(400)]
        self.assertEqual(lines_of([b"\n".join(texts) + b"\n"])[0], texts)

    def test_a_line_that_is_too_long_is_given_in_parts(self):
        most = driver.MOST_BYTES
        self.assertEqual([len(it) for it in lines_of([b"x" * most, b"x" * 10 + b"\ny\n"])[0]], [most, 10, 1])


if __name__ == "__main__":
    unittest.main()
