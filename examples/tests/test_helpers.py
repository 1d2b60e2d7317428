"""The examples in the helpers' own descriptions."""

import doctest
import unittest

from examples.tests import replies
from tests.support import rounding


def load_tests(loader: unittest.TestLoader, tests: unittest.TestSuite, pattern: str | None) -> unittest.TestSuite:
    for module in (replies, rounding):
        tests.addTests(doctest.DocTestSuite(module))
    return tests


class RepliesTest(unittest.TestCase):
    def test_a_text_with_ok_in_it(self) -> None:
        (reply,) = replies.replies_of("show A1", '"a\nok\n""b"""\r\nok\n')
        self.assertEqual(reply, replies.Reply("show A1", [['a\nok\n"b"']], None))

    def test_too_few_replies(self) -> None:
        with self.assertRaises(ValueError):
            replies.replies_of("set A1 1\nshow A1", "ok\n")


if __name__ == "__main__":
    unittest.main()
