"""Scripts cut into commands, and replies cut apart."""

import unittest

from tests.refused.script import BadReplies, Command, commands, inspection, may_lack_memory, named_cells, replies


def texts(script: bytes) -> list[bytes]:
    return [command.text for command in commands(script)]


class Commands(unittest.TestCase):
    def test_comments_and_blank_lines_are_no_commands(self) -> None:
        self.assertEqual(texts(b"# set A1 5\n\n   \nset A1 5\n\r\nshow A1"), [b"set A1 5\n", b"show A1\n"])
        self.assertEqual(texts(b""), [])
        self.assertEqual(texts(b"\n\n"), [])
        self.assertEqual(texts(b" # x\n"), [b" # x\n"])

    def test_lines_that_are_too_long_or_no_utf8_are_commands(self) -> None:
        self.assertEqual(texts(b"#" * 65_536 + b"\n"), [])
        self.assertEqual(texts(b"#" * 65_537 + b"\n"), [b"#" * 65_537 + b"\n"])
        self.assertEqual(texts(b"# \xff\n"), [b"# \xff\n"])

    def test_data_lines_belong_to_their_command(self) -> None:
        self.assertEqual(texts(b"csv A1 2\n# one\n\nshow A1\n"), [b"csv A1 2\n# one\n\n", b"show A1\n"])
        self.assertEqual(texts(b" force  csv  A1 01 \r\nx\nshow A1\n"), [b" force  csv  A1 01 \r\nx\n", b"show A1\n"])
        self.assertEqual(texts(b"csv A0 1\nx\nshow A1\n"), [b"csv A0 1\nx\n", b"show A1\n"])
        self.assertEqual(texts(b"csv \xff 1\nx\nshow A1\n"), [b"csv \xff 1\nx\n", b"show A1\n"])
        for line in (b"csv A1 x", b"csv A1", b"csv A1 1 1", b"csv A1 1000001", b"csv A1 00000001", b"CSV A1 1", b"force force csv A1 1", b"csv A1 0"):
            self.assertEqual(texts(line + b"\nx\n"), [line + b"\n", b"x\n"])

    def test_a_command_may_be_cut(self) -> None:
        self.assertEqual(commands(b"csv A1 2\nx\n"), [Command(b"csv A1 2\nx\n", is_cut=True)])
        self.assertEqual(commands(b"csv A1 1\nx\n"), [Command(b"csv A1 1\nx\n")])
        self.assertEqual(commands(b"csv A1 1\n\n"), [Command(b"csv A1 1\n\n")])


class Replies(unittest.TestCase):
    def test_replies_are_cut_apart(self) -> None:
        parts = [b"ok\n", b'"5"\r\n"a ""b""","two\nok\nlines"\r\nok\n', b"refused E01\n", b"refused E18 B7\n", b'lines 1\n"x"\r\nok\n', b"lines 0\nok\n"]
        self.assertEqual(replies(b"".join(parts)), parts)

    def test_what_is_no_reply_is_refused(self) -> None:
        for written in (b"ok", b"oki\n", b'"5"\nok\n', b'"5"\r\n', b"refused E1\n", b"ok\nrefused\n", b"E01\n", b'"5"\r\nrefused E01\n'):
            with self.assertRaises(BadReplies):
                replies(written)


class Memory(unittest.TestCase):
    def test_where_out_of_memory_may_be_answered(self) -> None:
        for script, reply, may in (
            (b"set A1 5\n", b"ok\n", True),
            (b"set B1 =[.XFE1]\n", b"refused E04\n", True),
            (b"frob\n", b"refused E02\n", False),
            (b"use none\n", b"refused E10\n", False),
            (b"  drop one\n", b"ok\n", False),
            (b"csv A1 1\nx\n", b"refused E03\n", True),
        ):
            with self.subTest(script=script):
                self.assertEqual(may_lack_memory(commands(script)[0], reply, is_first=True), may)
        self.assertTrue(may_lack_memory(Command(b"use none\n"), b"refused E10\n", is_first=False))
        self.assertFalse(may_lack_memory(Command(b"frob\n"), b"refused E02\n", is_first=False))


class Cells(unittest.TestCase):
    def test_all_cells_that_are_named(self) -> None:
        self.assertEqual(named_cells(commands(b"set b2 =[.$A$1]+SUM([.C1:.D2])\n")), ["A1", "C1", "D1", "B2", "C2", "D2"])
        self.assertEqual(named_cells(commands(b"csv B2 2\nx,y\nz\nclear A1:XFD1048576\n")), ["A1", "XFD1", "B2", "C2", "B3", "C3", "A1048576", "XFD1048576"])
        self.assertEqual(named_cells(commands(b"set XFE1 1\nset A1048577 1\nset A0 1\n")), [])

    def test_what_is_asked_of_them(self) -> None:
        self.assertEqual(inspection(commands(b"set A1 5\n")), [Command(b"show A1\n"), Command(b"formula A1\n")])


if __name__ == "__main__":
    unittest.main()
