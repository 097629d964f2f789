"""Words and reports."""

import unittest

from at_node import (
    Find, Packet, Report, bytes_of_word, text_of_word, word_of_bytes, word_of_text,
)
from at_node.words import WILDCARD, line_of_words


class Words(unittest.TestCase):
    def test_each_byte_of_a_text_comes_back(self) -> None:
        for byte in range(256):
            text = bytes([byte]).decode("mac_roman")
            self.assertEqual(text_of_word(word_of_text(text)), text)
            self.assertEqual(word_of_text(bytes([byte])), word_of_text(text))

    def test_a_text_is_spelled_as_a_node_prints_it(self) -> None:
        self.assertEqual(word_of_text("Laser Jet"), "Laser%20Jet")
        self.assertEqual(word_of_text(""), "%")
        self.assertEqual(word_of_text("a:b,c@d%"), "a%3Ab%2Cc%40d%25")
        self.assertEqual(word_of_text("A-_.=*9"), "A-_.=*9")

    def test_the_wildcard_is_the_byte_c5(self) -> None:
        self.assertEqual(word_of_text("Prin" + WILDCARD), "Prin%C5")

    def test_a_character_that_no_mac_has_is_refused(self) -> None:
        with self.assertRaises(UnicodeEncodeError):
            word_of_text("\u4e2d")

    def test_bytes_come_back(self) -> None:
        for data in (b"", b"\0", bytes(range(256))):
            self.assertEqual(bytes_of_word(word_of_bytes(data)), data)
        self.assertEqual(word_of_bytes(b""), "-")
        self.assertRaises(ValueError, bytes_of_word, "0")

    def test_a_line_is_ascii(self) -> None:
        self.assertEqual(line_of_words("find Caf\u00e9 ="), b"find Caf%8E =")
        self.assertEqual(line_of_words("find = ="), b"find = =")


class Reports(unittest.TestCase):
    def test_a_report_has_its_words(self) -> None:
        report = Report("heard 1 572")
        self.assertEqual(report.kind, "heard")
        self.assertEqual(report.number(), 1)
        self.assertEqual(report.number(2), 572)
        self.assertTrue(report.begins(["heard", "1"]))
        self.assertFalse(report.begins(["heard", "15"]))

    def test_zones_are_texts(self) -> None:
        self.assertEqual(Report("zones Lab My%20Zone").texts(), ["Lab", "My Zone"])
        self.assertEqual(Report("zones").texts(), [])

    def test_finds_are_names_with_addresses(self) -> None:
        report = Report("found Laser%20Jet:LaserWriter@*,7,130,1 %:T@Z%2C,8,129,0")
        wanted = [Find("Laser Jet", "LaserWriter", "*", 7, 130, 1), Find("", "T", "Z,", 8, 129, 0)]
        self.assertEqual(report.finds(), wanted)
        self.assertEqual(Report("found").finds(), [])

    def test_a_response_has_packets(self) -> None:
        report = Report("response 3 00000001:2A2B 00000000:-")
        wanted = [Packet(b"\0\0\0\1", b"*+"), Packet(b"\0\0\0\0", b"")]
        self.assertEqual(report.packets(), wanted)

    def test_what_is_read_has_items(self) -> None:
        self.assertEqual(Report("read 6162 end 63").items(), [b"ab", None, b"c"])
        self.assertEqual(Report("read").items(), [])


if __name__ == "__main__":
    unittest.main()
