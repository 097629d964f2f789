"""Documents of one connection, and queries: what is a job, and what is answered."""

import tempfile
import unittest
from pathlib import Path
from typing import List, Tuple

from by_hand import ByHand
from description import description_of
from documents import LONGEST, Documents
from jobs import Job
from outbox import Outbox
from queries import FONTS, Description

HEAD = b"%!PS-Adobe-3.0 Query\n"
QUERY = b"%!PS-Adobe-2.0 Query\r%%?BeginQuery: RBIUAMListQuery\r%%?EndQuery: Unknown\r%%EOF\r"
LEVEL = Description({b"*Product": b'"(Laser)"', b"*PSVersion": b'"(3010) 2"',
                     b"*LanguageLevel": b'"3"', b"*FreeVM": b'"4000000"'})


class Reading(unittest.TestCase):
    def setUp(self) -> None:
        self.folder = tempfile.TemporaryDirectory()
        self.addCleanup(self.folder.cleanup)
        self.outbox = Outbox()
        self.jobs: List[Tuple[str, bytes]] = []
        self.documents = Documents(Path(self.folder.name), LEVEL, self.outbox, self.done)

    def done(self, job: Job) -> None:
        assert job.path is not None
        self.jobs.append((job.path.name, job.path.read_bytes()))

    def read(self, *documents: bytes, size: int = 4096) -> None:
        """Reads documents, each with its end, in pieces of this size."""
        for document in documents:
            for at in range(0, len(document), size):
                self.documents.feed(document[at:at + size])
            self.documents.end()

    def said(self, most: int = 4096) -> List[Tuple[bytes, bool]]:
        """What is answered, answer by answer."""
        taken = iter(lambda: self.outbox.take(most), None)
        return [(it.data, it.ends) for it in taken]

    def answer(self, *lines: bytes) -> bytes:
        """The answer to one document of queries. However it is parted, it is the same."""
        answers = set()
        for ending in (b"\n", b"\r", b"\r\n"):
            text = b"%!PS-Adobe-3.0 Query" + ending + b"".join(it + ending for it in lines)
            for size in (1, 2, 7, 4096):
                self.read(text, size=size)
                said = self.said(1 << 16)
                self.assertEqual([it for _, it in said], [False] * (len(said) - 1) + [True])
                answers.add(b"".join(it for it, _ in said).replace(b"\r\n", b"\r"))
        self.assertEqual(self.jobs, [])
        self.assertIn(len(answers), (1, 2))
        (answer,) = {it.replace(b"\r", b"\n") for it in answers}
        return answer


class Outboxes(unittest.TestCase):
    def setUp(self) -> None:
        self.outbox = Outbox()

    def test_what_fits_goes_in_one_answer_up_to_the_end_of_a_file(self) -> None:
        for data in (b"ab", b"", b"c"):
            self.outbox.say(data)
        self.outbox.end()
        self.outbox.say(b"d")
        self.outbox.end()
        self.outbox.end()
        self.assertEqual(self.outbox.waits(), 4)
        said = [self.outbox.take(9) for _ in range(4)]
        self.assertEqual(said, [(b"abc", True), (b"d", True), (b"", True), None])
        self.assertTrue(self.outbox.is_empty())

    def test_what_does_not_fit_waits_and_the_end_is_behind_it(self) -> None:
        self.outbox.say(b"abcd")
        self.outbox.end()
        said = [self.outbox.take(2) for _ in range(3)]
        self.assertEqual(said, [(b"ab", False), (b"cd", True), None])

    def test_what_is_alone_shares_its_answer_with_nothing(self) -> None:
        self.outbox.say(b"a")
        self.outbox.say(b"b", is_alone=True)
        self.outbox.say(b"c")
        said = [self.outbox.take(9) for _ in range(4)]
        self.assertEqual(said, [(b"a", False), (b"b", False), (b"c", False), None])


class Jobs(Reading):
    def test_each_document_is_a_job(self) -> None:
        self.read(b"%!PS-Adobe-3.0\nfirst\n", b"\0second", b"%")
        self.assertEqual(self.jobs, [
            ("job-0001.ps", b"%!PS-Adobe-3.0\nfirst\n"), ("job-0002.ps", b"\0second"),
            ("job-0003.ps", b"%")])
        self.assertEqual(self.said(), [(b"", True)] * 3)

    def test_an_empty_document_is_no_job_and_has_an_end(self) -> None:
        self.read(b"", b"")
        self.assertEqual((self.jobs, self.said()), ([], [(b"", True)] * 2))

    def test_a_job_is_the_same_in_whatever_pieces_it_comes(self) -> None:
        for size in (1, 3, 254, 255, 256, 1000):
            self.jobs.clear()
            job = b"%!PS-Adobe-3.0 EPSF\r\n" + bytes(range(256)) * 4 + b"%%?BeginQuery: x\n"
            self.read(job, size=size)
            self.assertEqual([it for _, it in self.jobs], [job])

    def test_a_job_that_is_not_whole_has_no_name(self) -> None:
        self.documents.feed(b"%!" + bytes(300))
        (name,) = [it.name for it in Path(self.folder.name).iterdir()]
        self.assertTrue(name.endswith(".part"), name)
        self.assertEqual(self.documents.size(), 302)
        self.documents.drop()
        self.assertEqual(list(Path(self.folder.name).iterdir()), [])

    def test_a_job_may_follow_queries_in_one_file(self) -> None:
        query = HEAD + b"%%?BeginQuery: RBIUAMListQuery\n%%?EndQuery: Unknown\n%%EOF"
        for size in (1, 7, 4096):
            for blank in (b"\r", b"\n", b"\r\n", b"\n\n\n"):
                self.jobs.clear()
                self.read(query + blank + b"%!PS-Adobe-3.0\n1 2 add\n", size=size)
                self.assertEqual([it for _, it in self.jobs], [b"%!PS-Adobe-3.0\n1 2 add\n"])
                self.assertEqual(self.said(), [(b"*\n", True)])

    def test_queries_may_follow_queries_in_one_file(self) -> None:
        query = HEAD + b"%%?BeginQuery: x\n%%?EndQuery: None\n%%EOF\n"
        self.read(query * 3)
        self.assertEqual((self.jobs, self.said()), ([], [(b"None\n" * 3, True)]))


class Queries(Reading):
    def test_a_query_of_the_spooler_is_answered(self) -> None:
        for name, answer in ((b"RBISpoolerID", b"(at_node printer) 1.0 (1)\n"),
                             (b"RBIUAMListQuery", b"*\n"), (b"ADOIsBinaryOK?", b"true\n"),
                             (b"Product", b'"(Laser)"\n')):
            query = b"%%?BeginQuery: " + name
            self.assertEqual(self.answer(query, b"0 = flush", b"%%?EndQuery: Unknown"), answer)

    def test_a_query_that_is_not_known_gets_its_default(self) -> None:
        query = b"%%?BeginQuery: UMICHListQueue", b"%%?EndQuery:  Un known "
        self.assertEqual(self.answer(*query), b"Un known \n")

    def test_a_feature_is_told(self) -> None:
        for name, answer in ((b"*LanguageLevel", b'"3"\n'), (b"*?FreeVM", b'"4000000"\n'),
                             (b"*Duplex", b"None\n")):
            query = b"%%?BeginFeatureQuery: " + name
            self.assertEqual(self.answer(query, b"%%?EndFeatureQuery: None"), answer)

    def test_fonts_are_told_one_by_one(self) -> None:
        lines = (b"%%?BeginFontQuery: Times-Roman  Chicago", b"%%+ Symbol\tCourier", b"code",
                 b"%%+ Geneva", b"%%?EndFontQuery: Unknown")
        wanted = b"/Times-Roman:Yes\n/Chicago:No\n/Symbol:Yes\n/Courier:Yes\n*\n"
        self.assertEqual(self.answer(*lines), wanted)

    def test_the_list_of_fonts_goes_line_by_line(self) -> None:
        self.read(HEAD + b"%%?BeginFontListQuery\n%%?EndFontListQuery: *\n")
        wanted = [(it + b"\n", False) for it in FONTS] + [(b"*\n", True)]
        self.assertEqual((len(wanted), self.said()), (36, wanted))

    def test_the_printer_is_told_by_revision_version_and_product(self) -> None:
        query = b"%%?BeginPrinterQuery", b"%%?EndPrinterQuery: Unknown"
        self.assertEqual(self.answer(*query), b'2"\n"(3010)\n"(Laser)"\n')
        self.documents = Documents(Path(self.folder.name), Description(), self.outbox, self.done)
        self.assertEqual(self.answer(*query), b"Unknown\n")

    def test_any_other_query_gets_its_default(self) -> None:
        query = b"%%?BeginProcSetQuery: md", b"(no) =", b"%%?EndProcSetQuery: Unknown"
        self.assertEqual(self.answer(*query), b"Unknown\n")
        self.assertEqual(self.answer(b"%%?BeginX", b"%%?EndX"), b"\n")

    def test_several_queries_are_answered_in_their_order(self) -> None:
        lines = [b"%%?BeginQuery: ADOIsBinaryOK?", b"%%?EndQuery: False",
                 b"%%?BeginExitServer: 0", b"%%?EndExitServer: no",
                 b"%%?BeginFontQuery: Symbol", b"%%?EndFontQuery: Unknown"]
        self.assertEqual(self.answer(*lines), b"true\nno\n/Symbol:Yes\n*\n")

    def test_the_last_line_may_lack_its_ending(self) -> None:
        self.read(HEAD + b"%%?BeginQuery: x\r%%?EndQuery: no")
        self.assertEqual(self.said(), [(b"no\n", True)])

    def test_a_default_keeps_its_line_ending(self) -> None:
        for ending in (b"\n", b"\r", b"\r\n"):
            self.read(HEAD + b"%%?BeginQuery: x\n%%?EndQuery: no" + ending + b"%%EOF\n")
            self.assertEqual(self.said(), [(b"no" + ending, True)])

    def test_a_query_without_its_end_has_no_default(self) -> None:
        self.read(HEAD + b"%%?BeginQuery: x\n")
        self.assertEqual(self.said(), [(b"", True)])

    def test_a_long_line_is_bounded(self) -> None:
        self.documents.feed(HEAD + b"%%?BeginFontQuery: Symbol ")
        for _ in range(1000):
            self.documents.feed(b"Symbol " * 500)
        kept = self.documents._lines.rest()
        self.assertLessEqual(len(kept), LONGEST)
        self.documents._lines.feed(kept)
        self.documents.feed(b"\n%%?EndFontQuery: no\n")
        self.documents.end()
        told = b"".join(it for it, _ in self.said())
        self.assertTrue(told.startswith(b"/Symbol:Yes\n/Symbol:Yes\n"))
        self.assertLess(len(told), 16 * LONGEST)


class Descriptions(unittest.TestCase):
    def test_features_and_fonts_are_read(self) -> None:
        text = (b'*PPD-Adobe: "4.3"\r\n*Product: "(Laser)"\r\n*Product: "(Other)"\r\n'
                b'*% a comment: *\r\n*PSVersion:\t"(3010) 2"\r\n*Resolution 600dpi/600: "x"\r\n'
                b'*Font Geneva: Standard "(001)" Standard ROM\r\n*?FreeVM: "code"\r\nx: y\r\n')
        with tempfile.TemporaryDirectory() as folder:
            path = Path(folder, "laser.ppd")
            path.write_bytes(text)
            read = description_of(path)
        features = {b"*Product": b'"(Laser)"', b"*PSVersion": b'"(3010) 2"',
                    b"*FreeVM": b"33554432"}
        self.assertEqual(read, Description(features, frozenset(FONTS) | {b"Geneva"}))


class Connections(ByHand):
    """Documents and their answers, packet by packet."""

    def setUp(self) -> None:
        super().setUp()
        self.open()

    def test_two_documents_of_one_connection_are_two_jobs(self) -> None:
        self.send(b"%!PS-Adobe-3.0\n1\n")
        self.assertEqual(self.ask("2A030001"), "2A040100:-")
        self.send(b"%!PS-Adobe-3.0\n2\n" + bytes(9000))
        self.assertEqual(self.ask("2A030002"), "2A040100:-")
        self.ask("2A060000")
        self.assertEqual(self.files(), ["job-0001.ps", "job-0002.ps"])
        self.assertEqual(self.job(2), b"%!PS-Adobe-3.0\n2\n" + bytes(9000))

    def test_a_query_before_a_document_is_answered_and_is_no_job(self) -> None:
        self.ask("2A030001")
        self.send(QUERY)
        self.assertIn("2A040100:2A0A", [it.words[-1] for it in self.five.heard])
        self.send(b"%!PS-Adobe-3.0\n1\n")
        self.assertEqual(self.ask("2A030002"), "2A040100:-")
        self.assertEqual(self.files(), ["job-0001.ps"])

    def test_an_answer_comes_before_the_end_of_its_document(self) -> None:
        self.send(QUERY, ends=False)
        self.assertEqual(self.ask("2A030001"), "2A040000:2A0A")
        self.send(b"")
        self.assertEqual(self.ask("2A030002"), "2A040100:-")

    def test_a_long_answer_comes_in_packets_of_512_bytes(self) -> None:
        fonts = b"%%?BeginFontQuery: " + b"Symbol " * 60 + b"\r%%?EndFontQuery: no\r"
        self.send(b"%!PS-Adobe-3.0 Query\r" + fonts)
        number = self.five.station.call("ask 7 129 2A030001 - 8 xo 0").number()
        self.settle()
        (response,) = [it for it in self.five.heard if it.begins(["response", str(number)])]
        packets = response.packets()
        self.assertEqual([it.user for it in packets], [b"\x2a\4\1\0"] * 2)
        self.assertEqual([len(it.data) for it in packets], [512, 210])

    def test_a_client_that_takes_one_packet_gets_one_at_a_time(self) -> None:
        self.ask("2A060000")
        self.ask("2A010000", "81010000")
        fonts = b"%%?BeginFontQuery: " + b"Symbol " * 60 + b"\r%%?EndFontQuery: no\r"
        self.send(b"%!PS-Adobe-3.0 Query\r" + fonts)
        answers = [self.ask(f"2A03000{it}") or "" for it in (1, 2)]
        self.assertEqual([it[:8] for it in answers], ["2A040000", "2A040100"])
        self.assertEqual([len(it[9:]) // 2 for it in answers], [512, 210])

    def test_a_client_that_reads_no_answers_is_given_up(self) -> None:
        fonts = b"%%?BeginFontQuery: " + b"a " * 2000 + b"\r%%?EndFontQuery: no\r"
        self.send(b"%!PS-Adobe-3.0 Query\r", ends=False)
        while not self.requests("2A06"):
            self.send(fonts, ends=False)
        self.assertEqual(self.told.getvalue(), "a client reads no answers: node 5\n")


if __name__ == "__main__":
    unittest.main()
