"""The bench samples and the edges of the module, through the shared library."""

import os
import pickle
import subprocess
import sys
import threading
import unittest

import tenderchock
from tenderchock import Bed, Chain, LiftedPosition, LiftedRegion, Psl, Refusal, Row, Tally

CHAIN_A = "chain 100 tA 100 + 10 40 qB 80 - 5 33 7\n10 3 0\n8 0 1\n9\n"
CHAIN_A_TURNED = "chain 100 qB 80 + 47 75 tA 100 - 60 90 7\n9 1 0\n8 0 3\n10\n"
ROWS_A = [Row(10, 5, 10), Row(23, 15, 8), Row(31, 24, 9)]
PSL_A = "27 0 0 0 1 1 1 3 - qB 80 47 75 tA 100 10 40 3 10,8,9, 5,15,24, 10,23,31,"
BED_000 = "chr22 1000 5000 cloneA 960 + 1000 5000 0 2 567,488, 0,3512"
BED_001 = "chrX 156881 157496 Hs.530320 300 + 156881 157496 0 2 231,384, 0,231,"


def blocks(count):
    """A BED line of this many blocks."""
    sizes, starts = "1," * count, ",".join(str(2 * k) for k in range(count))
    return f"c 0 {2 * count - 1} n 0 + 0 {2 * count - 1} 0 {count} {sizes} {starts}"


class Case(unittest.TestCase):
    def refused(self, number, place, call, *words):
        with self.assertRaises(Refusal) as caught:
            call(*words)
        self.assertEqual((caught.exception.number, caught.exception.place), (number, place))
        return caught.exception


class BenchSamples(Case):
    def test_positions_of_chain_a(self):
        for position, partner in [(10, 74), (19, 65), (23, 64), (31, 55)]:
            lifted = tenderchock.lift_position(CHAIN_A, position)
            self.assertEqual(lifted, LiftedPosition(partner, partner - position))
        for position, number in [(20, 12), (22, 12), (40, 12), (99, 12), (100, 13)]:
            self.refused(number, 0, tenderchock.lift_position, CHAIN_A, position)

    def test_a_drift_below_zero(self):
        self.assertEqual(tenderchock.lift_position(CHAIN_A_TURNED, 74), LiftedPosition(10, -64))

    def test_regions_of_chain_a(self):
        self.assertEqual(tenderchock.lift_region(CHAIN_A, 18, 25), LiftedRegion(4, 3, 63, 67))
        self.refused(12, 0, tenderchock.lift_region, CHAIN_A, 20, 23)
        self.refused(13, 0, tenderchock.lift_region, CHAIN_A, 20, 20)

    def test_chain_a_turned(self):
        self.assertEqual(tenderchock.turn(CHAIN_A), CHAIN_A_TURNED)
        self.assertEqual(tenderchock.turn(CHAIN_A_TURNED), CHAIN_A)

    def test_chain_a_read(self):
        read = Chain(100, "tA", 100, 10, 40, "qB", 80, "-", 5, 33, 7, ROWS_A)
        self.assertEqual(tenderchock.parse("chain", CHAIN_A), read)
        self.assertEqual(tenderchock.check("chain", CHAIN_A), 3)
        longer = CHAIN_A[:-2] + "10\n"
        self.refused(9, len(longer), tenderchock.check, "chain", longer)

    def test_the_psl_line(self):
        read = Psl(27, 0, 0, 0, 1, 1, 1, 3, "-", "qB", 80, 47, 75, "tA", 100, 10, 40, ROWS_A)
        self.assertEqual(tenderchock.parse("psl", PSL_A), read)
        self.assertEqual(tenderchock.format("psl", PSL_A), PSL_A.replace(" ", "\t") + "\n")
        other = PSL_A.replace("47 75", "5 33")
        self.refused(9, len(other), tenderchock.parse, "psl", other)

    def test_the_bed_lines(self):
        rows = [Row(1000, 0, 567), Row(4512, 567, 488)]
        read = Bed(12, "chr22", 1000, 5000, "cloneA", 960, "+", 1000, 5000, (0, 0, 0), rows)
        self.assertEqual(tenderchock.parse("bed", BED_000), read)
        self.assertEqual(tenderchock.format("bed", BED_000), BED_000.replace(" ", "\t") + ",\n")
        shorter = BED_000.replace("5000", "4999")
        self.refused(9, len(shorter), tenderchock.check, "bed", shorter)
        touching = [Row(156881, 0, 231), Row(157112, 231, 384)]
        self.assertEqual(tenderchock.parse("bed", BED_001).rows, touching)

    def test_columns_left_out(self):
        read = Bed(3, "c", 7, 9, "", 0, ".", 7, 9, (0, 0, 0), [Row(7, 0, 2)])
        self.assertEqual(tenderchock.parse("bed", "c 7 9"), read)
        self.assertEqual(tenderchock.parse("bed", "c 7 9 n 5 - 8 9 1,2,255").item_rgb, (1, 2, 255))

    def test_numbers_and_limits(self):
        self.assertEqual(tenderchock.check("bed", "c 1 2 n 1000"), 1)
        self.refused(5, 8, tenderchock.check, "bed", "c 1 2 n 1001")
        self.refused(4, 2, tenderchock.check, "bed", "c 007 9")
        self.assertEqual(tenderchock.check("bed", blocks(512)), 512)
        self.assertEqual(len(tenderchock.parse("bed", blocks(512)).rows), 512)
        many = blocks(513)
        self.refused(5, many.index(" 513 ") + 1, tenderchock.check, "bed", many)
        head = "chain 1 t 2000 + 0 1025 q 2000 + 0 1025 1\n"
        body = "1 1 1\n" * 512 + "1\n"
        self.refused(11, len(head) + 512 * 6, tenderchock.check, "chain", head + body)

    def test_converting(self):
        self.assertEqual(tenderchock.convert(5, 33, 80), (47, 75))
        self.refused(7, 0, tenderchock.convert, 5, 81, 80)
        self.refused(5, 0, tenderchock.convert, 0, 1, 2**31)

    def test_numbers_of_a_line(self):
        self.assertEqual(tenderchock.numbers("567 488\n"), [567, 488])
        self.assertEqual(tenderchock.numbers(" ".join(["7"] * 32_768)), [7] * 32_768)
        self.assertEqual(tenderchock.numbers(""), [])
        self.refused(4, 3, tenderchock.numbers, "12 567,488")
        self.refused(1, 0, tenderchock.numbers, "1" * 65_537)

    def test_a_batch(self):
        tally, regions = Tally(), [(18, 25), (20, 23), (20, 20), (0, 101)]
        answers = tenderchock.lift_batch(CHAIN_A, regions, tally)
        self.assertEqual(answers[0], LiftedRegion(4, 3, 63, 67))
        self.assertEqual([(answer.number, answer.place) for answer in answers[1:]], [(12, 0), (13, 0), (13, 0)])
        self.assertEqual((tally.asked, tally.kept, tally.dropped), (10, 4, 6))
        self.assertEqual(tenderchock.lift_batch(CHAIN_A, iter(regions[:1])), answers[:1])
        self.assertEqual(tenderchock.lift_batch(CHAIN_A, []), [])
        self.refused(9, len(CHAIN_A) + 1, tenderchock.lift_batch, CHAIN_A[:-2] + "10\n", regions, tally)
        self.assertEqual((tally.asked, tally.kept, tally.dropped), (10, 4, 6))

    def test_a_tally(self):
        tally = Tally()
        self.assertEqual(tally.add(CHAIN_A, 18, 25), 4)
        self.refused(12, 0, tally.add, CHAIN_A, 20, 23)
        self.assertEqual((tally.asked, tally.kept, tally.dropped), (10, 4, 6))
        self.refused(13, 0, tally.add, CHAIN_A, 20, 20)
        self.assertEqual(repr(tally), "Tally(asked=10, kept=4, dropped=6)")
        bad = Tally(asked=1)
        self.refused(10, 0, bad.add, CHAIN_A, 18, 25)
        full = Tally(2**63 - 1, 2**63 - 1, 0)
        self.refused(5, 0, full.add, CHAIN_A, 18, 25)
        self.assertEqual((full.asked, full.kept, full.dropped), (2**63 - 1, 2**63 - 1, 0))


class Edges(Case):
    def test_a_refusal_tells_all(self):
        refusal = self.refused(4, 6, tenderchock.check, "bed", "chr22 1,000 5000")
        self.assertEqual(refusal.meaning, "a number is misspelt, or a list item is empty")
        self.assertEqual(str(refusal), "refused by 4 at byte 6: " + refusal.meaning)
        copy = pickle.loads(pickle.dumps(refusal))
        self.assertEqual((copy.number, copy.place), (4, 6))

    def test_every_form_of_text(self):
        for text in (b"c 7 9", bytearray(b"c 7 9"), memoryview(b"c 7 9"), "c 7 9"):
            self.assertEqual(tenderchock.check("bed", text), 1)
        for wrong in (5, None, ["c 7 9"]):
            with self.assertRaises(TypeError):
                tenderchock.check("bed", wrong)

    def test_bytes_that_are_not_allowed(self):
        self.refused(3, 1, tenderchock.check, "bed", "c\0 7 9")
        self.refused(3, 0, tenderchock.check, "bed", "\u00e9 7 9")
        self.refused(3, 2, tenderchock.check, "bed", "c \udc80 7")
        self.refused(2, 0, tenderchock.check, "bed", "")
        self.refused(1, 0, tenderchock.check, "bed", "c" * 65_537)

    def test_numbers_are_never_cut_short(self):
        for wrong in (-1, 2**64 + 10):
            with self.assertRaises(ValueError):
                tenderchock.lift_position(CHAIN_A, wrong)
            with self.assertRaises(ValueError):
                tenderchock.convert(wrong, 33, 80)
            with self.assertRaises(ValueError):
                Tally(asked=wrong).add(CHAIN_A, 18, 25)
            with self.assertRaises(ValueError):
                tenderchock.lift_batch(CHAIN_A, [(18, wrong)])
        with self.assertRaises(TypeError):
            tenderchock.lift_position(CHAIN_A, 10.0)
        self.refused(13, 0, tenderchock.lift_position, CHAIN_A, 2**64 - 1)

    def test_kinds(self):
        for wrong in ("gff", 1, None, []):
            with self.assertRaises(ValueError):
                tenderchock.check(wrong, "c 7 9")

    def test_threads(self):
        wrong = []

        def work(k):
            line = f"c{k} {k} {k + 9}"
            for _ in range(300):
                read = tenderchock.parse("bed", line)
                if (read.chrom, read.chrom_start) != (f"c{k}", k):
                    wrong.append(read)

        threads = [threading.Thread(target=work, args=(k,)) for k in range(8)]
        for thread in threads:
            thread.start()
        for thread in threads:
            thread.join()
        self.assertEqual(wrong, [])

    def test_a_library_that_is_not_there(self):
        told = subprocess.run(
            [sys.executable, "-B", "-c", "import tenderchock"],
            cwd=os.path.dirname(os.path.abspath(__file__)),
            env={**os.environ, "TENDERCHOCK_SO": "none.so"},
            capture_output=True,
            text=True,
            check=False,
        )
        self.assertEqual(told.returncode, 1)
        self.assertIn("ImportError: cannot load the Tenderchock library", told.stderr)


if __name__ == "__main__":
    unittest.main()
