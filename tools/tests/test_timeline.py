"""Tests of tools/timeline: what its pictures say of a run, how wide they are, and what is folded."""

import io
import json
import os
import pathlib
import re
import subprocess
import sys
import tempfile
import unittest
import xml.etree.ElementTree as tree

from loading import TOOLS, load_tool

timeline = load_tool("timeline")
EXAMPLES = sorted((TOOLS.parent / "examples").glob("*.report"))
SVG = "{http://www.w3.org/2000/svg}"


def read(text, most_rows=timeline.MOST_ROWS):
    """The picture of a report."""
    return timeline.Reader(most_rows).read(io.BytesIO(text.encode("latin-1")))


def report(generations, *lines):
    """A report of these lines."""
    return "\n".join(["beam report 1", f"generations {generations}", *lines, "end report", ""])


def text_of(picture, width=120):
    """The picture as text."""
    return "\n".join(timeline.text_picture(picture, width))


def puts(count, keys=1):
    """The report of so many puts, each of which replaces an earlier one's term."""
    lines = []
    for number in range(count):
        lines.append(f"entry L0 put k{number % keys} {{{number}}} = ok @{number + 1}")
        if number >= keys:
            lines.append(f"entry rt release {number + 1 - keys} = ok -")
    return report(count, *lines)


def many_processes(count):
    """The report of so many processes that each print and end."""
    spawns = [f"entry L0 spawn m:main({number}) = ok -" for number in range(count)]
    runs = [line for number in range(count) for line in
            (f"process {number} m:main({number})", "span 1 2", f"print {{said,{number}}}", "end normal")]
    return report(1, "entry L0 load m.1 = ok @1", *spawns, *runs)


class TheCodeServer(unittest.TestCase):
    """The column of the code server."""

    def lines(self, *entries, generations=9):
        return text_of(read(report(generations, *entries)), 160)

    def test_serials_are_given_in_order(self):
        told = self.lines("entry L0 load m.1 n.1 = ok @1", "entry L0 put k {1} = ok @2", "entry L0 put k {1} = ok -",
                          "entry L0 put j 7 = ok @3", "entry L0 load m.2 = ok @4", "entry L0 load m.3 = not_purged [m] -",
                          "entry L0 put j [] = ok @5")
        for line in ("load m.1 n.1 = ok -> serials 1, 2", "put k {1} = ok -> serial 3", "load m.2 = ok -> serial 4",
                     "put j [] = ok -> serial 5"):
            self.assertIn(line, told)
        self.assertIn("| L0 put j 7 = ok\n", told)
        self.assertEqual(told.count("->"), 4)

    def test_replies_stand_beside_their_commands(self):
        told = self.lines("entry L0 load m.1 m.2 = duplicated m -", "entry L1 load m.3 = not_purged [m] -",
                          "entry L0 load m.1 = system_limit instances -", "entry L0 soft_purge m = false 3 12 -")
        for line in ("L0 load m.1 m.2 = duplicated m", "L1 load m.3 = not_purged [m]",
                     "L0 load m.1 = system_limit instances",
                     "L0 soft_purge m = false 3 12: process 3 lingers after its turn 12"):
            self.assertIn(line, told)

    def test_releases_name_what_they_free(self):
        told = self.lines("entry L0 load m.1 = ok @1", "entry L0 put limits {1} = ok @2", "entry L0 load m.2 = ok @3",
                          "entry L0 soft_purge m = true @4", "entry rt release 1 = ok -", "entry L0 erase limits = true @5",
                          "entry rt release 2 = ok -", "entry rt release 9 = ok -")
        for line in ("rt release 1 = ok: frees m.1", "rt release 2 = ok: frees key limits",
                     "rt release 9 = ok: frees serial 9, which nothing was given"):
            self.assertIn(line, told)

    def test_entries_stand_under_their_generation(self):
        picture = read(report(2, "entry L0 check_old m = false -", "entry L0 load m.1 = ok @1",
                              "entry L0 check_old m = false -", "entry L0 load m.2 = ok @2"))
        counts = [dict(row.cells[timeline.SERVER].kinds) for row in picture.rows]
        self.assertEqual(counts, [{"check_old": 1}, {"load": 1, "check_old": 1}, {"load": 1}])


class ProcessesAndObservers(unittest.TestCase):
    """The other columns."""

    def test_an_end_names_module_and_version(self):
        told = text_of(read(report(2, "entry L0 load m.1 n.7 = ok @1", "entry L0 load m.2 = ok @2", "process 0 m:main()",
                                   "span 1 4", "trace m:f(7)", "print 3", "end killed 2")))
        for line in ("4 turns", "trace m:f(7)", "print 3", "end killed in n.7"):
            self.assertIn(line, told)

    def test_spans_stand_under_their_generation(self):
        picture = read(report(2, "entry L0 load m.1 = ok @1", "entry L0 load m.2 = ok @2", "process 0 m:main()",
                              "span 1 1", "span 2 3", "print 2", "end normal"))
        cells = [list(row.cells[("process", 0)].shown()) if ("process", 0) in row.cells else [] for row in picture.rows]
        self.assertEqual([[line for _, line in cell] for cell in cells],
                         [[], ["1 turn"], ["3 turns", "print 2", "end normal"]])

    def test_processes_are_numbered_by_loader(self):
        told = text_of(read(report(0, "entry L1 spawn b:main() = ok -", "entry L0 spawn a:main() = ok -",
                                   "entry L1 spawn b:more() = ok -", "process 0 a:main()", "end normal")))
        for line in ("L1 spawn b:main() = ok -> process 1", "L0 spawn a:main() = ok -> process 0",
                     "L1 spawn b:more() = ok -> process 2"):
            self.assertIn(line, told)

    def test_exports_name_module_and_version(self):
        told = text_of(read(report(1, "entry L0 load m.4 = ok @1", "observer 0", "snapshot 1", "export m:main/0 1")))
        self.assertIn("m:main/0 of m.4", told)
        self.assertIn("observer 0", told)


class Widths(unittest.TestCase):
    """Text is no wider than it may be."""

    def test_no_line_is_wider(self):
        pictures = [read(path.read_text(encoding="latin-1")) for path in EXAMPLES]
        pictures += [read(many_processes(16)), read(puts(300)), read(report(1, "entry L0 put k [" + "1," * 60 + "1] = ok @1"))]
        for picture in pictures:
            for width in (40, 80, 132):
                for line in timeline.text_picture(picture, width):
                    self.assertLessEqual(len(line), width)

    def test_each_process_has_its_place(self):
        told = text_of(read(many_processes(16)), 80)
        for number in range(16):
            self.assertEqual(len(re.findall(rf"\| process {number}\b", told)), 1)
            self.assertIn(f"print {{said,{number}}}", told)
        self.assertIn("part 2 of", told)

    def test_long_lines_are_wrapped_and_marked(self):
        self.assertEqual(timeline.wrapped("abcdefghij", 4), ["abcd", "  ef", "  g~"])
        self.assertEqual(timeline.wrapped("abcdef", 4), ["abcd", "  ef"])
        self.assertEqual(timeline.wrapped("lingers after its turn", 18), ["lingers after its", "  turn"])


class Folding(unittest.TestCase):
    """Long runs are folded, and say so."""

    def total(self, picture, kind):
        return sum(cell.kinds[kind] for row in picture.rows for cell in row.cells.values())

    def test_rows_alike(self):
        picture = read(puts(300))
        self.assertLess(len(picture.rows), 12)
        self.assertEqual(self.total(picture, "put"), 300)
        told = text_of(picture)
        self.assertIn("4-299", told)
        self.assertIn(".. 296 put, 296 release", told)
        self.assertIn("note: 296 generations that are like their neighbours are folded", told)

    def test_short_runs_stay(self):
        picture = read(puts(6))
        self.assertEqual([row.label for row in picture.rows], ["0", "1", "2", "3", "4", "5", "6"])
        self.assertEqual(picture.notes, [])

    def test_lines_of_a_cell(self):
        lines = [f"print {number}" for number in range(1000)]
        told = text_of(read(report(1, "process 0 m:main()", "span 1 1000", *lines, "end normal")))
        self.assertIn(".. and 994 prints", told)
        self.assertIn("print 999", told)
        self.assertNotIn("print 500", told)

    def test_many_generations_keep_few_lines(self):
        entries = [f"entry L0 trace m:f/0 {'on' if number % 2 else 'off'} = true @{number}" if number % 3 else
                   f"entry L0 put k {{{number}}} = ok @{number}" for number in range(1, 30_001)]
        picture = read(report(30_000, *entries))
        self.assertLessEqual(len(picture.rows), timeline.MOST_ROWS + timeline.FOLDED_ROWS)
        self.assertEqual(self.total(picture, "put") + self.total(picture, "trace"), 30_000)
        kept = sum(len(cell.first) + len(cell.last) for row in picture.rows for cell in row.cells.values())
        self.assertLess(kept, 2_000)
        self.assertLessEqual(len(picture.areas), timeline.MOST_AREAS)
        self.assertIn("30,001 generations are too many", text_of(picture))

    def test_rows_by_number(self):
        picture = read(puts(1000, 7), 40)
        self.assertEqual(self.total(picture, "put"), 1000)
        self.assertEqual(picture.rows[-1].last, 1000)


class Drawings(unittest.TestCase):
    """The picture that a browser shows."""

    def drawing(self, text):
        return tree.fromstring("\n".join(timeline.svg_picture(read(text))))

    def bars(self, text):
        picture = read(text)
        sheet = timeline.sheet_of(picture)
        return timeline.bars_of(picture, sheet), sheet

    def test_examples_are_drawn(self):
        for path in EXAMPLES:
            root = self.drawing(path.read_text(encoding="latin-1"))
            self.assertEqual(root.tag, f"{SVG}svg")

    def test_marks_are_escaped(self):
        told = "\n".join(timeline.svg_picture(read(report(0, "process 0 m:main()", "span 0 1", "print <&>", "end normal"))))
        self.assertIn("print &lt;&amp;&gt;", told)

    def test_nothing_is_clipped(self):
        texts = [path.read_text(encoding="latin-1") for path in EXAMPLES] + [many_processes(16), puts(300), puts(300, 40)]
        for text in texts:
            root = self.drawing(text)
            width, height = float(root.get("width")), float(root.get("height"))
            for line in root.iter(f"{SVG}text"):
                if line.get("x"):
                    self.assertLessEqual(float(line.get("x")) + len(line.text) * timeline.CHARACTER, width)
                    self.assertLessEqual(float(line.get("y")), height)

    def test_a_bar_goes_from_birth_by_retirement_to_release(self):
        bars, sheet = self.bars(report(
            4, "entry L0 load m.1 = ok @1", "entry L0 load m.2 = ok @2", "entry L0 soft_purge m = true @3",
            "entry rt release 1 = ok -", "entry L0 delete m = true @4"))
        first, second = sorted(bars, key=lambda bar: bar.areas[0].serial)
        row = [top + timeline.PAD / 2 + timeline.LINE / 2 for top in sheet.tops]
        self.assertEqual((first.born, first.aged, first.retired), (row[1], row[2], row[3]))
        self.assertEqual(first.released, row[3] + timeline.LINE)
        self.assertEqual((second.born, second.aged), (row[2], row[4]))
        self.assertEqual((second.retired, second.released), (sheet.bottom, sheet.bottom))

    def test_bars_of_terms(self):
        bars, sheet = self.bars(report(3, "entry L0 put k {1} = ok @1", "entry L0 put k 5 = ok @2",
                                       "entry rt release 1 = ok -", "entry L0 put j {2} = ok @3"))
        self.assertEqual([bar.label for bar in bars], ["1 k", "2 j"])
        self.assertLess(bars[0].retired, bars[0].released)
        self.assertFalse(bars[0].areas[0].is_code)

    def test_bars_of_a_lane_do_not_overlap(self):
        for text in (puts(300, 40), puts(300), puts(60, 13)):
            lanes = {}
            for bar in sorted(self.bars(text)[0], key=lambda bar: bar.born):
                self.assertGreaterEqual(bar.born, lanes.get(bar.lane, 0))
                lanes[bar.lane] = bar.released


class Lives(unittest.TestCase):
    """The columns of processes in a drawing."""

    ENDS = ("normal", "killed 1", "badarg", "undef m:f/0", "badarith", "system_limit")

    def drawing(self, number):
        """The drawing of a report with so many processes, each of which has turns under the first and the last generation."""
        spawns = [f"entry L0 spawn m:main({each}) = ok -" for each in range(number)]
        lines = [line for each in range(number) for line in (f"process {each} m:main({each})", "span 1 3", "print 7", "span 5 2", f"end {self.ENDS[each % 6]}")]
        puts = [f"entry L0 put k {each} = ok @{each}" for each in range(2, 6)]
        picture = timeline.Reader(timeline.MOST_ROWS).read(io.BytesIO(report(5, "entry L0 load m.1 = ok @1", *spawns, *puts, *lines).encode()))
        return picture, *timeline.laid_out(picture), "\n".join(timeline.svg_picture(picture))

    def test_many_processes_fit_a_screen(self):
        for number, is_narrow in ((3, False), (20, True), (64, True)):
            _, sheet, _, drawn = self.drawing(number)
            self.assertEqual(sheet.is_narrow, is_narrow)
            self.assertLessEqual(int(re.search(r'width="(\d+)"', drawn)[1]), timeline.SCREEN)
            self.assertLessEqual(int(re.search(r'height="(\d+)"', drawn)[1]), 1000)
            lefts = [sheet.left[("process", each)] for each in range(number)]
            self.assertGreaterEqual(min([b - a for a, b in zip(lefts, lefts[1:])]), timeline.LEAST_LANE)

    def test_a_bar_has_no_gap(self):
        for number in (3, 64):
            picture, sheet, _, _ = self.drawing(number)
            lives = [line for line in timeline.drawn_lives(picture, sheet) if timeline.LIFE_COLOUR in line]
            self.assertEqual(len(lives), number)
            for line in lives:
                top, height = (float(re.search(rf' {name}="([0-9.]+)"', line)[1]) for name in ("y", "height"))
                self.assertLessEqual(top, sheet.tops[1] + timeline.PAD)
                self.assertGreaterEqual(top + height, sheet.bottom - timeline.PAD)

    def test_ends_have_the_colours_of_their_kinds(self):
        kinds = ("normal", "killed", "fault", "fault", "fault", "system_limit")
        for end, kind in zip(self.ENDS, kinds):
            self.assertEqual(timeline.end_kind(f"end {end}"), kind)
            self.assertIn(timeline.END_COLOURS[kind], timeline.colour_of(f"end {end}"))
        self.assertEqual(len(set(timeline.END_COLOURS.values())), 4)
        for number in (6, 64):
            _, _, _, drawn = self.drawing(number)
            for phrase in ("end normal", "killed by a purge", "end by a fault", "end at a limit"):
                self.assertIn(f">{phrase}<", drawn)
        self.assertNotIn("killed by a purge", self.drawing(1)[3])

    def test_a_narrow_column_tells_its_lines(self):
        drawn = self.drawing(64)[3]
        self.assertIn("<title>process 63, spawned\n3 turns\nprint 7</title>", drawn)
        self.assertIn(">63 m:main(63)<", drawn)
        self.assertEqual([timeline.short_number(each) for each in (7, 9_999, 12_345, 3_000_000)], ["7", "9999", "12k", "3M"])


class TheProgram(unittest.TestCase):
    """The tool as it is called."""

    def call(self, *words, given="", columns="100"):
        return subprocess.run([sys.executable, str(TOOLS / "timeline"), *words], input=given, text=True,
                              capture_output=True, check=False, env={**os.environ, "COLUMNS": columns})

    def test_script_with_report_behind(self):
        both = "".join((TOOLS.parent / "examples" / f"upgrade.{kind}").read_text() for kind in ("script", "report"))
        done = self.call(given=both)
        self.assertEqual(done.returncode, 0)
        self.assertIn("L0 load m.2 = ok -> serial 2", done.stdout)
        self.assertNotIn("note", done.stdout)

    def test_terminal_width(self):
        path = str(TOOLS.parent / "examples" / "upgrade.report")
        for columns in ("50", "90"):
            told = self.call(path, columns=columns).stdout
            self.assertLessEqual(max(map(len, told.split("\n"))), int(columns))

    def test_drawing_of_a_file(self):
        with tempfile.TemporaryDirectory() as folder:
            path = pathlib.Path(folder) / "a.report"
            path.write_text(puts(3), encoding="ascii")
            self.assertTrue(self.call("--svg", str(path)).stdout.startswith("<svg "))

    def test_no_report(self):
        self.assertEqual(self.call(given="beam script 1\ngo\n").returncode, 2)
        self.assertEqual(self.call("/no/such/file").returncode, 2)

    def test_for_other_programs(self):
        text = report(900, "entry L0 load m.1 = ok @1", "entry L0 spawn m:main() = ok -",
                      *(f"entry L0 put k {{{number}}} = ok @{number}" for number in range(2, 901)), "entry rt release 1 = ok -",
                      "process 0 m:main()", "span 1 3", *["print 1"] * 30, "end normal", "observer 0", "snapshot 2", "export m:main/0 1")
        told = json.loads(self.call("--json", given=text).stdout)
        self.assertEqual((told["form"], len(told["generations"]), told["notes"]), (1, 901, []))
        self.assertEqual(told["columns"], {"process 0": "process 0\nm:main()", "observer 0": "observer 0"})
        self.assertEqual(told["generations"][1]["server"], ["L0 load m.1 = ok -> serial 1", "L0 spawn m:main() = ok -> process 0"])
        self.assertEqual(told["generations"][1]["processes"]["0"], ["spawned", "3 turns", *["print 1"] * 30, "end normal"])
        self.assertEqual(told["generations"][2]["observers"], {"0": ["snapshot", "  m:main/0 of m.1"]})
        self.assertEqual(told["areas"][0], {"serial": 1, "name": "m.1", "is_code": True, "born": 1, "old": None, "retired": None, "released": 900})
        self.assertEqual(len(told["areas"]), 900)
        self.assertEqual(told["areas"][1]["retired"], 3)

    def test_a_full_disk(self):
        path = str(TOOLS.parent / "examples" / "upgrade.report")
        for words in ([path], ["--svg", path]):
            with open("/dev/full", "wb") as full:
                done = subprocess.run([sys.executable, str(TOOLS / "timeline"), *words], stdout=full, stderr=subprocess.PIPE, check=False)
            self.assertEqual((done.returncode, done.stderr.count(b"\n")), (5, 1))
            self.assertIn(b"No space left", done.stderr)

    def test_a_report_that_stops(self):
        done = self.call(given="beam report 1\ngenerations 0\nnoise\n")
        self.assertEqual(done.returncode, 0)
        self.assertIn("1 lines were not understood", done.stdout)
        self.assertIn("does not end with `end report`", done.stdout)


if __name__ == "__main__":
    unittest.main()
