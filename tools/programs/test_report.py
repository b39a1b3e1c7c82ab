"""The page of `report`: its numbers, lists and pictures, as the test computes them of the bytes of
the directory."""

import email.utils
import os
import re
import time

import kit
import log_files
import manifest_files

LEDGERS, LOGS = "ledgers.manifest", "logs.manifest"
# Numbers of the picture of a curve: its left end, its bottom, its width and its height.
LEFT, BOTTOM, WIDTH, HEIGHT = 80, 240, 660, 210
# A file that ends in no record.
BAD_END = b"\0\0\0\7" + bytes(40)


def number(text):
    return int(text.replace(",", ""))


def plain(html):
    """Returns the text of a piece of the page; of a size its exact number of bytes."""
    html = re.sub(r'<span title="([\d,]+) bytes">.*?</span>', r"\1", html)
    html = re.sub(r"<svg.*?</svg>", "", html, flags=re.S)
    return re.sub(r"<.*?>", "", html)


class Case(kit.Case):
    def page(self, *words, status=0):
        return self.bookie("report", *words, self.logs, status=status)[0]

    def section(self, page, head):
        """Returns the section with this head."""
        found = re.search(rf"<h2>{head}</h2>.*?</section>", page, re.S)
        self.assertTrue(found, head)
        return found[0]

    def rows(self, html):
        """Returns the cells of each row of the last table."""
        table = re.findall(r"<tbody>.*?</tbody>", html, re.S)[-1]
        rows = re.findall(r"<tr.*?</tr>", table, re.S)
        return [[plain(it) for it in re.findall(r"<td.*?</td>", row, re.S)] for row in rows]


class Frame(Case):
    def test_time_is_that_of_the_call(self):
        log_files.write(self.logs, {0: [(1, 0, b"one")]})
        before = int(time.time())
        page = self.page()
        told = re.search(r"Read at (.*?)\.</p>", page)[1]
        self.assertTrue(told.endswith(" GMT"), told)
        read = email.utils.parsedate_to_datetime(told).timestamp()
        self.assertTrue(before <= read <= time.time(), told)

    def test_tiles(self):
        entries = {0: [(1, 0, b"x" * 80), (2, 0, b"x" * 30)], 1: [(2, 1, b"x" * 10)]}
        log_files.write(self.logs, entries, opened=(1,))
        sizes = [(self.logs / f"{it}.log").stat().st_size for it in (0, 1)]
        tiles = re.findall(r"<li>(.*?)</li>", self.page("--dead", "2").split("</ul>")[0], re.S)
        self.assertEqual(
            [plain(it.replace("<b", " <b").replace("</b>", " ")) for it in tiles],
            [
                "Logs 2 1 sealed",
                f"Files {sum(sizes):,} largest {max(sizes):,}",
                "Entries 3 in all logs",
                "Live 55.5 % of the bytes of entries",
                "Ledgers 2 1 known as deleted",
                "Faults 0 none was found",
            ],
        )


class Ledgers(Case):
    def test_largest_twenty_the_largest_first(self):
        """Of equal ones the least id is first."""
        sizes = {ledger: 1000 + 10 * (ledger * 7 % 11) for ledger in range(1, 23)}
        log_files.write(self.logs, {0: [(it, 0, bytes(size)) for it, size in sizes.items()]})
        part = self.section(self.page("--dead", "10", "--dead", "4"), "Largest ledgers")
        self.assertIn("The largest 20 of 22 ledgers", part)
        wanted = sorted(sizes, key=lambda it: (-sizes[it], it))[:20]
        rows = self.rows(part)
        self.assertEqual([int(it[0]) for it in rows], wanted)
        self.assertEqual([number(it[2]) for it in rows], [sizes[it] + 20 for it in wanted])
        self.assertEqual(
            [it[5] for it in rows], ["dead" if it in (4, 10) else "live" for it in wanted]
        )
        bars = re.findall(r'<rect class="(\w+)" x="0" width="(\d+)"', part)
        most = max(sizes.values()) + 20
        lengths = [(sizes[it] + 20) * 1000 // most for it in wanted]
        self.assertEqual([int(width) for _, width in bars], lengths)

    def test_sizes_by_powers_of_two(self):
        sizes = [20, 31, 32, 63, 64, 500, 1024, 1500, 2047]
        log_files.write(
            self.logs, {0: [(1, it, bytes(size - 20)) for it, size in enumerate(sizes)]}
        )
        rows = self.rows(self.section(self.page(), "Sizes of entries"))
        wanted = []
        for power in range(4, 11):
            count = sum(1 << power <= it < 2 << power for it in sizes)
            share = 1000 * count // len(sizes)
            bounds = [f"{1 << power:,}", f"{2 << power:,}"]
            wanted.append([*bounds, "", str(count), f"{share // 10}.{share % 10} %"])
        self.assertEqual(rows, wanted)


class ManyLogs(Case):
    """Past a hundred logs each has a column, and those with the most dead bytes are listed."""

    def lay(self, count):
        self.dead = {it: 50 + it % 3 * 10 for it in range(count)}
        entries = {it: [(1, it, bytes(80)), (2, it, bytes(self.dead[it] - 20))] for it in self.dead}
        log_files.write(self.logs, entries)

    def test_hundred_logs_have_a_bar_each(self):
        self.lay(100)
        part = self.section(self.page("--dead", "2"), "Logs")
        self.assertNotIn("<details>", part)
        self.assertEqual([int(it[0].split()[0]) for it in self.rows(part)], list(range(100)))
        self.assertEqual(part.count('<svg class="bar"'), 100)

    def test_logs_past_a_hundred(self):
        self.lay(101)
        kit.flip(self.logs / "7.log", 0)
        part = self.section(self.page("--dead", "2", status=1), "Logs")
        self.assertIn('<p class="quiet">logs 0 to 100</p>', part)
        columns = re.findall(r"<g>.*?</g>", part, re.S)
        self.assertEqual([int(re.search(r"log (\d+)", it)[1]) for it in columns], list(range(101)))
        marked = [at for at, it in enumerate(columns) if 'class="doubtful"' in it]
        self.assertEqual(marked, [7])
        listed, folded = re.findall(r"<tbody>.*?</tbody>", part, re.S)
        found = [int(it) for it in re.findall(r'<td class="id">(\d+) ', listed)]
        self.assertEqual(found, sorted(self.dead, key=lambda it: (-self.dead[it], it))[:20])
        found = [int(it) for it in re.findall(r'<td class="id">(\d+) ', folded)]
        self.assertEqual(found, list(range(101)))


class Effect(Case):
    """What a compaction would free."""

    def setUp(self):
        super().setUp()
        # The live share of log n is about n hundredths.
        logs = {}
        for log in range(5, 100, 9):
            live, dead = (1, log, bytes(log * 20)), (2, log, bytes((100 - log) * 20))
            logs[log] = [live, dead]
        logs[0] = [(2, 0, bytes(700))]
        self.entries = logs
        log_files.write(self.logs, logs)

    def effect(self, threshold):
        """Returns the logs that a compaction takes, the live bytes, and the bytes freed."""
        taken = copied = freed = 0
        for log, entries in self.entries.items():
            sizes = log_files.sizes_of(entries)
            live, every = sizes.get(1, 0), sum(sizes.values())
            if live * 1000 < threshold * every or live == 0:
                taken, copied = taken + 1, copied + live
                copy = (
                    len(log_files.sealed_log([it for it in entries if it[0] == 1])) if live else 0
                )
                freed += (self.logs / log_files.name_of(log)).stat().st_size - copy
        return taken, copied, freed

    def part(self, *words, status=0):
        return self.section(
            self.page("--dead", "2", *words, status=status), "What a compaction would free"
        )

    def test_table(self):
        part, every = self.part(), sum(it.stat().st_size for it in self.logs.glob("*.log"))
        wanted = []
        for threshold in range(0, 1001, 100):
            taken, copied, freed = self.effect(threshold)
            kind = {200: ", minor", 800: ", major"}.get(threshold, "")
            name = f"below {threshold // 10} %{kind}" if threshold else "nothing live"
            share = 1000 * freed // every
            wanted.append(
                [name, str(taken), f"{copied:,}", f"{freed:,}", f"{share // 10}.{share % 10} %"]
            )
        self.assertEqual(self.rows(part), wanted)

    def test_curves(self):
        part = self.part()
        effects = [self.effect(it) for it in range(0, 1001, 25)]
        most = max(max(copied, freed) for _, copied, freed in effects)
        step = 1 << max(-(-most // 4) - 1, 0).bit_length()
        top = -(-most // step) * step
        self.assertEqual(part.count('<path class="grid"'), top // step + 1)
        for name, at in (("copied", 1), ("freed", 2)):
            points = re.search(rf'<polyline class="{name}" points="(.*?) "', part)[1].split()
            wanted = [
                f"{LEFT + WIDTH * 25 * it // 1000},{BOTTOM - HEIGHT * effect[at] // top}"
                for it, effect in enumerate(effects)
            ]
            self.assertEqual(points, wanted)
        titles = re.findall(r"<title>below ([\d.]+) %: (.*?)</title>", part)
        wanted = [
            (
                f"{it * 25 // 10}.{it * 25 % 10}",
                f"{one} logs, {two:,} bytes copied, {three:,} bytes freed",
            )
            for it, (one, two, three) in enumerate(effects)
        ]
        self.assertEqual(titles, wanted)

    def test_faults_and_short_files_are_left_out(self):
        """A log whose map alone is wrong is not."""
        whole = self.rows(self.part())[-1]
        (self.logs / "1.log").write_bytes(b"short")
        (self.logs / "2.log").write_bytes(b"BKLO" + bytes(900))
        (self.logs / "3.log").write_bytes(log_files.open_log([(1, 3, b"x")], BAD_END))
        data = bytearray((self.logs / "e.log").read_bytes())
        data[-1] ^= 1
        (self.logs / "e.log").write_bytes(data)
        part = self.part(status=1)
        self.assertIn("Logs with a fault, which are left out here: 1.", part)
        self.assertIn("a compaction leaves as they are: 2.", part)
        self.assertEqual(self.rows(part)[-1][:4], whole[:4])
        states = {
            it[0].split()[0]: it[-1]
            for it in self.rows(self.section(self.page("--dead", "2", status=1), "Logs"))
        }
        self.assertEqual((states["14"], states["3"]), ("sealed", "fault"))


class Parts(Case):
    def test_bytes_after_a_fault_are_doubtful(self):
        log_files.write(self.logs, {0: [(1, 0, b"x" * 80)]})
        (self.logs / "1.log").write_bytes(log_files.open_log([(1, 1, b"x" * 80)], BAD_END))
        torn = log_files.records([(1, 2, b"x" * 80)])[:50]
        (self.logs / "2.log").write_bytes(log_files.open_log([], torn))
        rows = self.rows(self.section(self.page(status=1), "Logs"))
        self.assertEqual(
            [it[5:9] for it in rows[1:]], [["0", "0", "0", "44"], ["0", "0", "50", "0"]]
        )
        self.assertEqual(rows[0][5:9], ["0", "40", "0", "0"])

    def test_small_pieces_are_seen(self):
        """Torn bytes have at least twelve thousandths of a bar, other ones only their share."""
        log_files.write(self.logs, {0: [(1, 0, bytes(100_000))]})
        most = (self.logs / "0.log").stat().st_size
        small, live = (2, 1, bytes(80)), (1, 1, bytes(20_000))
        (self.logs / "1.log").write_bytes(log_files.open_log([live, small], b"torn"))
        bars = re.findall(r'<svg class="bar".*?</svg>', self.page("--dead", "2"), re.S)
        found = re.findall(r'<rect class="(\w+)" x="(\d+)" width="(\d+)"', bars[1])
        live, dead, torn, rest = (it * 1000 // most for it in (20_020, 20_120, 20_124, 21_148))
        wanted = [
            ("live", 0, live),
            ("dead", live, dead),
            ("torn", torn - 12, torn),
            ("rest", torn, rest),
        ]
        wanted = [(name, str(at), str(to - at)) for name, at, to in wanted if at < to]
        self.assertEqual(found, wanted)


class Manifest(Case):
    def rows_of(self, page):
        table = re.findall(r"<tbody>.*?</tbody>", self.section(page, "Manifest"), re.S)[-1]
        return re.findall(r"<tr>.*?</tr>", table)

    def test_durable_bytes_that_are_missing_are_marked(self):
        log_files.write(self.logs, {it: [(1, it, b"x")] for it in range(2)})
        length = (self.logs / "0.log").stat().st_size
        records = [("durable", 0, length), ("durable", 1, length + 1), ("durable", 2, 2000)]
        records += [("removed", 3, 1500), ("made", 4)]
        (self.logs / LOGS).write_bytes(manifest_files.written(1, records))
        page = self.bookie("report", self.logs)[0]
        rows = {it.split("</td>")[0].split(">")[-1]: it for it in self.rows_of(page)}
        self.assertEqual([it for it, row in sorted(rows.items()) if '"bad"' in row], ["1", "2"])
        said = {it: plain(row.replace("</td>", " ")).split() for it, row in rows.items()}
        self.assertEqual(said["0"], ["0", "durable", f"{length:,}", f"{length:,}"])
        self.assertEqual(said["1"], ["1", "durable", f"{length + 1:,}", f"{length:,}"])
        self.assertEqual(said["2"], ["2", "durable", "2,000", "no", "file"])
        self.assertEqual(said["3"], ["3", "removed", "no", "file"])
        self.assertEqual(said["4"], ["4", "made", "no", "file"])

    def test_two_hundred_ids_are_listed(self):
        log_files.write(self.logs, {0: [(1, 0, b"x")]})
        for count in (200, 201):
            records = [("deleted", it) for it in range(10, 10 + count)]
            (self.logs / LEDGERS).write_bytes(manifest_files.written(1, records))
            ids = ", ".join(str(it) for it in range(10, 210))
            more = ", .." if count > 200 else ""
            self.assertIn(f"<p>Deleted ledgers: {count} ({ids}{more}).</p>", self.page())
