"""What a folder of data has, by `silo rows`."""

from __future__ import annotations

import pathlib
import tempfile

from silo import ActiveGrain, Counter, Kept, Row, Sheet, Silo, SiloEnded, rows
from silo.kept import kept_of
from silo.lines import StrangeReply

from . import beside
from .beside import Case


class Folders(Case):
    def setUp(self) -> None:
        folder = tempfile.TemporaryDirectory()
        self.addCleanup(folder.cleanup)
        self.data = pathlib.Path(folder.name, "-data")

    def test_rows_and_active_grains(self) -> None:
        with Silo("red:4:4", "blue:4:4", data=self.data, program=beside.program) as silo:
            red, blue = silo.client("red/web"), silo.client("blue/web")
            self.assertTrue(silo.tick(5))
            for counter in (Counter(red, "a"), Counter(red, "b"), Counter(blue, "a")):
                counter.add(by=3)
                counter.save()
            Counter(red, "a").add(by=4)
            Counter(red, "b").clear()
            Sheet(red, "s").put("k", [b"\x00\xff", None, "\u00fc\n"])
            Sheet(red, "s").stay(9)
            red.grain("sheet/red:t").poke(None)
        of_red = Kept(
            [Row("counter/red:a", 1, 3, False), Row("counter/red:b", 2, None, True), Row("sheet/red:t", 1, None, False)],
            [
                ActiveGrain("counter/red:a", 1, 5, 0, 7),
                ActiveGrain("counter/red:b", 2, 5, 0, 0),
                ActiveGrain("sheet/red:s", None, 5, 14, {"k": [b"\x00\xff", None, "\u00fc\n"]}),
            ],
        )
        self.assertEqual(rows(self.data, "red", program=beside.program), of_red)
        of_both = rows(str(self.data), program=beside.program)
        self.assertEqual(of_both.rows, [Row("counter/blue:a", 1, 3, False), *of_red.rows])
        self.assertEqual(of_both.active, [ActiveGrain("counter/blue:a", 1, 5, 0, 3), *of_red.active])
        self.assertEqual(rows(self.data, "green", program=beside.program), Kept([], []))

    def test_while_a_silo_has_the_folder(self) -> None:
        with Silo("red:4:4", data=self.data, program=beside.program) as silo:
            Counter(silo.client("red/web"), "a").add(by=3)
        with Silo("red:4:4", data=self.data, program=beside.program) as silo:
            # what came since the last checkpoint isn't there
            self.assertEqual(Counter(silo.client("red/web"), "a").add(by=4), 7)
            self.assertEqual([it.state for it in rows(self.data, program=beside.program).active], [3])

    def test_a_folder_without_a_checkpoint(self) -> None:
        for _ in range(2):
            with self.assertRaisesRegex(SiloEnded, "status 1: silo: reading failed$"):
                rows(self.data, program=beside.program)
            self.data.mkdir(exist_ok=True)
        (self.data / "checkpoint").write_text("what")
        with self.assertRaisesRegex(SiloEnded, "status 4: silo: the checkpoint is refused$"):
            rows(self.data, program=beside.program)

    def test_words_that_are_refused(self) -> None:
        for tenant in ("", "Red", "--help", "red:4:4"):
            with self.assertRaises(ValueError):
                rows(self.data, tenant, program=beside.program)

    def test_lines_that_no_silo_prints(self) -> None:
        self.assertEqual(kept_of(b""), Kept([], []))
        part = b'{"active":"counter/red:a","version":1,"last":0,"until":0}\n'
        for lines in (b"\n", b"[]\n", b"{}\n", b'{"row":"counter/red:a"}\n', part):
            with self.assertRaises(StrangeReply):
                kept_of(lines)
