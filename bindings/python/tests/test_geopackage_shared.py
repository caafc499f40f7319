"""GeoPackages that another process has open, and what may end a run."""

import contextlib
import os
import shutil
import signal
import sqlite3
import subprocess
import sys
import textwrap
import time
import unittest
from unittest import mock

import samples
from i_shape._command import geopackage
from test_geopackage import (FLAT_BLOB, HIGH_BLOB, POINT, SPIKED_BLOB,
                             SQUARE_BLOB, GeoPackageCase, without_progress)

OTHER = textwrap.dedent("""
    import sqlite3
    import sys
    from i_shape._command import geopackage
    store = sqlite3.connect(sys.argv[1], timeout=60, isolation_level=None)
    geopackage._add_functions(store)
    for line in sys.stdin:
        try:
            print(store.execute(line).fetchall(), flush=True)
        except sqlite3.Error as error:
            print(error, flush=True)
""")
HOSTILE = textwrap.dedent("""
    import os
    import runpy
    import signal
    import sys
    from i_shape._command import geopackage
    {}
    runpy.run_module("i_shape", run_name="__main__", alter_sys=True)
""")
ENDLESS = ("(WITH RECURSIVE numbers(x) AS (SELECT 1 UNION ALL SELECT x"
           " FROM numbers) SELECT count(*) FROM numbers)")
COUNT = "SELECT count(*) FROM parcels"
EDIT = "UPDATE parcels SET name = 'edited' WHERE fid < 40"
LOCKED = ("database is locked: another program has it open; close it there, or"
          " try again later")


class Other:
    """Another process that has a file open."""

    def __init__(self, path):
        self._run = subprocess.Popen(
            [sys.executable, "-c", OTHER, path], stdin=subprocess.PIPE,
            stdout=subprocess.PIPE, text=True)

    def begin(self, words):
        """Let it run a statement, and don't wait for it."""
        self._run.stdin.write(f"{words}\n")
        self._run.stdin.flush()

    def answer(self):
        return self._run.stdout.readline().strip()

    def ask(self, words):
        self.begin(words)
        return self.answer()

    def close(self):
        self._run.communicate(timeout=60)


class SharedCase(GeoPackageCase):

    def setUp(self):
        super().setUp()
        self.fill(*[SPIKED_BLOB] * 50)
        shutil.copy(self.given, self.folder / "first")

    def begin(self, mode, out):
        """IN and OUT as at first, in a journal mode; and both as dumped."""
        for path in self.folder.glob("*.gpkg*"):
            path.unlink()
        shutil.copy(self.folder / "first", self.given)
        if out != self.given:
            shutil.copy(self.given, out)
            self.change("CREATE TABLE there (number)", path=out)
        for path in {self.given, out}:
            with contextlib.closing(sqlite3.connect(path)) as store:
                store.execute(f"PRAGMA journal_mode = {mode}")
        return [self.dump_of(path) for path in (self.given, out)]

    def dump_of(self, path):
        """What a whole file has."""
        with contextlib.closing(sqlite3.connect(path)) as store:
            self.assertEqual(
                store.execute("PRAGMA integrity_check").fetchall(), [("ok",)])
            self.assertEqual(store.execute(
                "SELECT rtreecheck('rtree_parcels')").fetchall(), [("ok",)])
            return list(store.iterdump())

    def assert_cleaned(self, path, mode, edited=19):
        """All is cleaned, the other's rows are there, and no log is left."""
        self.dump_of(path)
        rows = self.rows(path)
        self.assertEqual({one[40:] for _, _, one in rows}, {SQUARE_BLOB[8:]})
        self.assertEqual(sum(name == "edited" for _, name, _ in rows), edited)
        self.assertEqual(self.mode_of(path), mode)
        self.assertEqual(sorted(self.folder.glob(".*")), [])
        self.assertEqual(sorted(self.folder.glob("*.gpkg-*")), [])

    def ways(self):
        """Each journal mode, and an OUT that is IN or is there."""
        return [(mode, out) for mode in ("wal", "delete")
                for out in (self.given, self.out)]

    @contextlib.contextmanager
    def shared(self, mode, out):
        """Another that has OUT open, and the files as dumped at first."""
        with self.subTest(mode=mode, out=out.name):
            dumps = self.begin(mode, out)
            other = Other(out)
            self.addCleanup(other.close)
            yield other, dumps
            other.close()


@samples.takes_long
class Shared(SharedCase):

    def test_another_is_idle_and_commits_afterwards(self):
        for mode, out in self.ways():
            with self.shared(mode, out) as (other, _):
                other.ask(COUNT)
                other.ask("PRAGMA wal_checkpoint(TRUNCATE)")
                self.run_clean(out=out)
                self.assertEqual(other.ask(EDIT), "[]")
                self.dump_of(out)
                other.close()
                self.assert_cleaned(out, mode)

    def test_another_commits_meanwhile(self):
        write = geopackage._changed
        for does_stay in True, False:
            for mode, out in self.ways():
                with self.shared(mode, out) as (other, _):
                    other.ask(COUNT)

                    def edit_and_write(*words):
                        other.begin(EDIT)
                        if out == self.given:
                            time.sleep(0.3)  # it waits for the end of the run
                        else:
                            self.assertEqual(other.answer(), "[]")
                        return write(*words)

                    with mock.patch.object(geopackage, "_changed",
                                           edit_and_write):
                        self.run_clean(out=out)
                    if out == self.given:
                        self.assertEqual(other.answer(), "[]")
                    if does_stay:
                        self.dump_of(out)
                        self.assertEqual(other.ask(COUNT), "[(50,)]")
                    other.close()
                    # Another OUT is replaced by the copy of IN.
                    self.assert_cleaned(out, mode,
                                        19 if out == self.given else 0)

    def test_another_reads_all_the_time(self):
        for mode, out in self.ways():
            with self.shared(mode, out) as (other, dumps):
                other.ask("BEGIN")
                read = "SELECT hex(geom) FROM parcels"
                old = other.ask(read)
                with mock.patch.object(geopackage, "_PATIENCE", 0.1):
                    told = self.run_clean(out=out, status=mode == "delete")
                if mode == "delete":
                    self.assertEqual(told[1], f"i_shape: {out}: {LOCKED}\n")
                self.assertEqual(other.ask(read), old)
                other.ask("COMMIT")
                if mode == "wal":
                    self.assertNotEqual(other.ask(read), old)
                    self.assertEqual(other.ask(EDIT), "[]")
                other.close()
                if mode == "wal":
                    self.assert_cleaned(out, mode)
                else:
                    self.assertEqual(self.dump_of(out), dumps[1])

    def test_another_writes_all_the_time(self):
        for mode, out in self.ways():
            with self.shared(mode, out) as (other, dumps):
                other.ask("BEGIN IMMEDIATE")
                with mock.patch.object(geopackage, "_PATIENCE", 0.1):
                    told = self.run_clean(out=out, status=1)
                self.assertEqual(told[1], f"i_shape: {out}: {LOCKED}\n")
                other.ask("ROLLBACK")
                other.close()
                self.assertEqual(self.dump_of(out), dumps[1])

    def test_another_has_in(self):
        for mode in "wal", "delete":
            self.begin(mode, self.given)
            other = Other(self.given)
            other.ask("BEGIN EXCLUSIVE")
            with mock.patch.object(geopackage, "_PATIENCE", 0.1):
                told = self.run_clean(status=mode == "delete")[1]
            if mode == "delete":
                self.assertEqual(told, f"i_shape: {self.given}: {LOCKED}\n")
                with mock.patch.object(geopackage, "_PATIENCE", 0.1):
                    self.assertEqual(told, self.run_command(
                        "check", self.given, "--step", "1", status=1)[1])
            other.ask(EDIT)
            other.ask("COMMIT")
            self.run_clean()
            self.assertEqual(other.ask(COUNT), "[(50,)]")
            other.close()
            self.assert_cleaned(self.out, mode)
            self.out.unlink()

    def test_a_file_that_is_moved_deleted_or_replaced(self):
        """No log is written beside what is there then."""
        first, moved, foreign = (self.folder / name for name in (
            "first", "moved", "foreign"))
        end = geopackage.GeoPackage.end
        for mode, out in self.ways():
            for name, leave in (
                    ("moved", lambda: os.rename(out, moved)),
                    ("deleted", lambda: os.remove(out)),
                    ("replaced", lambda: os.replace(foreign, out))):
                with self.subTest(mode=mode, out=out.name, name=name):
                    dumps = self.begin(mode, out)
                    shutil.copy(first, foreign)
                    self.change(f"PRAGMA journal_mode = {mode}", path=foreign)
                    self.change("UPDATE parcels SET name = 'foreign'",
                                path=foreign)
                    dumps.append(self.dump_of(foreign))

                    def end_and_leave(package):
                        end(package)
                        leave()

                    with mock.patch.object(geopackage.GeoPackage, "end",
                                           end_and_leave):
                        self.assertEqual(
                            self.run_clean(out=out, status=1)[1], f"i_shape:"
                            f" {out}: it was moved, deleted or replaced"
                            " meanwhile\n")
                    self.assertEqual(out.exists(), name == "replaced")
                    if name == "replaced":
                        self.assertEqual(self.dump_of(out), dumps[2])
                    elif name == "moved":
                        self.assertEqual(self.dump_of(moved), dumps[1])
                    self.assertEqual(sorted(self.folder.glob(".*")), [])
                    if out == self.out:
                        is_error = mode == "wal" and not out.exists()
                        again = self.run_clean(out=out, status=is_error)[1]
                        self.assertEqual("-wal beside it says that another"
                                         in again, is_error)
                        self.assertEqual(
                            any(self.folder.glob("*.gpkg-*")), is_error)

    def test_in_place_is_as_the_copy(self):
        self.fill(SQUARE_BLOB, POINT, FLAT_BLOB, SPIKED_BLOB, HIGH_BLOB,
                  layer="mixed", kind="GEOMETRY")
        self.change("CREATE TRIGGER later AFTER UPDATE OF geom ON mixed WHEN"
                    " OLD.fid = 9 BEGIN UPDATE mixed SET geom = (SELECT geom"
                    " FROM mixed WHERE fid = 7) WHERE fid = 3; END")
        self.change("UPDATE gpkg_contents SET last_change = 1")
        self.change("CREATE TRIGGER now AFTER UPDATE ON gpkg_contents BEGIN"
                    " UPDATE gpkg_contents SET last_change = 1; END")
        shutil.copy(self.given, self.folder / "first")
        picture = self.folder / "a.svg"
        for words in (["simplify", "--others", "drop", "--collapsed", "drop",
                       "--report"],
                      ["despike", "--others", "keep", "--collapsed", "empty",
                       "--plot", picture],
                      ["dedup", "--others", "keep", "--report"]):
            told, dumps = [], []
            for out, is_there in ((self.out, False), (self.out, True),
                                  (self.given, True)):
                with self.subTest(words=words, out=out.name):
                    self.begin("wal", out if is_there else self.given)
                    told.append(self.run_clean(*words[1:], call=words[0],
                                               out=out))
                    dumps.append(self.dump_of(out))
                    if out == self.out:
                        self.assertNotEqual(dumps[-1], self.dump())
                    self.assertEqual(told[-1], told[0])
                    self.assertEqual(dumps[-1], dumps[0])
            if picture in words:
                picture.unlink()


@samples.takes_long
class Ended(SharedCase):

    def setUp(self):
        super().setUp()
        samples.heed_interrupts(self)

    def run_hostile(self, hostile, out, *signals):
        """Its status after signals, once the program says what it does."""
        with subprocess.Popen(
                [sys.executable, "-c", HOSTILE.format(hostile), "simplify",
                 self.given, out, "--step", "0.1"], stdout=subprocess.PIPE,
                stderr=subprocess.PIPE, text=True) as run:
            for number in signals:
                self.assertEqual(run.stdout.readline(), "it runs\n")
                time.sleep(0.2)
                run.send_signal(number)
            try:
                told = run.communicate(timeout=30)
            except subprocess.TimeoutExpired:
                run.kill()
                raise
        return run.returncode, told[0], without_progress(told[1])

    def assert_ended(self, hostile, *signals, in_place=True):
        """Signals end it, and each file is as it was."""
        for out, is_there in ((self.out, False), (self.out, True),
                              (self.given, True))[:2 + in_place]:
            for number in signals or (signal.SIGTERM,):
                with self.subTest(out=out.name, number=number):
                    self.begin("delete", out if is_there else self.given)
                    before = self.bytes_of_files()
                    told = self.run_hostile(hostile.format(int(number)), out,
                                            *[number] * bool(signals))
                    self.assertEqual(told, (128 + number, "", ""))
                    self.assertEqual(self.bytes_of_files(), before)

    def test_an_endless_trigger(self):
        self.change("CREATE TRIGGER endless AFTER UPDATE ON parcels BEGIN"
                    f" SELECT {ENDLESS}; END")
        shutil.copy(self.given, self.folder / "first")
        self.assert_ended(textwrap.dedent("""
            changed = geopackage._changed
            def change(*words):
                print("it runs", flush=True)
                return changed(*words)
            geopackage._changed = change
        """), signal.SIGINT, signal.SIGTERM)

    def test_an_endless_view(self):
        self.change("ALTER TABLE gpkg_geometry_columns RENAME TO those")
        self.change("CREATE VIEW gpkg_geometry_columns AS SELECT * FROM those"
                    f" WHERE {ENDLESS} > 0")
        shutil.copy(self.given, self.folder / "first")
        self.assert_ended(textwrap.dedent("""
            found = geopackage.GeoPackage._found_layers
            def find(*words):
                print("it runs", flush=True)
                return found(*words)
            geopackage.GeoPackage._found_layers = find
        """), signal.SIGINT, signal.SIGTERM)

    def test_a_signal_within_a_function_of_the_tree(self):
        self.assert_ended(textwrap.dedent("""
            def end(_):
                signal.raise_signal({})
            geopackage._is_empty = end
        """))

    def test_a_signal_while_a_file_is_copied(self):
        """It ends the run after some pages, not after the last one."""
        self.assert_ended(textwrap.dedent("""
            geopackage._PAGES = 5
            class Ending(geopackage.sqlite3.Connection):
                def backup(self, goal, progress, **options):
                    def ask(status, left, pages):
                        if 0 < left < pages:
                            signal.raise_signal({})
                        progress(status, left, pages)
                    super().backup(goal, progress=ask, **options)
            connect = geopackage.sqlite3.connect
            geopackage.sqlite3.connect = (
                lambda *words, **options: connect(
                    *words, factory=Ending, **options))
        """), in_place=False)

    def test_a_trigger_that_fills_the_disk(self):
        self.change("CREATE TABLE other (bytes)")
        self.change("CREATE TRIGGER other AFTER UPDATE ON parcels BEGIN"
                    " INSERT INTO other VALUES (zeroblob(4000000)); END")
        shutil.copy(self.given, self.folder / "first")
        for out, is_there in ((self.out, False), (self.out, True),
                              (self.given, True)):
            self.begin("wal", out if is_there else self.given)
            before = self.bytes_of_files()
            self.assertEqual(
                self.run_clean(out=out, status=1)[1], f"i_shape: {out}: layer"
                " 'parcels': database or disk is full\n")
            self.assertEqual(self.bytes_of_files(), before)

    def test_killed_while_it_writes(self):
        """The file has other bytes, and SQLite brings back those before."""
        self.fill(*[SPIKED_BLOB] * 3000, layer="more")
        shutil.copy(self.given, self.folder / "first")
        kill = "os.kill(os.getpid(), signal.SIGKILL)"
        killers = {self.given: textwrap.dedent(f"""
            geopackage._CACHE = 32
            geopackage.GeoPackage._require_changed = lambda *_: {kill}
        """), self.out: textwrap.dedent(f"""
            geopackage._PAGES = 50
            class Killing(geopackage.sqlite3.Connection):
                def backup(self, goal, progress, **options):
                    goal.execute("PRAGMA cache_size = 10")
                    path = goal.execute("PRAGMA database_list").fetchone()[2]
                    def ask(*words):
                        if (path.endswith("/{self.out.name}")
                                and ".i_shape-" not in path
                                and words[1] < words[2] / 2):
                            {kill}
                        progress(*words)
                    super().backup(goal, progress=ask, **options)
            connect = geopackage.sqlite3.connect
            geopackage.sqlite3.connect = (
                lambda *words, **options: connect(
                    *words, factory=Killing, **options))
        """)}
        for out, killer in killers.items():
            for mode in "delete", "wal":
                with self.subTest(out=out.name, mode=mode):
                    dumps = self.begin(mode, out)
                    self.assertEqual(self.run_hostile(killer, out)[0],
                                     -signal.SIGKILL)
                    end = "-journal" if mode == "delete" else "-wal"
                    self.assertTrue(os.path.getsize(f"{out}{end}"))
                    self.assertEqual(self.dump_of(out), dumps[1])
                    for folder in self.folder.glob(".*"):
                        shutil.rmtree(folder)
                    self.run_clean(out=out)
                    self.assert_cleaned(out, mode, 0)


if __name__ == "__main__":
    unittest.main()
