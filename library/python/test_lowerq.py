"""Tries the module lowerq: queries of examples/ and of the case files against the texts beside them, and its parts."""

import doctest
import pathlib
import pickle
import re
import resource
import threading
import unittest
from collections.abc import Iterator

import lowerq

TOP = pathlib.Path(__file__).resolve().parent.parent.parent
NESTED = ('{"tables":[],"plan":{"select":[{"empty":[["a","Int8"]]},[' + '{"bin":["Plus",' * 60 + '{"col":"a"}' +
          ',{"col":"a"}]}' * 60 + "]]}}")


def printed(query: bytes) -> bytes:
    """What the program prints for the query. A report's parts must make up its text."""
    try:
        report = lowerq.lower(query)
    except lowerq.NotLowered as fault:
        return f"{fault}\n".encode()
    lines = [f"{node.path} {node.name} {str(lowerq.Type('', fields=node.schema))}\n" for node in report.nodes]
    written = "".join(lines) + f"casts {report.casts}\n"
    return written.encode() if written == report.text else b"not what the library wrote"


def cases(path: pathlib.Path) -> Iterator[tuple[bytes, bytes]]:
    """The queries of a case file with their texts."""
    lines = path.read_bytes().split(b"\n")
    at = 0
    while at < len(lines):
        if not lines[at].startswith(b"$"):
            at += 1
            continue
        middle = next(place for place in range(at, len(lines)) if re.fullmatch(rb"---- \d+", lines[place]))
        end = next((place for place in range(middle, len(lines)) if not lines[place]), len(lines))
        if lines[at] == b"$ lower":
            yield b"\n".join(lines[at + 1:middle]), b"".join(line + b"\n" for line in lines[middle + 1:end])
        at = end


class Lowering(unittest.TestCase):
    def test_examples(self) -> None:
        paths = list((TOP / "examples").glob("*.json"))
        self.assertTrue(paths)
        for path in paths:
            self.assertEqual(printed(path.read_bytes()), path.with_suffix(".txt").read_bytes(), path)

    def test_cases(self) -> None:
        count = 0
        for path in sorted((TOP / "crates/cases/data").glob("*.cases")):
            for query, text in cases(path):
                count += 1
                self.assertEqual(printed(query), text, f"{path}: {query!r}")
        self.assertGreater(count, 1000)

    def test_faults_have_parts(self) -> None:
        with self.assertRaises(lowerq.Refused) as refused:
            lowerq.lower('{"tables":[],"plan":{"select":[{"filter":[{"empty":[]},{"col":"a"}]},[]]}}')
        self.assertEqual((refused.exception.kind, refused.exception.place), ("ColumnNotFound", ".0"))
        for query, kind, path in (("", "NotJson", None), (" " * lowerq.LONGEST, "NotJson", None), ("null", "Shape", ""),
                                  ('{"tables":[],"plan":{"scan":"t"}}', "Name", "/plan/scan")):
            with self.assertRaises(lowerq.BadQuery) as bad:
                lowerq.lower(query)
            self.assertEqual((bad.exception.kind, bad.exception.path), (kind, path))
            self.assertEqual(str(pickle.loads(pickle.dumps(bad.exception))), str(bad.exception))
        with self.assertRaises(lowerq.TooLong):
            lowerq.lower(b" " * (lowerq.LONGEST + 1))

    def test_long_text(self) -> None:
        names = [f"c{number}" for number in range(20_000)]
        columns = ",".join(f'["{name}","Int8"]' for name in names)
        report = lowerq.lower(f'{{"tables":[],"plan":{{"select":[{{"empty":[{columns}]}},[{{"all":null}}]]}}}}')
        self.assertEqual([node.name for node in report.nodes], ["projection", "df"])
        for node in report.nodes:
            self.assertEqual(node.schema, tuple(lowerq.Column(name, lowerq.Type("Int8")) for name in names))

    def test_small_buffers_and_threads(self) -> None:
        query = b'{"tables":[],"plan":{"empty":[]}}'
        found: list[tuple[int, str]] = []
        threads = [threading.Thread(target=lambda: found.extend(lowerq._answer(query, room) for room in range(100)))
                   for _ in range(8)]
        for thread in threads:
            thread.start()
        for thread in threads:
            thread.join()
        self.assertEqual(found, [(0, ". df ()\ncasts 0\n")] * 800)

    def test_out_of_memory(self) -> None:
        columns = ",".join(f'["c{number}","Int8"]' for number in range(100_000))
        query = f'{{"tables":[],"plan":{{"empty":[{columns}]}}}}'.encode()
        # A limit of all memory is one of the stack's growth too, which this call sees to before.
        lowerq.lower(NESTED)
        pages = int(pathlib.Path("/proc/self/statm").read_text().split()[0])
        old = resource.getrlimit(resource.RLIMIT_AS)
        resource.setrlimit(resource.RLIMIT_AS, (pages * resource.getpagesize() + (4 << 20), old[1]))
        try:
            self.assertRaises(lowerq.OutOfMemory, lowerq.lower, query)
        finally:
            resource.setrlimit(resource.RLIMIT_AS, old)
        self.assertIsInstance(lowerq.OutOfMemory(), MemoryError)

    def test_not_a_report(self) -> None:
        for text in ("", "casts 1", "casts x\n", ". df\ncasts 0\n", ". df (\ncasts 0\n", '. df ("a")\ncasts 0\n',
                     '. df ("a" Int8) \ncasts 0\n', '. df ("a" Int8"b" Int8)\ncasts 0\n',
                     '. df ("a" List(Int8\ncasts 0\n'):
            self.assertRaises(ValueError, lowerq.Report.parse, text)

    def test_documents(self) -> None:
        self.assertEqual(doctest.testmod(lowerq).failed, 0)


if __name__ == "__main__":
    unittest.main()
