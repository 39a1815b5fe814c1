"""Plans in parts: their lines are those of the plan, a call goes on, and another plan's folder is refused."""
import concurrent.futures
import pathlib
import tempfile
import unittest
from typing import Any

from common import TOP, bentzolu, needs_route

from bentzolu import program, sharding

NSFNET = TOP / "examples/nsfnet.edgelist"


class Ended(concurrent.futures.Executor):
    """An executor that takes nothing more."""

    def submit(self, *words: Any, **more: Any) -> Any:
        raise concurrent.futures.BrokenExecutor("it is gone")


@needs_route
class ShardTest(unittest.TestCase):
    def setUp(self) -> None:
        folder = tempfile.TemporaryDirectory()
        self.addCleanup(folder.cleanup)
        self.folder = pathlib.Path(folder.name)

    def lines(self, files: Any) -> Any:
        return [line for file in files for line in pathlib.Path(file).read_text().splitlines()[1:]]

    def wanted(self, *words: Any) -> Any:
        return program.run(["plan", *words], [("topology", NSFNET)]).output.splitlines()[1:]

    def test_kinds_and_numberings(self) -> None:
        for at, words in enumerate((["--kind", "shortest"], ["--kind", "compact"], ["--kind", "tree"], ["--kind", "landmark"],
                                    ["--kind", "compact", "--numbering", "tour", "--root", "Houston"])):
            with self.subTest(words=words):
                files = bentzolu.plan_shards(NSFNET, words[1], out=self.folder / str(at), shards=4, words=words[2:])
                self.assertEqual([pathlib.Path(file).name for file in files], [f"shard-00{i}.plan" for i in range(4)])
                self.assertEqual(self.lines(files), self.wanted(*words))

    def test_more_shards_than_nodes(self) -> None:
        files = bentzolu.plan_shards([("a", "b"), ("b", "c")], out=self.folder, shards=9)
        self.assertEqual([pathlib.Path(file).read_text().split("\n")[0] for file in files],
                         ["plan shortest 3 1 0 0", "plan shortest 3 2 1 1", "plan shortest 3 1 2 2"])
        with self.assertRaises(ValueError):
            bentzolu.plan_shards([("a", "b")], out=self.folder, shards=0)

    def test_goes_on(self) -> None:
        with concurrent.futures.ThreadPoolExecutor(2) as pool:
            files = bentzolu.plan_shards(NSFNET, out=self.folder, shards=5, executor=pool)
        whole = self.lines(files)
        pathlib.Path(files[2]).unlink()
        pathlib.Path(files[0]).write_text("plan\nkept\n")
        with self.assertRaisesRegex(bentzolu.SweepError, "1 of 5 shards left"):
            bentzolu.plan_shards(NSFNET, out=self.folder, shards=5, executor=Ended())
        again = bentzolu.plan_shards(NSFNET, out=self.folder, shards=5)
        self.assertEqual(self.lines(again)[:1], ["kept"])
        pathlib.Path(files[0]).unlink()
        self.assertEqual(self.lines(bentzolu.plan_shards(NSFNET, out=self.folder, shards=5)), whole)

    def test_refused(self) -> None:
        bentzolu.plan_shards(NSFNET, out=self.folder, shards=2)
        others: Any = ({"kind": "tree"}, {"shards": 3}, {"root": "Houston"})
        for more in others:
            with self.subTest(**more), self.assertRaisesRegex(bentzolu.ResultsError, "another plan"):
                bentzolu.plan_shards(NSFNET, **{"out": self.folder, "shards": 2, **more})
        with self.assertRaisesRegex(bentzolu.RouteError, "Disconnected"):
            bentzolu.plan_shards([("a", "b"), ("c", "d")], out=self.folder / "apart")
        (self.folder / "file").touch()
        with self.assertRaises(bentzolu.ResultsError):
            bentzolu.plan_shards(NSFNET, out=self.folder / "file")

    def test_words(self) -> None:
        words = ["--kind", "compact", "-n", "tour", "--root=a", "--numbering=tour", "-ntour", "-r", "b"]
        self.assertEqual(sharding.without_order(words), ["--kind", "compact"])


if __name__ == "__main__":
    unittest.main()
