"""A fleet's parts without a network: keys and records, what an agent and a controller do next, words and configurations."""
import asyncio
import contextlib
import io
import json
import os
import pathlib
import re
import ssl
import tempfile
import time
import unittest
from unittest import mock

import common  # noqa: F401
from bentzolu import __main__ as program, fleet, fleet_kernel, fleet_words, plane
from bentzolu.fleet import Add, Begin, Collect, Drop, Flip, Floor, Held, Rebuild, Record, Refuse, Remove, Rows, Said, Spec, Stamp, State, Times, Want, Work
from bentzolu.fleet_calls import Created, Delete, Done, Equals, Event, Get, Grant, Pair, Put, Txn, is_in, under
from bentzolu.fleet_controller import changes_of
from bentzolu.fleet_etcd import Access, Etcd, EtcdError, change_json, compare_json, event_of
from bentzolu.fleet_kernel import Linux
from bentzolu.fleet_run import Runner
from bentzolu.fleet_words import Config, members_of, phase_of, read_ports, status_json, status_text

OLD, NEW = ((1, 2, "b"),), ((1, 1, "b"), (2, 2, "c"))
RING = "a b c\nb c\n"


def record(stamp, *epochs, other=(), down=(), seen=0):
    return Record("boot", "host", frozenset(epochs), frozenset(other), stamp, frozenset(down), "", seen)


def state(**more):
    """Three routers that stamp epoch 4, and want what they have."""
    found = State(counter=4, stamp=4, floor=4)
    texts = {fleet.TOPOLOGY: RING, fleet.FORM: "adjlist", fleet.WANT: Want("tree").text()}
    texts.update({fleet.MEMBERS + node: fleet.Member(i + 1, i, {}).text() for i, node in enumerate("abc")})
    for key, value in texts.items():
        fleet.learn(found, key, value)
    found.commits[4] = Spec("tree", topology=found.shape.name)
    found.live = {node: record(4, 4) for node in "abc"}
    for name, value in more.items():
        setattr(found, name, value)
    return found


def due(found, now=100.0, since=0.0, times=Times()):
    """What is due of a state at a time, having been so since another one."""
    fleet.notice(found, since, times)
    fleet.notice(found, now, times)
    return fleet.step(found, now, times)[0]


class Values(unittest.TestCase):
    def test_keys_and_tags(self):
        self.assertEqual(fleet.rows_key("a", 7), "/bentzolu/rows/a/7")
        self.assertEqual([fleet.tag_of(epoch, 3) for epoch in range(1, 8)], [1, 2, 3, 1, 2, 3, 1])
        self.assertEqual(fleet.tag_of(65536, fleet.MOST_TAGS), 1)
        self.assertTrue(is_in("/bentzolu/net/stamp", under(fleet.NET)))
        self.assertFalse(is_in("/bentzolu/net0", under(fleet.NET)))
        self.assertFalse(is_in(fleet.LEADER + "s", (fleet.LEADER, None)))

    def test_rows(self):
        self.assertEqual(fleet.read_row(fleet.row_text(NEW)), NEW)
        self.assertEqual(fleet.read_row(""), ())
        for text in ("1-2", "1 b", "1-2 b 3-x c", "a-b c"):
            with self.subTest(text), self.assertRaises(fleet.UnknownRecord):
                fleet.read_row(text)

    def test_records(self):
        for value in (record(4, 3, 4, other=[9], down=["b"], seen=5), Spec("tree", (("a", "b"),), ("c",), "x"), Want("compact", (("a", "b"),), frozenset("c")),
                      fleet.Member(1, 0, {"b": fleet.Port(2, "to2", "fe80::2", "02::")})):
            self.assertEqual(type(value).read("key", value.text()), value)
        for read in (Record.read, Spec.read, Want.read, fleet.Member.read):
            for text in ("", "[]", "{}", '{"epochs": 1, "kind": 2, "ports": 3}', "nonsense"):
                with self.subTest(read=read, text=text), self.assertRaises(fleet.UnknownRecord):
                    read("key", text)

    def test_leaves(self):
        shape = fleet.shape_of("a b\nb c\nc a d\n", "adjlist")
        self.assertEqual(fleet.leaves_of(shape, frozenset(), frozenset("a")), (("a",), frozenset([("a", "c")])))
        self.assertEqual(fleet.leaves_of(shape, frozenset(), frozenset("c")), ((), frozenset()))
        self.assertEqual(fleet.leaves_of(shape, frozenset(), frozenset("d"))[0], ("d",))
        self.assertEqual(fleet.shape_of("a b 3 # x\nb a 4\n", "edgelist").links, {("a", "b")})


class Agents(unittest.TestCase):
    def test_next_act(self):
        both = Said(100, 2, 1, frozenset([1, 2]), {1: OLD, 2: NEW})
        for name, said, held, wanted in (
            ("nothing is said", Said(), Held(), None),
            ("a commit without its row is nothing", Said(100, 2, 1, frozenset([1, 2]), {1: OLD}), Held({1: OLD}, 1, 1), None),
            ("a row without its commit is nothing", Said(100, 1, 1, frozenset([1]), {1: OLD, 2: NEW}), Held({1: OLD}, 1, 1), None),
            ("rows come first", both, Held({1: OLD}, 1, 1), Add({2: NEW}, (2,))),
            ("all that is missing at once", both, Held(), Add({1: OLD, 2: NEW}, (1, 2))),
            ("then the stamp", both, Held({1: OLD, 2: NEW}, 1, 1), Stamp(2, 2)),
            ("no stamp without its row", Said(100, 2, 1, frozenset([1]), {1: OLD}), Held({1: OLD}, 1, 1), None),
            ("no stamp goes back", Said(100, 1, 1, frozenset([1, 2]), {1: OLD, 2: NEW}), Held({1: OLD, 2: NEW}, 2, 2), None),
            ("last what nobody wants", Said(100, 2, 2, frozenset([2]), {2: NEW}), Held({1: OLD, 2: NEW}, 2, 2), Remove((1,))),
            ("what is stamped stays", Said(100, 2, 2, frozenset([2]), {}), Held({1: OLD}, 1, 1), None),
            ("a stranger's row goes", Said(100, 2, 2, frozenset([2]), {2: NEW}), Held({2: OLD}, 0, 0), Add({2: NEW}, (2,))),
            ("but is stamped no more before", Said(100, 2, 2, frozenset([2]), {2: NEW}), Held({2: OLD}, 2, 2), Stamp(0, 0)),
            ("tags come round", Said(3, 4, 4, frozenset([4]), {4: NEW}), Held({3: OLD}, 3, 3), Add({1: NEW}, (4,))),
            ("a table of somebody's", both, Held({1: OLD}, 1, 1, False), Rebuild({1: OLD, 2: NEW}, 1)),
            ("a table that was flushed", both, Held({}, 0, 2), Add({1: OLD, 2: NEW}, (1, 2))),
        ):
            with self.subTest(name):
                self.assertEqual(fleet.reconcile(said, held), wanted)

    def test_record(self):
        said = Said(100, 2, 1, frozenset([1, 2]), {1: OLD, 2: NEW}, 3)
        found = fleet.record_of(said, Held({1: OLD, 2: OLD, 9: NEW}, 1, 1), "b", "h", ["x"])
        self.assertEqual(found, Record("b", "h", frozenset([1]), frozenset([2, 9]), 1, frozenset("x"), "", 3))
        self.assertEqual(fleet.record_of(said, Held({}, 7), "b", "h", [], "", 9).seen, 9)
        self.assertEqual(fleet.record_of(said, Held({}, 7), "b", "h", []).other, {7})  # I3: a stamp without its row


class Controllers(unittest.TestCase):
    def test_next_write(self):
        short = Spec("shortest", topology=state().shape.name)
        wants = Want("shortest")
        two = {4: state().commits[4], 5: short}
        ready = {node: record(4, 4, 5) for node in "abc"}
        done = {node: record(5, 4, 5) for node in "abc"}
        rows = [("a", "1-2 b"), ("b", "0-0 a 2-2 c"), ("c", "0-1 b")]
        for name, found, wanted in (
            ("all is as wanted", state(), None),
            ("another kind", state(want=wants), Begin(5, 4, short, 4)),
            ("a plan that is made still", state(want=wants, counter=5, work=Work(5, short)), None),
            ("its rows, and the commit with the last", state(want=wants, counter=5, work=Work(5, short, rows)), Rows(5, tuple(rows), short)),
            ("the rest of its rows", state(want=wants, counter=5, work=Work(5, short, rows, 2)), Rows(5, tuple(rows[2:]), short)),
            ("a plan that can't be made", state(want=wants, counter=5, work=Work(5, short, None, 0, True)), Refuse(short)),
            ("it is not tried again", state(want=wants, counter=5, refused=short.text()), None),
            ("it is no longer wanted", state(counter=5, work=Work(5, short, rows)), Drop(5)),
            ("others are wanted over it", state(want=Want("compact"), counter=5, work=Work(5, short, rows)), Begin(6, 5, Spec("compact", topology=short.topology), 4)),
            ("rows of no commit", state(counter=5, rows={4: set("abc"), 5: set("ab")}), Collect((("a", 5), ("b", 5)))),
            ("L1: no flip before all have it", state(want=wants, counter=5, commits=two, live={**ready, "c": record(4, 4)}), None),
            ("L1: nor without a needed router", state(want=wants, counter=5, commits=two, live={"a": ready["a"], "b": ready["b"]}), None),
            ("a flip", state(want=wants, counter=5, commits=two, live=ready), Flip(5, 4)),
            ("a leaf is not needed", state(want=wants, counter=5, commits={4: two[4], 5: Spec("shortest", (), ("c",))}, live={**ready, "c": record(4, 4)}), Flip(5, 4)),
            ("L2: no floor before all stamp it", state(want=wants, counter=5, stamp=5, commits=two, live={**done, "b": ready["b"]}), None),
            ("L2: nor while one is away", state(want=wants, counter=5, stamp=5, commits=two, live={"a": done["a"], "b": done["b"]}), None),
            ("a floor", state(want=wants, counter=5, stamp=5, commits=two, live=done), Floor(5, 4, (4,))),
        ):
            with self.subTest(name):
                late = 1.0 if len(found.live) < 3 else 100.0  # before patience is over
                self.assertEqual(due(found, late), wanted)

    def test_links(self):
        found = state()
        fleet.learn(found, fleet.LIVE + "a", record(4, 4, down=["b"]).text())
        self.assertEqual(due(found), Begin(5, 4, Spec("tree", (("a", "b"),), (), found.shape.name), 4))
        fleet.learn(found, fleet.LIVE + "a", record(4, 4).text())
        fleet.notice(found, 200.0, Times())
        self.assertEqual(fleet.spec_of(found, 200.0, Times()).without, (("a", "b"),))
        fleet.notice(found, 201.5, Times())  # it stays up
        self.assertEqual(fleet.spec_of(found, 201.5, Times()).without, ())

    def test_links_that_are_wanted_out_give_way(self):
        found = state(want=Want("tree", (("a", "c"),)))
        fleet.learn(found, fleet.LIVE + "a", record(4, 4, down=["b"]).text())
        self.assertEqual(fleet.spec_of(found, 0.0, Times()).without, (("a", "b"),))
        fleet.learn(found, fleet.LIVE + "c", record(4, 4, down=["a"]).text())
        self.assertIsNone(fleet.spec_of(found, 0.0, Times()))
        self.assertIn("the links that are up do not connect all nodes: the plan stays as it is", fleet.waits(found))

    def test_absent(self):
        found = state(live={node: record(4, 4) for node in "ab"})
        self.assertIsNone(due(found, 19.0))
        self.assertEqual(due(found, 21.0), Begin(5, 4, Spec("tree", (), ("c",), found.shape.name), 4))
        found = state(live={node: record(4, 4) for node in "ab"}, want=Want("tree", (), frozenset("c")))
        self.assertEqual(due(found, 0.1).spec.cut, ("c",))

    def test_four_epochs(self):
        commits = {epoch: Spec("tree", topology=f"x{epoch}") for epoch in (4, 5, 6, 7)}
        found = state(counter=7, commits=commits, live={node: record(4, 4) for node in "abc"})
        self.assertEqual(due(found), Begin(8, 7, Spec("tree", topology=found.shape.name), 4, (5,)))
        compare, then = changes_of(found, due(found))
        self.assertEqual(compare, (Equals(fleet.COUNTER, "7"), Equals(fleet.STAMP, "4")))
        self.assertEqual(then, (Put(fleet.COUNTER, "8"), Delete(fleet.EPOCHS + "5")))
        found = state(counter=7, stamp=7, floor=4, commits=commits, live={node: record(7, 7) for node in "ab"})
        self.assertEqual(due(found, 10.0), Floor(7, 4, (4, 5, 6)))  # that c stamps 4 does not hold up the others

    def test_tag_rule(self):
        few = {"tags": 3, "counter": 6, "stamp": 6, "floor": 6, "commits": {6: Spec("tree")}, "want": Want("tree")}
        live = {node: record(6, 6, seen=6) for node in "abc"}
        self.assertEqual(due(state(**few, live=live)).epoch, 7)
        self.assertIsNone(due(state(**few, live=live), 0.1))  # I3: the packets have not ended yet
        for name, other in (("it is held", record(6, 6, other=[1], seen=6)), ("it is stamped", record(4, 6, seen=6)), ("it is away", None)):
            with self.subTest(name):
                mine = {**live, "c": other} if other else {node: live[node] for node in "ab"}
                write = due(state(**few, live=mine), 10.0)
                self.assertNotEqual(getattr(write, "epoch", 8), 7)
        blind = state(**{**few, "floor": 4}, live={**live, "b": record(6, 6, seen=5)})
        self.assertFalse(fleet.is_tag_free(blind, 8))  # 5 was withdrawn, and b may not know it yet
        blind.live["b"] = live["b"]
        self.assertTrue(fleet.is_tag_free(blind, 8))

    def test_restored(self):
        for b in (record(9, 9), record(4, 4, seen=9), record(0, 4, other=[9])):
            found = state(want=Want("shortest"), live={**state().live, "b": b})
            self.assertIsNone(due(found))
            self.assertEqual(fleet.greatest(found), 9)
            self.assertTrue(any("fleet restored" in line for line in fleet.waits(found)))

    def test_unknown_records(self):
        for key in (fleet.LIVE + "a", fleet.MEMBERS + "a", fleet.EPOCHS + "5", fleet.EPOCHS + "x", fleet.WANT, fleet.STAMP, fleet.ROWS + "a/x"):
            found = state()
            with self.subTest(key), self.assertRaises(fleet.UnknownRecord):
                fleet.learn(found, key, "nonsense")
            self.assertEqual((found.live, found.commits, found.stamp), (state().live, state().commits, 4))


class Planes(unittest.TestCase):
    def test_table(self):
        text = "\n".join(plane.table({2: plane.Way("fe80::2", "eth1")}, 5, "of_x"))
        self.assertIn("ip6 daddr & ffff:0:ffff:ffff:ffff:ffff:ffff:ffff == fd00::5 goto mine", text)
        self.assertIn("fwd ip6 to fe80::2 device eth1", text)
        self.assertEqual(plane.elements(3, [(0, 0, 2), (1, 4, 6)]), "element netdev bz ways { fd00:3::0 : goto to_2, fd00:3::1-fd00:3::4 : goto to_6 }")
        self.assertEqual(plane.stamp(0), ["flush chain netdev bz stamp"])
        self.assertIn("counter drop", plane.table({2: None, 3: plane.Way("fe80::3", "eth2")}, 5, "of_x"))

    def test_read(self):
        keys = ["fd00:3::1", {"prefix": {"addr": "fd00:3::4", "len": 126}}, {"range": ["fd00:2::1", "fd00:2::5"]}]
        elements = [[key, {"goto": {"target": "to_2"}}] for key in keys]
        stamp = {"rule": {"chain": "stamp", "expr": [{"mangle": {"key": {}, "value": 0xFD000003}}]}}
        found = plane.read_table({"nftables": [{"chain": {"name": "stamp"}}, {"map": {"elem": elements}}, stamp]})
        self.assertEqual(found, plane.Table({3: ((1, 1, "to_2"), (4, 7, "to_2")), 2: ((1, 5, "to_2"),)}, 3, {"stamp": 1}))

    def test_ways(self):
        rules = [{"chain": "to_2", "expr": [{"accept": None}]}, {"chain": "to_2", "expr": [{"fwd": {"dev": "eth1", "family": "ip6", "addr": "fe80::2"}}]},
                 {"chain": "to_3", "expr": [{"counter": {}}, {"drop": None}]}, {"chain": "in", "expr": [{"fwd": {}}]}]
        self.assertEqual(plane.ways_of({"nftables": [{"chain": {"name": "to_2"}}, *({"rule": it} for it in rules)]}), {2: plane.Way("fe80::2", "eth1")})

    def test_a_port_that_is_not_there(self):
        linux, asked = Linux(), []
        linux.member = fleet.Member(1, 0, {"b": fleet.Port(2, "nope", "fe80::2"), "c": fleet.Port(3, "eth2", "fe80::3")})
        linux.missing = {"b"}
        table = {"nftables": [{"rule": {"chain": "to_2", "expr": [{"fwd": {"dev": "eth1", "addr": "fe80::22"}}]}}]}
        with mock.patch.object(fleet_kernel, "run", lambda command, *_, **__: asked.append(command) or json.dumps(table)):
            linux.used = linux.ports_used({"eth1", "eth2"})
            self.assertEqual(linux.used["b"], fleet.Port(2, "eth1", "fe80::22"))  # it goes on by the way that it had
            self.assertEqual(linux.ports_used({"eth2"}).keys(), {"c"})
        self.assertIn("this router has no device nope to b: the topology is not that of the routers", linux.says())
        self.assertIn("fwd ip6 to fe80::22 device eth1", linux.base())


class Calls(unittest.TestCase):
    def test_json(self):
        self.assertEqual(change_json(Put("k", "v", 7)), {"request_put": {"key": "aw==", "value": "dg==", "lease": "7"}})
        self.assertEqual(change_json(Get("k", "l", True)), {"request_range": {"key": "aw==", "range_end": "bA==", "keys_only": True}})
        self.assertEqual(compare_json(Created("k", 0)), {"key": "aw==", "result": "EQUAL", "target": "CREATE", "create_revision": "0"})
        self.assertEqual(event_of({"type": "DELETE", "kv": {"key": "aw==", "mod_revision": "9"}}), Event("k", None, 9))
        self.assertEqual(event_of({"kv": {"key": "aw==", "mod_revision": "9"}}), Event("k", "", 9))
        self.assertEqual(Txn((), ()).otherwise, ())

    def test_access(self):
        for endpoint in ("10.0.0.1:2379", "ftp://x", ""):
            with self.subTest(endpoint), self.assertRaises(EtcdError):
                Etcd(Access([endpoint]))
        with self.assertRaises(EtcdError):
            Etcd(Access(["https://x:2379"], ca="/nowhere/ca.pem"))
        for code, wanted in ((9, "is this machine's clock right"), (10, "is this machine's clock right"), (20, "is `ca` the authority's file")):
            fault = ssl.SSLCertVerificationError()
            fault.verify_code, fault.verify_message = code, "it is not good"
            with self.subTest(code), mock.patch("asyncio.open_connection", side_effect=fault), self.assertRaisesRegex(EtcdError, wanted):
                asyncio.run(Etcd(Access(["http://x:2379"])).open())
        etcd = Etcd(Access(["http://x:2379"], user="agent-a"))
        self.assertIn("refuses the user agent-a", etcd.sentence("/v3/x", "authentication failed, invalid user ID or password"))
        self.assertIn("does not permit agent-a", etcd.sentence("/v3/x", "etcdserver: permission denied"))


class Gateway(unittest.TestCase):
    """The client beside a gateway that answers by a table of paths."""

    def asked(self, answers, call, **access):
        """What a call answers; `answers` has for each path the heads and bodies of its answers in turn."""
        async def serve(reader, writer):
            with contextlib.suppress(asyncio.IncompleteReadError, asyncio.CancelledError, ConnectionError):
                while True:
                    head = (await reader.readuntil(b"\r\n\r\n")).decode()
                    size = int(re.search(r"Content-Length: (\d+)", head)[1])
                    body = await reader.readexactly(size)
                    path = head.split()[1]
                    self.heads.append((path, head, body))
                    found = answers[path]
                    status, text = found.pop(0) if len(found) > 1 else found[0]
                    data = text.encode()  # as etcd's gateway does, in chunks with a trailer behind a refusal
                    trailer = "Grpc-Trailer-X: y\r\n" if status != 200 else ""
                    writer.write(f"HTTP/1.1 {status} X\r\nTransfer-Encoding: chunked\r\n\r\n{len(data):x}\r\n".encode() + data
                                 + f"\r\n0\r\n{trailer}\r\n".encode())

        async def ask():
            server = await asyncio.start_server(serve, "127.0.0.1", 0)
            port = server.sockets[0].getsockname()[1]
            etcd = Etcd(Access([f"http://127.0.0.1:{port}"], **access))
            try:
                return await asyncio.wait_for(call(etcd), 20)
            finally:
                etcd.rotate()
                server.close()
        self.heads = []
        return asyncio.run(ask())

    VERSION = {"/version": [(200, '{"etcdserver": "3.4.23"}')]}
    PAIR = '{"key": "aw==", "value": "dg==", "create_revision": "2", "mod_revision": "3"}'

    def test_transaction(self):
        text = '{"header": {"revision": "7"}, "succeeded": true, "responses": [{"response_range": {"kvs": [%s]}}, {"response_put": {}}]}' % self.PAIR
        found = self.asked({**self.VERSION, "/v3/kv/txn": [(200, text)]}, lambda etcd: etcd.ask(Txn((Created("k", 0),), (Get("k"), Put("k", "v")))))
        self.assertEqual(found, Done(True, 7, ((Pair("k", "v", 2, 3),),)))
        self.assertEqual(json.loads(self.heads[1][2])["compare"][0]["target"], "CREATE")
        self.assertIn("Grpc-Metadata-hasleader: true", self.heads[1][1])

    def test_refusals(self):
        async def twice(etcd):
            with self.assertRaisesRegex(EtcdError, "requested lease not found"):
                await etcd.ask(Grant(5))
            return await etcd.ask(Grant(5))  # the trailer of the refusal is not its answer
        refused = (404, '{"error": "requested lease not found", "code": 5}')
        self.assertEqual(self.asked({**self.VERSION, "/v3/lease/grant": [refused, (200, '{"ID": "9"}')]}, twice), 9)
        for answers, wanted in (
            ({"/version": [(200, '{"etcdserver": "3.3.11"}')]}, "is etcd 3.3.11: 3.4 or a later version of 3 is needed"),
            ({"/version": [(200, "<html>")]}, "is it etcd"), ({"/version": [(404, "{}")]}, "of no known version"),
            ({**self.VERSION, "/v3/lease/grant": [(403, '{"error": "etcdserver: permission denied", "code": 7}')]}, "does not permit nobody"),
        ):
            with self.subTest(wanted), self.assertRaisesRegex(EtcdError, wanted):
                self.asked(answers, lambda etcd: etcd.ask(Grant(5)))

    def test_busy(self):
        busy = (503, '{"error": "etcdserver: request timed out", "code": 14}')
        for many, wanted in ((2, 9), (9, None)):
            answers = {**self.VERSION, "/v3/lease/grant": [*[busy] * many, (200, '{"ID": "9"}')]}
            with self.subTest(many), mock.patch.object(fleet_words, "REST", 0.0):
                if wanted:
                    self.assertEqual(self.asked(answers, lambda etcd: fleet_words.again(lambda: etcd.ask(Grant(5)))), wanted)
                else:
                    with self.assertRaisesRegex(EtcdError, "request timed out"):
                        self.asked(answers, lambda etcd: fleet_words.again(lambda: etcd.ask(Grant(5))))

    def test_tokens(self):
        answers = {**self.VERSION, "/v3/auth/authenticate": [(200, '{"token": "t1"}'), (200, '{"token": "t2"}')],
                   "/v3/lease/grant": [(401, '{"error": "etcdserver: invalid auth token"}'), (200, '{"ID": "9"}')]}
        self.assertEqual(self.asked(answers, lambda etcd: etcd.ask(Grant(5)), user="u", password="p"), 9)
        self.assertIn("Authorization: t2", self.heads[-1][1])

    def test_watch(self):
        lines = ['{"result": {"created": true}}', '{"result": {"events": [{"kv": %s}]}}' % self.PAIR, '{"result": {"compact_revision": "5", "canceled": true}}']
        taken = []
        with self.assertRaisesRegex(EtcdError, "compacted"):
            self.asked({"/v3/watch": [(200, "\n".join(lines) + "\n")]}, lambda etcd: etcd.follow([("k", None), ("a", "b")], 4, lambda found: taken.append(found)))
        self.assertEqual(json.loads(self.heads[0][2].split(b"}{")[0] + b"}")["create_request"]["start_revision"], "4")
        self.assertEqual(taken, [])  # a line that ends it comes with others: all is read again


class Words(unittest.TestCase):
    def setUp(self):
        folder = tempfile.TemporaryDirectory()
        self.addCleanup(folder.cleanup)
        self.folder = pathlib.Path(folder.name)

    def file(self, name, text):
        path = self.folder / name
        path.write_text(text)
        return str(path)

    def said(self, *words):
        with contextlib.redirect_stderr(io.StringIO()) as told, contextlib.redirect_stdout(io.StringIO()):
            status = program.main(list(words))
        return status, told.getvalue()

    def test_configurations(self):
        for text, wanted in (
            ("", "lacks endpoints in [etcd]"), ("nonsense", "is not a configuration"), ("[etcd]\nendpoint = x\n", "unknown setting endpoint in [etcd]; known are ca"),
            ("[other]\nx = y\n", "unknown setting x in [other]"), ("[etcd]\nendpoints = x\n", "is not an endpoint"),
            ("[etcd]\nendpoints = http://127.0.0.1:9\n", "can't be asked"),
        ):
            with self.subTest(text):
                status, told = self.said("fleet", "status", "--config", self.file("f.conf", text))
                self.assertEqual(status, 1)
                self.assertIn(wanted, told)
        self.assertIn("No such file", self.said("fleet", "status", "--config", "/nowhere/f.conf")[1])
        lock = f"lock = {self.folder}/lock\n"
        self.assertIn("lacks node", self.said("agent", "--config", self.file("a.conf", f"[agent]\n{lock}"))[1])
        path = self.file("a.conf", f"[etcd]\nendpoints = http://x\n[agent]\nnode = a\n{lock}lease = soon\n")
        self.assertIn("lease in [agent] is 'soon'; give at least 2 seconds", self.said("agent", "--config", path)[1])
        self.assertEqual(Config(path).etcd().endpoint, "http://x")

    def test_ports(self):
        shape = fleet.shape_of(RING, "adjlist")
        found = members_of(["a", "b", "c"], shape, {})
        self.assertEqual(found["a"].ports["c"], fleet.Port(3, "to3", "fe80::3", "02:00:00:00:00:03"))
        ports = read_ports(self.file("ports", "a b eth1 # to b\na c eth2 fe80::77 02:00:00:00:00:07\n"))
        found = members_of(["a", "b", "c"], shape, ports)
        self.assertEqual(found["a"].ports["b"], fleet.Port(2, "eth1", "fe80::2", ""))
        self.assertEqual(found["a"].ports["c"], fleet.Port(3, "eth2", "fe80::77", "02:00:00:00:00:07"))
        for text in ("a b\n", "a b eth1;reboot\n", "a b c d e f\n"):
            with self.subTest(text), self.assertRaises(fleet.FleetError):
                read_ports(self.file("ports", text))
        with self.assertRaises(fleet.FleetError):
            members_of(["a", "b"], fleet.shape_of("a b\n", "adjlist"), {("a", "x"): ("eth1", "", "")})

    def test_status(self):
        found = state(counter=5, commits={4: state().commits[4], 5: Spec("shortest", (("a", "b"),), ("c",))}, live={"a": record(4, 4, 5), "b": record(4, 4)})
        self.assertEqual(phase_of(found), "installing")
        shown = status_json(found, "c1")
        self.assertFalse([line for line in shown["waits"] if "leads" in line])
        self.assertTrue([line for line in status_json(found)["waits"] if "no controller leads" in line])
        self.assertEqual(json.loads(json.dumps(shown))["epochs"][1]["held"], 1)
        text = status_text(shown)
        self.assertIn("fleet 3 live 2 stamp 4 floor 4 installing\n", text)
        self.assertIn("epoch 5 shortest without a b leaf c held 1 stamped 0\n", text)
        self.assertIn("member c 2 absent\n", text)
        self.assertIn("waits: epoch 5 waits for b\n", text)

    def test_bad_words(self):
        for words in (["fleet"], ["fleet", "want"], ["fleet", "want", "--kind", "best"], ["fleet", "gone"], ["agent", "x"], ["fleet", "status", "x"]):
            with self.subTest(words), contextlib.redirect_stderr(io.StringIO()), self.assertRaises(SystemExit) as ended:
                program.main(words)
            self.assertEqual(ended.exception.code, 2)

    def test_clocks(self):
        async def looked(day):
            told = []
            runner = Runner(None, lambda what, **about: told.append((what, about["why"])))
            for seconds in day:
                with mock.patch("time.time", lambda: time.monotonic() + runner.apart + seconds):
                    runner.look_at_clock()
            runner.threads.shutdown()
            return told
        self.assertEqual(asyncio.run(looked([0, 1, -1])), [])
        told = asyncio.run(looked([3600, 0, -3600]))
        self.assertEqual([it[0] for it in told], ["clock", "clock"])
        self.assertIn("jumped by +3600 s", told[0][1])
        self.assertIn("jumped by -3600 s", told[1][1])

    @unittest.skipUnless(os.path.exists("/proc/self/ns/net"), "it wants Linux")
    def test_one_agent(self):
        from bentzolu.fleet_run import lock
        with lock(f"{self.folder}/lock"), self.assertRaises(fleet.FleetError):
            lock(f"{self.folder}/lock")


if __name__ == "__main__":
    unittest.main()
