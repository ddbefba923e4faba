"""Registers and trees of them: bytes, order and digests, catch-ups of such rows, and peers that don't keep to the messages. tests/store_peers has the
store `mst` as the peer."""
import asyncio
import contextlib
import pickle
import random
import socket
import time
import unittest

from mst import MOST_TEXT, REFUSAL, Replica, MalformedError, RefusedError, Register, RegisterTree, SyncTree, UnreadError, UntakenError
from mst._register import of_hashed_bytes, with_byte_strings, with_registers

from .common import Called, Rows, by_steps, in_threads, said_by

KEY = bytes(range(16))
# Each with its bytes in a message, those that are hashed, and its digest under the key above: by docs/WIRE.md, and by the SipHash of tests/wire_reader.
VECTORS = [
    (Register(0, "", b""), "00 00 01 00", "00" * 16 + "01", "491ef98060b1f8a2c3181c26a7ed8dd9"),
    (Register(1764400000000, "alice", b"1"), "80d8bdf3ac33 05616c696365 01 0131",
     "006c6fce9a010000 0500000000000000 616c696365 01 31", "81602362bc1a251aaa7ed16641b137df"),
    (Register(1764400060000, "bob", None), "e0acc1f3ac33 03626f62 00", "605670ce9a010000 0300000000000000 626f62 00",
     "21b9eddfdefb6a10d8863645cd42e8de"),
    (Register(1764400060000, "bob", b"6"), "e0acc1f3ac33 03626f62 01 0136", "605670ce9a010000 0300000000000000 626f62 01 36",
     "c8da1f3cbac33fbfd06724eb585b9124"),
    (Register((1 << 64) - 1, "\u00e9", b"\xff\0"), "ffffffffffffffffff01 02c3a9 02 02ff00", "ff" * 8 + "0200000000000000 c3a9 02 ff00",
     "bf02c79b1d1e1c3b2720496456a7d532"),
]
# The session of two stores in docs/WIRE.md.
ASKED = ["01 01  10 02 10 01 03616e74 10 49ce3b3395d7edeaa4a461d5489ea154", "01 02  10 01 00 00"]
REPLIES = ["01 81  03 01 bbefd75681059d8a56c3b0cdc2b67183",
           "01 82  00 03  04 03616e74  80d8bdf3ac33 05616c696365 01 0131  13 626565 e0acc1f3ac33 03626f62 00  13 636f77 e0acc1f3ac33 03626f62 01 0136"]
OURS = {"ant": VECTORS[1][0], "bee": Register(1764400000000, "alice", b"2")}
THEIRS = {"ant": VECTORS[1][0], "bee": VECTORS[2][0], "cow": VECTORS[3][0]}


class Side(Called):
    """A tree with its rows."""

    def __init__(self, table=(), hash_key=KEY):
        rows = Rows(table)
        super().__init__(rows, RegisterTree(rows, hash_key=hash_key))


def peer_of(table):
    """What answers as a store with these rows does, none of which it checks: a replica of the bytes that are hashed."""
    peer = Replica(((key.encode(), register.hashed_bytes()) for key, register in table.items()), key=KEY, page_format=2)
    return lambda question: with_registers(peer.answer(question))


def drawn(draw, most, longest):
    return {draw.choice(["key%d", "\u00e9%d", "%d\0"]) % draw.randrange(400): drawn_register(draw, longest) for _ in range(draw.randint(0, most))}


def drawn_register(draw, longest=3):
    value = draw.choice([None, b"", b"\xff" * draw.randint(1, longest), b"%d" % draw.randrange(9) * draw.randint(1, longest)])
    return Register(1764400000000 + draw.randrange(3), draw.choice(["alice", "bob", "\u00e9", ""]), value)


def joined(left, right):
    return {key: max(rows[key] for rows in (left, right) if key in rows) for key in {*left, *right}}


class Registers(unittest.TestCase):
    def test_bytes_and_digests(self):
        for register, message, hashed, digest in VECTORS:
            self.assertEqual(register.to_bytes(), bytes.fromhex(message))
            self.assertEqual(Register.from_bytes(bytes.fromhex(message)), register)
            self.assertEqual(register.hashed_bytes(), bytes.fromhex(hashed))
            self.assertEqual(register.digest(KEY).hex(), digest)
        self.assertEqual([register.kind for register, *_ in VECTORS], [1, 1, 0, 1, 2])

    def test_bytes_of_no_register(self):
        for _, message, _, _ in VECTORS:
            whole = bytes.fromhex(message)
            for data in [*(whole[:size] for size in range(len(whole))), whole + b"\0"]:
                self.assertRaises(MalformedError, Register.from_bytes, data)
        for wrong in ["8000 00 00", "ffffffffffffffffff02 00 00", "80808080808080808080 00 00", "00 8000 00", "00 01ff 00",   # counts, and a writer
                      "00 00 03 00", "00 00 02 0131", "00 00 01 01ff", "00 00 01 8000"]:                                      # kinds of values
            self.assertRaises(MalformedError, Register.from_bytes, bytes.fromhex(wrong))

    def test_what_is_no_register(self):
        for words in [("1", "a", None), (1, b"a", None), (1, "a", "text"), (None, "a", None)]:
            self.assertRaises(TypeError, Register, *words)
        for words in [(-1, "a", None), (1 << 64, "a", None), (1, "\ud800", None)]:
            self.assertRaises(ValueError, Register, *words)

    def test_order(self):
        ascending = [Register(1, "", None), Register(1, "a", None), Register(1, "a", b""), Register(1, "a", b"z"), Register(1, "a", "\U0010ffff".encode()),
                     Register(1, "a", b"\x80"), Register(1, "a", b"\xff"), Register(1, "b", None), Register(1, "\uffff", None),
                     Register(1, "\U00010000", None), Register(2, "", None)]
        shuffled = list(ascending)
        random.Random(1).shuffle(shuffled)
        self.assertEqual(sorted(shuffled), ascending)
        self.assertTrue(ascending[0] <= ascending[0] < ascending[1] and not ascending[1] < ascending[1])
        with self.assertRaises(TypeError):
            ascending[0] < (1, "", None)

    def test_a_write_over_a_register(self):
        self.assertEqual(Register.over(None, "bob", b"1", 7), Register(7, "bob", b"1"))
        self.assertEqual(Register.over(Register(5, "zoe", b"9"), "bob", None, 7), Register(7, "bob", None))
        self.assertEqual(Register.over(Register(7, "zoe", b"9"), "bob", None, 7), Register(8, "bob", None))
        self.assertRaises(ValueError, Register.over, VECTORS[-1][0], "bob", None, 7)
        before = time.time_ns() // 1_000_000
        self.assertTrue(before <= Register.over(None, "bob", None).time <= before + 60_000)


class CatchUps(unittest.TestCase):
    def test_the_session_of_two_stores(self):
        side, theirs = Side(OURS), Side(THEIRS)
        steps = side.catch_up_steps()
        self.assertEqual(next(steps), bytes.fromhex(ASKED[0]))
        self.assertEqual(steps.send(bytes.fromhex(REPLIES[0])), bytes.fromhex(ASKED[1]))
        with self.assertRaises(StopIteration) as end:
            steps.send(bytes.fromhex(REPLIES[1]))
        self.assertEqual((end.exception.value, side.rows.table), (2, THEIRS))
        self.assertEqual(side.tree.root_hash(), theirs.tree.root_hash())
        self.assertEqual(theirs.answer(bytes.fromhex(ASKED[0])), bytes.fromhex(REPLIES[0]))
        self.assertEqual(side.tree.get_digest("bee").hex(), VECTORS[2][3])
        self.assertEqual((len(side.tree), bool(side.tree), side.tree.get_digest("dog")), (3, True, None))

    def test_random_rows_both_ways(self):
        for seed in range(60):
            draw = random.Random(seed)
            longest = draw.choice([3, 60])
            tables = [drawn(draw, draw.choice([0, 3, 600]), longest) for _ in range(2)]
            left, right = map(Side, tables)
            came, _ = by_steps(left, right.answer)
            self.assertEqual(came, sum(tables[0].get(key) != register for key, register in tables[1].items()))
            by_steps(right, left.answer)
            self.assertEqual((left.rows.table, right.rows.table), (joined(*tables), joined(*tables)))
            self.assertEqual(left.tree.root_hash(), right.tree.root_hash())
            self.assertEqual(left.tree.root_hash(), Side(left.rows.table).tree.root_hash())

    def test_a_peer_whose_rows_are_at_hand(self):
        """As a store has them: it replies with rows, and with pages over others. A replica of the bytes that are hashed is such a peer."""
        for seed in range(20):
            draw = random.Random(seed)
            size, differing = draw.choice([(40, 9), (3000, 30), (3000, 3000)])
            common = {"key%04d" % number: drawn_register(draw, draw.choice([3, 40])) for number in range(size)}
            changed = {"key%04d" % draw.randrange(size): drawn_register(draw) for _ in range(differing)}
            ours = Side(common)
            self.assertEqual(by_steps(ours, peer_of({**common, **changed}))[0], sum(common[key] != register for key, register in changed.items()))
            self.assertEqual(ours.rows.table, joined(common, changed))
            asking = Replica(key=KEY, page_format=2)
            by_steps(asking, lambda question: with_byte_strings(ours.answer(question)))
            self.assertEqual({key.decode(): of_hashed_bytes(value) for key, value in asking.items()}, ours.rows.table)
            self.assertEqual(asking.root_hash(), ours.tree.root_hash())

    def test_over_a_connection(self):
        left, right = Side(OURS), Side(THEIRS)
        ours, theirs = socket.socketpair()
        with ours, theirs:
            ends = in_threads(lambda: (left.catch_up(ours.recv, ours.sendall), left.serve(ours.recv, ours.sendall)),
                              lambda: (right.serve(theirs.recv, theirs.sendall), right.catch_up(theirs.recv, theirs.sendall)))
        self.assertEqual(ends, [(2, 1), (3, 0)])
        self.assertEqual(left.rows.table, right.rows.table)

    def test_over_asyncio(self):
        left, right = Side(OURS), Side(THEIRS)

        async def served(reader, writer):
            await right.tree.serve_streams(right.rows, reader, writer)
            await right.tree.catch_up_streams(right.rows, reader, writer)
            writer.close()

        async def both_ways():
            async with await asyncio.start_server(served, "127.0.0.1", 0) as server:
                reader, writer = await asyncio.open_connection(*server.sockets[0].getsockname())
                came = await left.tree.catch_up_streams(left.rows, reader, writer)
                questions = await left.tree.serve_streams(left.rows, reader, writer)
                writer.close()
                return came, questions

        self.assertEqual(asyncio.run(both_ways()), (2, 1))
        self.assertEqual(left.rows.table, right.rows.table)

    def test_writes(self):
        side = Side(OURS)
        side.tree.join(side.rows, [("dog", Register(1, "bob", b"\xff")), ("ant", Register(1, "bob", b"0"))])
        self.assertEqual((side.rows.table["ant"], side.tree.root_hash()), (OURS["ant"], Side(side.rows.table).tree.root_hash()))
        side.rows.table["emu"] = side.rows.table.pop("dog")
        side.tree.refresh(side.rows, ["dog", "emu"])
        self.assertEqual(side.tree.root_hash(), Side(side.rows.table).tree.root_hash())
        side.tree.join(side.rows, [("k" * MOST_TEXT, Register((1 << 63) - 1, "w" * MOST_TEXT, b"v" * MOST_TEXT))])
        side.tree.load(side.rows)
        with side.tree:
            self.assertEqual(len(side.tree), 4)
        self.assertRaises(ValueError, side.tree.root_hash)
        self.assertRaises(ValueError, RegisterTree, hash_key=b"short")

    def test_rows_that_another_program_wrote(self):
        for seed in range(40):
            draw = random.Random(seed)
            told, now = (drawn(draw, draw.choice([0, 3, 600]), 3) for _ in range(2))
            side = Side(told)
            before, side.rows.table = side.root_hash(), now
            self.assertEqual(side.tree.verify(side.rows), sorted(key for key in {**told, **now} if told.get(key) != now.get(key)))
            self.assertEqual(side.root_hash(), before)
            first, end = draw.choice(["", "key2", "\u00e9"]), draw.choice([None, "key3", "\u00e91"])
            side.tree.rescan(side.rows, first, end)
            wanted = {key: register for key, register in told.items() if key < first or (end is not None and key >= end)}
            wanted.update((key, register) for key, register in now.items() if key >= first and (end is None or key < end))
            self.assertEqual(side.root_hash(), Side(wanted).root_hash(), (seed, first, end))
            side.tree.rescan(side.rows)
            self.assertEqual((side.tree.verify(side.rows), side.root_hash()), ([], Side(now).root_hash()))
        for words in [(b"a",), ("a", b"b"), (None,)]:
            self.assertRaises(TypeError, side.tree.rescan, side.rows, *words)
        side.tree.close()
        self.assertRaises(ValueError, side.tree.verify, side.rows)

    def test_a_scan_that_fails_while_another_programs_rows_are_read(self):
        side = Side(OURS)
        before, side.rows.table = side.root_hash(), dict(THEIRS)
        side.rows.fault["scan"] = OSError("lost")
        for call in [side.tree.verify, side.tree.rescan]:
            self.assertRaises(OSError, call, side.rows)
            self.assertEqual(side.root_hash(), before)
        side.rows.fault.clear()
        side.tree.rescan(side.rows)
        self.assertEqual(side.root_hash(), Side(THEIRS).root_hash())

    def not_taken(self, key, part, call, *words):
        with self.assertRaises(UntakenError) as caught:
            call(*words)
        self.assertEqual((caught.exception.key, caught.exception.part), (key, part))
        self.assertRegex(str(caught.exception), f"^the entry at 'k{{1,40}}' isn't taken: its {part} .{{1,100}}$")
        self.assertEqual(pickle.loads(pickle.dumps(caught.exception)).part, part)

    def test_rows_that_no_store_takes(self):
        asks = [bytes.fromhex("01 05 01 00 00"), bytes.fromhex("01 04 01 02 01 6b")]
        for key, register, part in untaken():
            side = Side(OURS)
            root = side.tree.root_hash()
            self.not_taken(key, part, register.check, key)
            self.not_taken(key, part, side.tree.join, side.rows, [("fox", OURS["ant"]), (key, register)])
            self.assertEqual(side.rows.table, OURS)
            # another program writes it, and the tree isn't told
            side.rows.table[key] = register
            for question in asks if key == "k" else asks[:1]:
                self.not_taken(key, part, side.answer, question)
                sent = []
                self.not_taken(key, part, side.serve, said_by(question), sent.append)
                self.assertEqual(sent, [])
            for call in [side.tree.load, side.tree.verify, side.tree.rescan]:
                self.not_taken(key, part, call, side.rows)
                self.assertEqual(side.tree.root_hash(), root)
            side.rows.table["fox"] = OURS["ant"]
            with self.assertRaises(UnreadError) as caught:
                side.tree.refresh(side.rows, [key, "fox"])
            self.assertEqual((caught.exception.keys, caught.exception.__cause__.part, len(side.tree)), ([key.encode()], part, 3))
            self.assertRaises(UnreadError, side.answer, asks[0])
            del side.rows.table[key]
            self.assertEqual((by_steps(Side(), side.answer)[0], len(side.tree)), (3, 3))

    def test_a_join_that_returns_a_row_that_no_store_takes(self):
        for _, register, part in untaken()[1:]:
            side = Side({"k": OURS["bee"]})
            side.rows.table["k"] = register
            side.rows.join = lambda came: [(key, side.rows.table[key]) for key, _ in came]
            self.not_taken("k", part, by_steps, side, Side({"k": OURS["ant"]}).answer)
            self.assertRaisesRegex(UnreadError, f"b'k': UntakenError: .* its {part} ", side.answer, b"any question")
            side.rows.table["k"] = THEIRS["bee"]
            self.assertEqual((side.answer(b"any question"), side.tree.root_hash()), (REFUSAL, Side(side.rows.table).tree.root_hash()))

    def test_rows_that_come_in_another_order(self):
        class Others(Rows):
            def scan(self, first, end):
                return [(key, OURS["ant"]) for key in self.keys]

        side, rows = Side(OURS), Others()
        for rows.keys, text in [(("b", "B"), "b'B' after b'b', .* COLLATE"), (("b", "b"), "b'b' twice: ")]:
            for call in [side.tree.load, side.tree.verify]:
                self.assertRaisesRegex(ValueError, text, call, rows)
            self.assertRaisesRegex(ValueError, text, Side().tree.rescan, rows)
            self.assertRaisesRegex(ValueError, text, side.tree.answer, rows, bytes.fromhex("01 05 01 00 00"))
            self.assertRaisesRegex(ValueError, text, RegisterTree, rows, hash_key=KEY)
        self.assertEqual(side.tree.root_hash(), Side(OURS).tree.root_hash())


def untaken():
    """Entries that no side takes, whatever its clock says, and which part of each is wrong."""
    register = OURS["ant"]
    return [("k" * (MOST_TEXT + 1), register, "key"), ("k", Register(1, "w" * (MOST_TEXT + 1), b""), "writer"),
            ("k", Register(1, "w", b"v" * (MOST_TEXT + 1)), "value"), ("k", Register(1 << 63, "w", b""), "time")]


class Peers(unittest.TestCase):
    def test_another_hash_key(self):
        for ours, theirs in [(Side(OURS), Side(THEIRS, bytes(16))), (Side(OURS, bytes(16)), Side(THEIRS))]:
            pair = socket.socketpair()
            with pair[0], pair[1]:
                ends = in_threads(lambda: ours.catch_up(pair[0].recv, pair[0].sendall), lambda: theirs.serve(pair[1].recv, pair[1].sendall))
            self.assertEqual([type(end) for end in ends], [RefusedError, RefusedError])
            self.assertEqual((ours.rows.table, theirs.rows.table), (OURS, THEIRS))
        self.assertRaises(RefusedError, by_steps, Side({}, bytes(16)), Side(THEIRS).answer)

    def test_a_peer_that_asks_for_a_delta(self):
        side = Side(THEIRS)
        root, plain = map(bytes.fromhex, ASKED)
        by_delta = b"\1\6\1\xe4\xcf\xb9\x5f" + plain
        self.assertEqual(side.answer(by_delta), REFUSAL)
        sent = []
        self.assertEqual(side.serve(said_by(root, by_delta, plain, b""), sent.append), 3)
        self.assertEqual([len(reply) - 8 for reply in sent], [len(bytes.fromhex(REPLIES[0])), 2, len(side.answer(plain))])

    def test_entries_that_are_not_taken(self):
        for key, register, part in untaken():
            side = Side(OURS)
            with self.assertRaises(UntakenError) as caught:
                by_steps(side, peer_of({**THEIRS, key: register}), latest=(1 << 64) - 1)
            self.assertEqual((caught.exception.key, caught.exception.part), (key, part))
            self.assertEqual((side.rows.table, side.tree.root_hash()), (OURS, Side(OURS).tree.root_hash()))
        for ahead, is_taken in [(86_400_000 - 60_000, True), (86_400_000 + 60_000, False)]:
            side, peer = Side(OURS), Side({"dog": Register(time.time_ns() // 1_000_000 + ahead, "bob", b"")})
            with contextlib.nullcontext() if is_taken else self.assertRaises(UntakenError):
                by_steps(side, peer.answer)
            self.assertEqual("dog" in side.rows.table, is_taken)
            by_steps(side, peer.answer, latest=(1 << 64) - 1)
            self.assertIn("dog", side.rows.table)
        side = Side(OURS)
        self.assertRaises(UntakenError, by_steps, side, Side(THEIRS).answer, latest=THEIRS["cow"].time - 1)
        by_steps(side, Side(THEIRS).answer, latest=THEIRS["cow"].time)
        self.assertEqual(side.rows.table, THEIRS)

    def test_keys_that_are_no_texts(self):
        tree = SyncTree(key=KEY, page_format=2)
        tree[b"\xff"] = OURS["ant"].hashed_bytes()

        class Table:
            def get(self, key):
                return OURS["ant"].hashed_bytes() if key == b"\xff" else None

            def scan(self, first, end):
                return [(b"\xff", OURS["ant"].hashed_bytes())]

        side = Side(OURS)
        self.assertRaises(MalformedError, by_steps, side, lambda question: with_registers(tree.answer(Table(), question)))
        self.assertEqual(side.rows.table, OURS)
        for asks in ["01 04 01 02 01ff", "01 05 01 01 02 01ff 00", "01 05 01 00 01 02 01ff"]:
            self.assertEqual(side.answer(bytes.fromhex(asks)), REFUSAL)
            self.assertRaises(MalformedError, side.serve, said_by(bytes.fromhex(asks)), [].append)

    def test_replies_that_are_cut_or_altered(self):
        whole = bytes.fromhex(REPLIES[1])
        for reply in altered(whole):
            side = Side(OURS)
            steps = side.catch_up_steps(latest=(1 << 64) - 1)
            next(steps)
            steps.send(bytes.fromhex(REPLIES[0]))
            try:
                steps.send(reply)
            except StopIteration:
                self.assertTrue(set(side.rows.table) >= set(OURS))
            except (MalformedError, RefusedError, UntakenError):
                self.assertNotEqual(reply, whole)
                self.assertEqual((side.rows.table, side.tree.root_hash()), (OURS, Side(OURS).tree.root_hash()))

    def test_a_peer_that_breaks_off(self):
        whole = b"".join(len(reply).to_bytes(8, "little") + reply for reply in map(bytes.fromhex, REPLIES))
        for size in range(len(whole)):
            side, left = Side(OURS), bytearray(whole[:size])

            def read(most):
                piece, left[:most] = bytes(left[:most]), b""
                return piece

            self.assertRaises(EOFError, side.catch_up, read, [].append)
            self.assertEqual((side.rows.table, side.tree.root_hash()), (OURS, Side(OURS).tree.root_hash()))

    def test_ranges_are_closed(self):
        side = Side(THEIRS)
        before = side.rows.closed
        side.answer(bytes.fromhex("01 05 01 00 00"))
        self.assertEqual(side.rows.closed, before + 1)

    def test_replies_in_both_forms(self):
        digest, page = "11" * 16, "01" + "22" * 16
        registers = [VECTORS[1][1], VECTORS[2][1], VECTORS[4][1]]
        strings = ["%02x" % len(bytes.fromhex(hashed)) + hashed for hashed in (VECTORS[at][2] for at in (1, 2, 4))]
        long = "f0 ff01 0161"
        for front in ["01 82 00 02 04 03616e74 %s 13 626565 %s 01 02 04 03616e74 13 626565" + digest * 2 + "00 01" + long + "%s",
                      "01 82 02" + digest + "01 04 03616e74" + page + "00  00 01 00 %s 00 01 04 03616e74 %s 00 00 00 01 00 %s",
                      "01 83 00 01 04 03616e74 %s 01 01 04 03616e74" + digest + "00 01 00 %s 00 01 00 %s", "01 84 00 01 %s 01 %s 00 01 %s",
                      "01 85 01 04 03616e74 %s 00 02 04 03616e74 %s 13 626565 %s 01 00 01"]:
            message, rewritten = (bytes.fromhex(front % tuple(values)) for values in (registers, strings))
            self.assertEqual((with_byte_strings(message), with_registers(rewritten)), (rewritten, message))
            for size in range(3, len(message)):
                with contextlib.suppress(MalformedError):
                    self.assertEqual(with_registers(with_byte_strings(message[:size])), message[:size])
        for other in [b"", b"\1", b"\1\x81\3\0", REFUSAL, *map(bytes.fromhex, ASKED)]:
            self.assertEqual((with_byte_strings(other), with_registers(other)), (other, other))
        for wrong in ["01 84 02", "01 85 00 02", "01 82 00 01 f0 8000 00", "01 82 01 01 00 11", "01 85 8000 01"]:
            self.assertRaises(MalformedError, with_byte_strings, bytes.fromhex(wrong))


def altered(message):
    """The message, each of its beginnings, and it with each byte changed in some ways."""
    yield message
    yield message + b"\0"
    for at, byte in enumerate(message):
        yield message[:at]
        for other in {0, 1, 2, 127, 255, byte ^ 1, byte ^ 128}:
            yield message[:at] + bytes([other]) + message[at + 1:]


if __name__ == "__main__":
    unittest.main()
