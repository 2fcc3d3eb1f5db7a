"""Whether a writer of the library answers and writes what writer_model.py says, which has the pages alone: random
sequences of calls, of which memory is refused; changed blocks; definitions by turns; and two laws."""
import itertools
import os
import random
import unittest

from support import known, recording
from block_model import DESCRIPTION, cut
from fits import any_file
from writer_calls import Both, OfLibrary, blocks_of, is_read_as, library
from reader_model import Definition, read_chain
import writer_model
from writer_sequences import Field, Plain, Sequence, damaged, definition, header_block, message_head

from gazhdor import _numbers as n

FULL = os.environ.get("GAZHDOR_FULL") == "1"
UINT8, UINT32 = 2, 0x86
TIME = 10**9


def begun(header=None):
    """A writer of a file."""
    both = Both()
    both.open()
    both.put("file", header or header_block(random.Random(1)))
    return both


def message_of(made, number=0):
    """A message whose items are this byte."""
    head = message_head(made.length)
    return head + bytes([number]) * (made.length - len(head))


class Sequences(unittest.TestCase):
    def test_any(self):
        for seed in range(100000 if FULL else 500):
            with self.subTest(seed=seed):
                Sequence(seed).run()

    def test_no_block_left(self):
        """What was refused in a sequence isn't left over."""
        Sequence(7).run()
        self.assertEqual(library().blocks_held(), 0)


class Refused(unittest.TestCase):
    def test_messages(self):
        """Where memory is refused to a message that needs a definition message, nothing was put, or just that one."""
        first, second = (definition(Plain(), k, 0, 20, [Field(k, UINT8, 1, 20)], False) for k in range(2))
        found = set()
        for before, growth in itertools.product(range(40), range(1, 6)):
            both = begun()
            both.messages(first.block, before * message_of(first))
            both.writer.refused = growth
            both.messages(second.block, message_of(second))
            is_refused = both.answers[-1].status == n.NO_MEMORY
            (file,) = read_chain(both.finish())
            found.add((is_refused, len(file.records) - before - (before > 0)))
            both.close()
        self.assertEqual(found, {(True, 0), (True, 1), (False, 2)})

    def test_descriptions(self):
        """Where memory is refused at any growth to a message whose developer fields are to be described, the first
        messages that describe them may have been put, and the call again puts the others, each once."""
        fields = [Field(k, UINT8, 1, 1, k // 2, b"n" * (k + 1), b"u") for k in range(4)]
        made = definition(Plain(), 5, 0, 20, fields, True)
        message = message_head(made.length, n.TOLD_HEADER_TIME, 0, 7, TIME) + bytes(made.length - n.AT_MESSAGE_ITEMS)
        whole, left, growths = [207, 206, 206, 207, 206, 206, 20], [], itertools.count(1)
        while (found := self.refused_once(made.block, message, next(growths))) is not None:
            once, again = found
            self.assertEqual((once, again), (whole[: len(once)], whole))
            left.append(len(once))
        self.assertEqual(set(left) - {len(whole)}, set(range(len(whole))))

    def refused_once(self, block, message, growth):
        """The messages that are read where a growth of memory is refused to a message, and where it is put again if it
        wasn't; None where there is no such growth."""
        found = []
        for is_again in range(2):
            both = begun()
            both.writer.refused = growth
            both.messages(block, message)
            if both.writer.growths < growth:
                both.close()
                return None
            if is_again and both.answers[-1].status == n.NO_MEMORY:
                both.messages(block, message)
            (file,) = read_chain(both.finish())
            found.append([reading.message for reading in file.readings])
            both.close()
        return found

    def test_finish(self):
        """Where memory is refused to the end of a file, it has ended or not; the next end makes the bytes."""
        (made,) = Turns().made(1)
        ended = []
        for growth in itertools.count(1):
            both = begun()
            both.messages(made.block, message_of(made))
            both.writer.refused = growth
            if both.finish() is not None:
                break
            both.messages(made.block, message_of(made))
            ended.append(both.answers[-1].reason == writer_model.NO_FILE)
            self.assertTrue(both.finish())
            both.close()
        both.close()
        self.assertEqual(ended, sorted(ended))
        self.assertEqual(set(ended), {False, True})


class Changed(unittest.TestCase):
    """Changed blocks of headers and definitions."""

    def agree(self, name, blocks):
        both = begun()
        for k, block in enumerate(blocks):
            both.put(name, block)
            if k % 50 == 49:
                both.finish()
                both.close()
                both = begun()
        both.finish()
        both.close()

    def each_byte(self, block):
        """The block with each byte as any other; where it isn't the lowest of a number, as some others."""
        for at in range(len(block)):
            for byte in range(256) if FULL else (0, 1, 2, 15, 16, 48, 255, block[at] ^ 1, block[at] ^ 128):
                yield block[:at] + bytes([byte]) + block[at + 1 :]

    def test_headers(self):
        r = random.Random(2)
        for _ in range(3):
            self.agree("file", self.each_byte(header_block(r)))
        self.agree("file", (damaged(r, header_block(r)) for _ in range(2000)))

    def test_definitions(self):
        r = random.Random(3)
        fields = [Field(253, UINT32, 4, 1), Field(3, UINT8, 1, 5), Field(1, 0x84, 2, 1, 0, b"Form power", b"W")]
        self.agree("definition", self.each_byte(definition(Plain(), 3, 1, 20, fields, True).block))
        sequence = Sequence(4)
        self.agree("definition", (damaged(r, sequence.definition().block) for _ in range(2000)))


class Turns(unittest.TestCase):
    """More definitions than local message types."""

    def made(self, count, local=0):
        fields = [Field(number, UINT8, 1, 1) for number in range(count)]
        return [definition(Plain(), local, 0, 20, [field], False) for field in fields]

    def test_turns(self):
        """Sixteen definitions are put once, of seventeen each anew."""
        for count, of_three in ((16, 16), (17, 51)):
            both = begun()
            for made in 3 * self.made(count):
                both.messages(made.block, message_of(made))
            found = [record for record in read_chain(both.finish())[0].records if isinstance(record, Definition)]
            self.assertEqual(len(found), of_three)
            both.close()

    def test_least_lately(self):
        """A definition message counts as a use, and so does a message."""
        r = random.Random(6)
        made = self.made(24)
        for _ in range(50):
            both = begun()
            for one in made[:16]:
                both.messages(one.block, message_of(one))
            for _ in range(12):
                one = r.choice(made)
                if r.random() < 0.5:
                    both.put("definition", one.block[:5] + bytes([r.randrange(16)]) + one.block[6:])
                else:
                    both.messages(one.block, message_of(one))
            both.finish()
            both.close()

    def test_left(self):
        """A definition message that stays where memory was refused isn't a use: the next new one takes its place."""
        made, left = self.made(17), 0
        describing = definition(Plain(), 0, 0, DESCRIPTION, [Field(number, UINT8, 1, 1) for number in range(3)], False)
        for growth in itertools.count(1):
            both = begun()
            for one in made[:16]:
                both.messages(one.block, message_of(one))
            both.writer.refused = growth
            both.messages(describing.block, message_of(describing))
            is_over = both.writer.growths < growth
            for one in (made[16], describing, *made):
                both.messages(one.block, message_of(one))
            kinds = [type(record) for record in read_chain(both.finish())[0].records]
            left += (Definition, Definition) in zip(kinds, kinds[1:])
            both.close()
            if is_over:
                break
        self.assertGreater(left, 0)


# ---- laws


def chains(size="10k"):
    """Known files, recordings of each kind, and random chains."""
    yield from known().items()
    for kind in ("plain", "developer", "compressed", "turns", "definitions", "strings", "interleaved", "small"):
        with open(recording(kind, size), "rb") as file:
            yield kind, file.read()
    r = random.Random(8)
    for k in range(300 if FULL else 20):
        yield f"chain {k}", b"".join(any_file(r) for _ in range(r.randrange(1, 4)))
    for seed in range(300 if FULL else 30):
        sequence = Sequence(seed)
        sequence.refusal = 0
        data = sequence.run()
        if data:
            yield f"written {seed}", data


def blocks_one_by_one(data):
    """The blocks of a chain; of a message also that of its definition, else None."""
    blocks, at, definitions = blocks_of(data), 0, {}
    while at < len(blocks):
        block = cut(blocks, at)
        at += len(block)
        number = block[n.AT_DEFINITION_NUMBER : n.AT_DEFINITION_NUMBER + 8]
        if block[n.AT_KIND] == n.DEFINITION:
            definitions[number] = block
        yield block, definitions[number] if block[n.AT_KIND] == n.MESSAGE else None


class Laws(unittest.TestCase):
    def test_copies_are_exact(self):
        """All blocks of a chain, put one by one or in runs, make its bytes, and all amounts are read as in them."""
        for name, data in chains():
            with self.subTest(chain=name):
                for most in (1, 7, 10**9):
                    self.assertEqual(self.copied(data, most), data)

    def copied(self, data, most):
        writer, names, messages = OfLibrary(), {n.FILE_HEADER: "file", n.DEFINITION: "definition"}, 0
        writer.call("open")
        for own, group in itertools.groupby(blocks_one_by_one(data), lambda pair: pair[1]):
            blocks = [block for block, _ in group]
            if own is None:
                answers = [writer.call(names[block[n.AT_KIND]], block) for block in blocks if block[n.AT_KIND] in names]
            else:
                answers = [writer.call("messages", own, b"".join(blocks[k : k + most]))._replace(row=0)
                    for k in range(0, len(blocks), most)]
                messages += len(blocks)
            self.assertEqual(set(answers) - {writer_model.GOOD}, set())
        self.assertEqual(writer.told, messages)
        answer, found = writer.finish()
        writer.close()
        self.assertEqual(answer, writer_model.GOOD)
        return found

    def test_parts_read_as_read(self):
        """Any messages of a chain, put in their order after its headers, are read as they were, with what describes
        their developer fields among them. None is refused but one that can't be described so."""
        r = random.Random(9)
        for name, data in chains():
            for part in (0.9, 0.3):
                with self.subTest(chain=name, part=part):
                    self.select([data], lambda k: r.random() < part)

    def test_cut_in_two(self):
        """The first messages of a chain and the others, each in a chain of its own, and these put together, in one file
        and in their files, are read as they were."""
        r = random.Random(10)
        for name, data in chains("2k"):
            with self.subTest(chain=name):
                count = sum(len(file.readings) for file in read_chain(data))
                at = r.randrange(count + 1)
                halves = [self.select([data], of) for of in (lambda k: k < at, lambda k: k >= at)]
                self.select(halves, lambda k: True)
                self.select(halves, lambda k: True, is_one=True)

    def select(self, chains, is_chosen, is_one=False):
        """Puts the chosen messages of chains, in their files or all in one. Returns the bytes."""
        both, wanted, number = Both(), [], itertools.count()
        both.open()
        for data in chains:
            readings = iter([reading for file in read_chain(data) for reading in file.readings])
            for block, own in blocks_one_by_one(data):
                if block[n.AT_KIND] == n.FILE_HEADER and not (is_one and both.may_be[0].current):
                    both.put("file", block)
                elif own is not None:
                    self.put(both, wanted, own, block, next(readings), is_chosen(next(number)))
        data = both.finish()
        both.close()
        found = [reading for file in read_chain(data) for reading in file.readings]
        for reading in wanted:
            while not is_read_as(reading, found[0]):
                self.assertTrue(is_read_as(None, found.pop(0)))
            found.pop(0)
        self.assertTrue(all(is_read_as(None, reading) for reading in found))
        return data

    def put(self, both, wanted, own, block, reading, is_chosen):
        """Puts a message, if it is chosen; it isn't refused, unless it can't be described."""
        if not is_chosen:
            return
        both.messages(own, block)
        if both.answers[-1].status == n.GOOD:
            wanted.append(reading)
        else:
            self.assertEqual(both.answers[-1].reason, writer_model.DESCRIBED)
            self.assertTrue(any(map(is_undescribable, writer_model.form_in(own).described)))


def is_undescribable(told):
    """Whether no description of a file is read as this base type, name and unit; texts of chains can be shown."""
    return told == writer_model.BARE or max(map(len, told[1:])) == 255


if __name__ == "__main__":
    unittest.main()
