"""The calls `gazhdor_writer_*` of the library, of which memory may be refused, and beside them what writer_model.py
says that the writer may be."""
import ctypes
import functools
import os
import shutil
import subprocess

from support import folder, in_tree, left_out
from block_model import DESCRIPTION, cut
import reader_model
from reader_model import DEVELOPER_DATA_ID, TIMESTAMP, UINT32
import writer_model
from writer_model import Answer, CLOSED, GOOD, Writer

from gazhdor import _numbers as n
from gazhdor._library import _find

BYTES, SIZE = ctypes.c_char_p, ctypes.c_size_t


class FitAnswer(ctypes.Structure):
    _fields_ = [("status", ctypes.c_uint32), ("reason", ctypes.c_uint32), ("place", ctypes.c_uint64),
        ("row", ctypes.c_uint64), ("column", ctypes.c_uint64), ("files", ctypes.c_uint64)]


class Text(ctypes.Structure):
    _fields_ = [("bytes", ctypes.c_void_p), ("length", SIZE)]


WORDS = {"open": (), "file": (BYTES, SIZE), "definition": (BYTES, SIZE), "messages": (BYTES, SIZE, BYTES, SIZE),
    "finish": (ctypes.POINTER(Text),)}


@functools.lru_cache(maxsize=None)
def library():
    """The library, linked with refusing.c."""
    if not shutil.which("cc"):
        left_out("there is no cc, so no memory is refused")
    archive = os.path.join(os.path.dirname(_find()[0]), "libgazhdor.a")
    if not os.path.exists(archive):
        left_out(f"there is no {archive}, so no memory is refused")
    made = os.path.join(folder(), "refusing.so")
    subprocess.run(["cc", "-O2", "-shared", "-fPIC", "-o", made, in_tree("python/tests/refusing.c"),
        "-Wl,--whole-archive", archive, "-Wl,--no-whole-archive,--wrap=malloc,--wrap=realloc,--wrap=free"], check=True)
    found = ctypes.CDLL(made)
    for name, words in WORDS.items():
        call = getattr(found, "gazhdor_writer_" + name)
        call.restype, call.argtypes = FitAnswer, (ctypes.POINTER(ctypes.c_void_p), *words)
    found.gazhdor_writer_close.argtypes = [ctypes.POINTER(ctypes.c_void_p)]
    found.gazhdor_writer_close.restype = None
    found.gazhdor_messages.restype, found.gazhdor_messages.argtypes = FitAnswer, (BYTES, SIZE, ctypes.POINTER(Text))
    found.gazhdor_free.argtypes, found.gazhdor_free.restype = [Text], None
    found.refuse_growth.argtypes, found.refuse_growth.restype = [ctypes.c_long], ctypes.c_long
    found.blocks_held.restype = ctypes.c_long
    return found


def taken(text):
    """The bytes of a text, which is freed."""
    data = ctypes.string_at(text.bytes, text.length) if text.length else b""
    library().gazhdor_free(text)
    return data


class OfLibrary:
    """A writer of the library."""

    def __init__(self):
        # which growth of memory the next call is refused, and how many the last one had; of how many messages the
        # amounts are read as in their blocks, of all and of the last call
        self.at, self.refused, self.growths, self.told, self.last_told = ctypes.c_void_p(), 0, 0, 0, 0

    def answer(self, name, *words):
        library().refuse_growth(self.refused)
        answer = getattr(library(), "gazhdor_writer_" + name)(self.at, *words)
        self.growths = library().refuse_growth(0)
        self.refused = 0
        assert answer.files <= answer.row
        self.told, self.last_told = self.told + answer.files, answer.files
        return Answer(answer.status, answer.reason, answer.place, answer.row, answer.column)

    def call(self, name, *parts):
        """The answer of a call, whose parts are bytes."""
        return self.answer(name, *(word for part in parts for word in (part, len(part))))

    def finish(self):
        text = Text()
        return self.answer("finish", text), taken(text)

    def close(self):
        library().gazhdor_writer_close(self.at)


class Differs(Exception):
    """The library and the model answer differently."""


def distinct(writers):
    """Writers that haven't put the same, or have used it in another order."""
    return list({(*(file.data for file in writer.files), *in_order(writer.current)): writer
        for writer in writers}.values())


def in_order(file):
    """The data of the file that has begun, and its local message types, the least lately used first."""
    return (file.data, *sorted(file.used, key=file.used.get)) if file else (None,)


class Both:
    """A writer of the library, and what the model says that it may be: nothing where it is closed, more than one where
    memory was refused."""

    def __init__(self):
        self.writer, self.may_be, self.answers = OfLibrary(), [], []
        # of each file, and each message that was put into it: the amounts that its block says, and whether they are
        # read so; None where no answer tells it
        self.said = []

    def keep(self, found, may_be, wanted):
        """Goes on with the writers that answer as the library does."""
        self.answers.append(found)
        self.may_be = distinct(may_be)
        if not may_be:
            raise Differs(f"the library: {found}; the model: {wanted}")

    def open(self):
        found = self.writer.call("open")
        self.answers.append(found)
        self.may_be, self.said = [Writer()] if found == GOOD else [], []
        if found not in (GOOD, Answer(n.NO_MEMORY)):
            raise Differs(f"open: {found}")

    def close(self):
        self.writer.close()
        self.may_be = []

    def is_closed(self, found):
        if not self.may_be and found != CLOSED:
            raise Differs(f"the library: {found}; the writer is closed")
        return not self.may_be

    def put(self, name, block):
        """`file` or `definition`: where memory is refused, nothing has changed."""
        found = self.writer.call(name, block)
        if not self.is_closed(found) and found != Answer(n.NO_MEMORY):
            answers = [(getattr(writer, name)(block), writer) for writer in self.may_be]
            self.keep(found, [writer for answer, writer in answers if answer == found], answers)
            if name == "file" and found == GOOD:
                self.said.append([])

    def messages(self, definition, blocks):
        found = self.writer.call("messages", definition, blocks)
        if self.is_closed(found):
            return
        self.note(definition, blocks, found.row)
        if found.status == n.NO_MEMORY and (found.reason, found.column) == (0, 0):
            self.keep(found, [after for writer in self.may_be for after in writer_model.after_refused_messages(
                writer, definition, blocks, found.row, found.place)], "more or fewer were put")
            return
        answers = [(writer.messages(definition, blocks), writer) for writer in self.may_be]
        self.keep(found, [writer for answer, writer in answers if answer == found], answers)

    def note(self, definition, blocks, count):
        """Keeps what the blocks of the first messages of a run say of their amounts."""
        at, told = 0, self.writer.last_told
        for k in range(count):
            block = writer_model.next_block(blocks, at)
            at += len(block)
            self.said[-1].append((writer_model.amounts_in(definition, block), k < told if k <= told else None))

    def finish(self):
        """The bytes of the chain; None where memory was refused."""
        found, data = self.writer.finish()
        if self.is_closed(found):
            return b""
        if found == Answer(n.NO_MEMORY):
            self.keep(found, [after for writer in self.may_be
                for after in writer_model.after_refused_finish(writer)], None)
            return None
        answers = [(writer.finish(), writer) for writer in self.may_be]
        self.keep((found, data), [writer for answer, writer in answers if answer == (found, data)],
            [answer for answer, _ in answers])
        need_read_as_put(data, self.may_be[0].files, self.said)
        return data


# ---- what is read


def is_read_as(put, reading):
    """Whether what is read is what was put; or that with its time as a timestamp before the other fields. Where a
    message was added, it is a description."""
    if put is None:
        return reading.message in (DESCRIPTION, DEVELOPER_DATA_ID)
    if reading == put:
        return True
    if put.time is None:
        return False
    stamp = TIMESTAMP, UINT32, put.time.to_bytes(4, "little")
    return reading == put._replace(fields=(stamp, *put.fields))


def blocks_of(data):
    """What gazhdor_messages makes of a chain."""
    text = Text()
    if library().gazhdor_messages(data, len(data), text).status != n.GOOD:
        raise Differs("what was written is no chain")
    return taken(text)


def told_by_blocks(data):
    """What gazhdor_messages tells of the messages of a chain, file by file: a reading, and the amounts."""
    blocks, at, files, definitions = blocks_of(data), 0, [], {}
    while at < len(blocks):
        block = cut(blocks, at)
        at += len(block)
        if block[n.AT_KIND] == n.FILE_HEADER:
            files.append([])
        elif block[n.AT_KIND] == n.DEFINITION:
            definitions[n_of(block)] = block, writer_model.form_in(block)
        elif block[n.AT_KIND] == n.MESSAGE:
            definition, form = definitions[n_of(block)]
            time = int.from_bytes(block[n.AT_MESSAGE_TIME : n.AT_MESSAGE_TIME + 4], "little")
            reading = writer_model.said_by(form, block)
            reading = reading._replace(time=time if block[n.AT_MESSAGE_BITS] & n.TOLD_TIME else None)
            files[-1].append((reading, writer_model.amounts_in(definition, block)))
    return files


def n_of(block):
    """The number of a definition, as its block and those of its messages have it."""
    return block[n.AT_DEFINITION_NUMBER : n.AT_DEFINITION_NUMBER + 8]


def need_read_as_put(data, files, said):
    """Raises where what is read of a chain, by reader_model.py and by gazhdor_messages, isn't what was put, or of the
    amounts not what was answered."""
    if not data:
        return
    chain, told = reader_model.read_chain(data), told_by_blocks(data)
    if not len(chain) == len(told) == len(files) == len(said):
        raise Differs(f"{len(files)} files were put, {len(chain)} and {len(told)} are read")
    for found, messages, file, amounts in zip(chain, told, files, said):
        size, protocol, profile, checksum, more = found.header
        wanted = file.header
        if (size, protocol, profile, more) != (wanted.size, wanted.protocol, wanted.profile, wanted.more) \
                or wanted.sum == n.NO_SUM and size != 12 or wanted.sum == n.ZERO_SUM and checksum != b"\0\0":
            raise Differs(f"the header {found.header}")
        blocks = [reading for reading, _ in messages]
        if found.readings != blocks:
            raise Differs("the reader in Python and gazhdor_messages tell different messages")
        if len(blocks) != len(file.puts) or not all(map(is_read_as, file.puts, blocks)):
            raise Differs(f"what is read isn't what was put: {blocks} {file.puts}")
        read = [of for put, (_, of) in zip(file.puts, messages) if put is not None]
        if len(read) != len(amounts) or any((one == of) != is_read
                for one, (of, is_read) in zip(read, amounts) if is_read is not None):
            raise Differs(f"the amounts aren't read as was answered: {read} {amounts}")
