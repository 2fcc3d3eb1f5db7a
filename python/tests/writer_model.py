"""What a writer of messages answers and writes (`gazhdor_writer_*` of c/gazhdor.h), worked out here by docs/BLOCKS.md,
docs/C.md and the protocol alone."""
import collections
import struct

from block_model import (
    ARCHITECTURE, BYTE, CUT, DESCRIPTION, File as Header, Fault, ITEMS, KIND, LOCAL, OFFSET, SIZE, checksum, item_width,
    need, number, says_developers,
)
from gazhdor import _numbers as n
from reader_model import (
    DEVELOPER_DATA_ID, Definition, Message, NO_TIME, Reading, Records, STRING, TIMESTAMP, UINT32, is_printable, time_of,
    turned,
)

NO_FILE, FILES, FULL, TIME, DESCRIBED, TOO_LONG = range(11, 17)
# of a developer field without a description
BARE, UINT8 = (BYTE, b"", b""), 2
# Local message types of messages that describe, where these are free, and how many bytes a text of theirs has at most.
LOCAL_OF_INDEX, LOCAL_OF_DESCRIPTION, MOST_TEXT = 14, 15, 254
AMOUNTS = ((n.TOLD_SPEED, n.AT_MESSAGE_SPEED), (n.TOLD_DISTANCE, n.AT_MESSAGE_DISTANCE),
    (n.TOLD_CYCLES, n.AT_MESSAGE_CYCLES), (n.TOLD_POWER, n.AT_MESSAGE_POWER))

# What the block of a definition says: the definition message, of its developer fields (base type, name, unit), and of
# each field and developer field (place, bytes) where a message's block has its items.
Form = collections.namedtuple("Form", "definition described slots")
# What a call answers.
Answer = collections.namedtuple("Answer", "status reason place row column", defaults=(0, 0, 0, 0))
GOOD, CLOSED = Answer(n.GOOD), Answer(n.CLOSED)


# ---- what blocks say


def need_block(block, kind):
    """By itself it is one whole block, of this kind."""
    need(len(block) >= n.LEAST_BLOCK and number(block, 0, 4) == len(block) and len(block) % 8 == 0, CUT)
    need(block[n.AT_KIND] == kind, KIND)


def header_in(block):
    need_block(block, n.FILE_HEADER)
    return Header(block)


def text_at(entry, place):
    """A text of an entry: up to its zero, or to the end of the entry."""
    return entry[place:].split(b"\0")[0]


def described_in(entry):
    name, unit = n.AT_ENTRY_NAME, number(entry, n.AT_ENTRY_UNIT, 2)
    return entry[n.AT_ENTRY_BASE_TYPE], text_at(entry, name), text_at(entry, unit)


def slot_in(entry):
    """Where a message's block has the items, and how many bytes; by its own base type they have that width."""
    code, width, count = (entry[at] for at in (n.AT_ENTRY_BASE_TYPE, n.AT_ENTRY_WIDTH, n.AT_ENTRY_COUNT))
    size = width * count
    need(size < 256 and item_width(code, size) == width, SIZE)
    return number(entry, n.AT_ENTRY_ITEMS, 4), size


def form_in(block):
    need_block(block, n.DEFINITION)
    local, big = block[n.AT_DEFINITION_LOCAL], block[n.AT_DEFINITION_ARCHITECTURE]
    need(local < 16, LOCAL)
    need(big <= n.BIG_ENDIAN, ARCHITECTURE)
    entries = Header.entries(block)
    slots = tuple(slot_in(entry) for entry in entries)
    fields, developers, described = [], [], []
    for entry, (_, size) in zip(entries, slots):
        if entry[n.AT_ENTRY_DEVELOPER]:
            developers.append((entry[n.AT_ENTRY_NUMBER], size, entry[n.AT_ENTRY_INDEX]))
            described.append(described_in(entry))
        else:
            fields.append((entry[n.AT_ENTRY_NUMBER], size, entry[n.AT_ENTRY_BASE_TYPE]))
    says = tuple(developers) if says_developers(block) else None
    definition = Definition(local, block[n.AT_DEFINITION_RESERVED], big, number(block, n.AT_DEFINITION_MESSAGE, 2),
        tuple(fields), says)
    return Form(definition, tuple(described), slots)


def need_message(form, block):
    need_block(block, n.MESSAGE)
    offset = block[n.AT_MESSAGE_OFFSET]
    need(offset < 32 or offset == n.NO_OFFSET, OFFSET)
    need(all(place + size <= len(block) for place, size in form.slots), ITEMS)


def header_time_in(block):
    """The time of its compressed header, where it says that one is told."""
    if len(block) < n.AT_MESSAGE_ITEMS or block[n.AT_MESSAGE_OFFSET] == n.NO_OFFSET:
        return None
    return number(block, n.AT_MESSAGE_HEADER_TIME, 4) if block[n.AT_MESSAGE_BITS] & n.TOLD_HEADER_TIME else None


def amounts_in(definition, block):
    """The speed, distance, cycles and power that a message's block says by that of its definition."""
    is_counted = definition[n.AT_DEFINITION_BITS] & n.IS_COUNTED and len(block) >= n.AT_MESSAGE_COUNTED_ITEMS
    return tuple(number(block, at, 8) if is_counted and block[n.AT_MESSAGE_BITS] & bit else None for bit, at in AMOUNTS)


def items_in(form, block):
    """The bytes of each field, and of each developer field."""
    found = tuple(block[place : place + size] for place, size in form.slots)
    return found[: len(form.definition.fields)], found[len(form.definition.fields) :]


def said_by(form, block):
    """What a reader is to be told of a message."""
    items, own = items_in(form, block)
    fields = tuple((of, code, data) for (of, _, code), data in zip(form.definition.fields, items))
    developers = tuple((index, of, told, data)
        for (of, _, index), told, data in zip(form.definition.developers or (), form.described, own))
    time = time_of(fields)
    return Reading(form.definition.message, fields, developers, header_time_in(block) if time is None else time)


def dated(form):
    """The form with a timestamp before its fields, whose item is where a block has the time of its header."""
    fields = ((TIMESTAMP, 4, UINT32), *form.definition.fields)
    return form._replace(definition=form.definition._replace(fields=fields),
        slots=((n.AT_MESSAGE_HEADER_TIME, 4), *form.slots))


# ---- what is written


def spelled_definition(definition):
    local, reserved, big, message, fields, developers = definition
    head = 0x40 | (developers is not None) << 5 | local
    made = struct.pack(">BBBHB" if big else "<BBBHB", head, reserved, big, message, len(fields))
    made += b"".join(map(bytes, fields))
    return made if developers is None else made + bytes([len(developers)]) + b"".join(map(bytes, developers))


def spelled_message(known, message):
    definition, described = known
    codes = [code for _, _, code in definition.fields] + [told[0] for told in described]
    items = message.fields + message.developers
    if definition.big:
        items = [turned(data, code) for data, code in zip(items, codes)]
    head = message.local if message.offset is None else 0x80 | message.local << 5 | message.offset
    return bytes([head]) + b"".join(items)


def can_be_read_back(told):
    """Whether a description can give a developer field this base type, name and unit."""
    return told != BARE and all(not text or is_printable(text) and len(text) <= MOST_TEXT for text in told[1:])


def index_form(index):
    """The form and the items of a message that says that there is a developer data index."""
    return plain_form(LOCAL_OF_INDEX, DEVELOPER_DATA_ID, [(3, UINT8, bytes([index]))])


def description_form(index, number, told):
    """The same of one that describes a developer field."""
    code, name, unit = told
    fields = [(0, UINT8, bytes([index])), (1, UINT8, bytes([number])), (2, UINT8, bytes([code]))]
    fields += [(of, STRING, text + b"\0") for of, text in ((3, name), (8, unit)) if text]
    return plain_form(LOCAL_OF_DESCRIPTION, DESCRIPTION, fields)


def plain_form(local, message, fields):
    definition = Definition(local, 0, 0, message, tuple((of, len(data), code) for of, code, data in fields), None)
    return Form(definition, (), ()), (tuple(data for _, _, data in fields), ())


class OpenFile:
    """A file that has begun: what a reader of it would know, its data, what was put, and how lately each local message
    type was used."""

    def __init__(self, header):
        self.header, self.records, self.data, self.puts, self.used, self.count = header, Records(), b"", [], {}, 0

    def copy(self):
        new = OpenFile(self.header)
        new.records, new.data, new.puts = self.records.copy(), self.data, list(self.puts)
        new.used, new.count = dict(self.used), self.count
        return new

    def add(self, record, put=None):
        """The next record; of a message that isn't added by the writer what was put."""
        self.count += 1
        self.used[record.local] = self.count
        self.learn(record, put)

    def leave(self, record):
        """A record that stays where memory was refused, which isn't a use of its local message type."""
        self.used.setdefault(record.local, 0)
        self.learn(record, None)

    def learn(self, record, put):
        if isinstance(record, Definition):
            self.data += spelled_definition(record)
        else:
            self.data += spelled_message(self.records.known[record.local], record)
            self.puts.append(put)
        self.records.add(record)

    def keeps_offset(self, block):
        """Whether its time offset says here the time that the block tells."""
        offset = block[n.AT_MESSAGE_OFFSET]
        return offset != n.NO_OFFSET and self.records.header_time(offset) == header_time_in(block)

    def needed(self, form, block, keeps):
        """The form that a message needs: its own, or with a timestamp."""
        told = header_time_in(block)
        if keeps or told is None or time_of(said_by(form, block).fields) is not None:
            return form
        need(len(form.definition.fields) < 255, FULL)
        need(told < NO_TIME, TIME)
        return dated(form)

    def says_same(self, local, form):
        if local not in self.records.known:
            return False
        (_, _, _, message, fields, developers), described = self.records.known[local]
        wanted = form.definition
        return (message, fields, developers or (), described) == (
            wanted.message, wanted.fields, wanted.developers or (), form.described)

    def local_for(self, own, names):
        """The local message type for a new definition: its own if that is free, else a free one, else that least lately
        used."""
        free = [local for local in names if local not in self.records.known]
        return own if own in free else free[0] if free else min(names, key=self.used.get)

    def placed(self, form, names, offset, items):
        """The records with which a message of a form is put, whose local message type is one of these: a definition
        message, where none says the same, and the message."""
        same = [local for local in names if self.says_same(local, form)]
        own, before = form.definition.local, []
        if same:
            local = own if own in same else same[0]
        else:
            local = self.local_for(own, names)
            before = [form.definition._replace(local=local)]
        return [*before, Message(local, offset, *items)]

    def described(self, form, names):
        """The records that come before a message of this form, so that its developer fields get their base types, names
        and units; the reason where none do."""
        wanted = list(zip(form.definition.developers or (), form.described))
        if any(self.says_same(local, form) for local in names) or self.gives(wanted):
            return []
        need(all((self.gives([one]) or can_be_read_back(one[1])) and all(one[1] == other[1] for other in wanted
            if one[0][0] == other[0][0] and one[0][2] == other[0][2]) for one in wanted), DESCRIBED)
        file, made = self.copy(), []
        for (number, size, index), told in wanted:
            if not file.gives([((number, size, index), told)]):
                if index not in file.records.indexes:
                    made += file.put(index_form(index))
                made += file.put(description_form(index, number, told))
        return made

    def gives(self, wanted):
        """Whether a definition message that came now would give developer fields these base types, names and units."""
        return self.records.described_now([developer for developer, _ in wanted]) == tuple(told for _, told in wanted)

    def put(self, plain):
        """Puts a message of a form and items. Returns its records."""
        form, items = plain
        made = self.placed(form, range(16), None, items)
        for record in made:
            self.add(record)
        return made

    def planned(self, form, block):
        """The records with which a message is put: those that describe its developer fields and definition messages,
        where it needs them, and last itself."""
        keeps = self.keeps_offset(block)
        form, names = self.needed(form, block, keeps), range(4 if keeps else 16)
        offset = block[n.AT_MESSAGE_OFFSET] if keeps else None
        made = self.described(form, names)
        after = self.copy() if made else self
        for record in made:
            after.add(record)
        return made + after.placed(form, names, offset, items_in(form, block))

    def bytes(self):
        header = self.header
        head = struct.pack("<BBHI4s", header.size, header.protocol, header.profile, len(self.data), b".FIT")
        head += (b"", b"\0\0", checksum(head))[header.sum] + header.more
        return head + self.data + checksum(head + self.data)


class Writer:
    """The files of a chain in the making. Each call answers, and does nothing where that isn't good, but what
    `messages` has put."""

    def __init__(self):
        self.files, self.current = [], None

    def copy(self):
        new = Writer()
        new.files, new.current = list(self.files), self.current and self.current.copy()
        return new

    def end(self):
        if self.current is not None:
            self.files.append(self.current)
            self.current = None

    def file(self, block):
        try:
            header = header_in(block)
        except Fault as fault:
            return Answer(n.BLOCK, fault.args[0])
        self.end()
        self.current = OpenFile(header)
        return GOOD

    def definition(self, block):
        if self.current is None:
            return Answer(n.BLOCK, NO_FILE)
        try:
            self.current.add(form_in(block).definition)
        except Fault as fault:
            return Answer(n.BLOCK, fault.args[0])
        return GOOD

    def messages(self, definition, blocks, most=None):
        """Puts a run of messages' blocks, at most so many."""
        if self.current is None:
            return Answer(n.BLOCK, NO_FILE)
        try:
            form = form_in(definition)
        except Fault as fault:
            return Answer(n.BLOCK, fault.args[0], column=1)
        at = count = 0
        try:
            while at < len(blocks) and count != most:
                block = next_block(blocks, at)
                self.put(form, block)
                at, count = at + len(block), count + 1
        except Fault as fault:
            return Answer(n.BLOCK, fault.args[0], at, count)
        return Answer(n.GOOD, row=count)

    def put(self, form, block):
        need_message(form, block)
        *before, message = self.current.planned(form, block)
        for record in before:
            self.current.add(record)
        self.current.add(message, said_by(form, block))

    def finish(self):
        """The answer, and the bytes of the chain."""
        self.end()
        if not self.files:
            return Answer(n.BLOCK, NO_FILE), b""
        return GOOD, b"".join(file.bytes() for file in self.files)


def next_block(blocks, at):
    """The block of a run that begins at a place, by its own length."""
    length = number(blocks, at, 4)
    need(n.LEAST_BLOCK <= length <= len(blocks) - at and length % 8 == 0, CUT)
    return blocks[at : at + length]


# ---- where memory is refused


def after_refused_messages(writer, definition, blocks, count, place):
    """What a writer may be where memory was refused after that many messages, which end at this place: just these were
    put, or also records that come before the next."""
    between = writer.copy()
    answer = between.messages(definition, blocks, count)
    if count and answer != Answer(n.GOOD, row=count):
        return []
    at = 0
    for _ in range(count):
        at += number(blocks, at, 4)
    if at != place:
        return []
    try:
        block = next_block(blocks, place)
        form = form_in(definition)
        need_message(form, block)
        before = between.current.planned(form, block)[:-1]
    except (Fault, AttributeError):
        return [between]
    found, whole = [between], between
    for record in before:
        left, whole = whole.copy(), whole.copy()
        left.current.leave(record)
        whole.current.add(record)
        found.append(left if isinstance(record, Definition) else whole)
    return found


def after_refused_finish(writer):
    """The same of `finish`: the file may have ended."""
    ended = writer.copy()
    ended.end()
    return [writer, ended]
