"""A program that uses the module gazhdor by its types, and uses that have to be seen as wrong ones."""

TYPED = """
import datetime, gzip, io, pathlib
from typing import Any, BinaryIO, Dict, Iterator, List, Optional, Tuple, Union
import gazhdor

def use(upload: BinaryIO, opened: io.BufferedReader) -> None:
    sources: List[gazhdor.Source] = [
        "a", pathlib.Path("a"), b"a", bytearray(), memoryview(b""), io.BytesIO(), gzip.open("a"), upload, opened]
    answer: gazhdor.Answer = gazhdor.check(sources[0])
    found: Tuple[bool, int, Optional[int]] = (answer.good, answer.files, answer.place)
    why: Tuple[Optional[str], Optional[int]] = (answer.reason, answer.row)
    for row in gazhdor.table(upload, partial=True):
        when: Union[datetime.datetime, str, None] = row.timestamp
        beats: Optional[float] = row.heart_rate
    rows: Iterator[Tuple[int, Iterator[gazhdor.Row]]] = gazhdor.files(opened)
    text: str = gazhdor.table_text(sources[1]) + gazhdor.to_csv(upload) + gazhdor.show(opened)
    back: bytes = gazhdor.from_csv(text)
    for message in gazhdor.messages(upload, only=["session", 20], partial=True):
        time: Union[datetime.datetime, str, None] = message.time
        seconds: float = message["total_elapsed_time"] + message[0, 2] + message.get(3, 0)
        told: Tuple[Optional[str], Optional[float]] = (message.name, message.speed)
        where: Tuple[Optional[int], int] = (message.seconds, message.place)
        for field in message.fields:
            value: gazhdor.Value = field.value
            of: Tuple[Optional[str], int, Optional[int]] = (field.name, field.number, field.developer)
            unit: Optional[str] = message.unit("a")
            words: Tuple[Optional[str], Optional[str]] = (field.word, message.word("sport"))
    sports: Dict[int, str] = gazhdor.words("sport")
    worded: Iterator[gazhdor.Message] = gazhdor.messages("a", words=True)
    lists: Dict[gazhdor.Key, List[Any]] = gazhdor.lists(opened, "record", ["heart_rate", 3, (0, 1)])
    arrays: Dict[gazhdor.Key, Any] = gazhdor.columns(opened, 20, partial=True)
    with gazhdor.Stream("table") as stream:
        piecewise: str = stream.feed(b"") + stream.feed(bytearray()) + stream.finish()
    laps: List[gazhdor.Message] = gazhdor.Stream("messages", only="lap").feed(memoryview(b""))
    blocks: bytes = gazhdor.Stream("blocks").finish()
    ended: int = stream.files
    try:
        gazhdor.check(gzip.open("a"))
    except gazhdor.ReadFailed as error:
        count: int = error.count
    except gazhdor.FitError as fault:
        place: Optional[int] = fault.place
    counts: Dict[Tuple[str, str], int] = gazhdor.edit(
        "a", upload, drop=["position"], shift=5, begin=7, end="2026-05-17T07:30:00Z")
    gazhdor.join(["a", b"b"], pathlib.Path("c"), one=True)
    made: bytes = gazhdor.activity({"timestamp": [1, 2]}, sport="cycling") + gazhdor.mend("a", whole=True)
    for values in gazhdor.messages("a", ready=True):
        ready: Dict[str, Any] = values
    more: gazhdor.Message = message.adding({3: 5}, power=7)
    line: str = more.to_json()
    again: bytes = gazhdor.from_blocks(gazhdor.blocks(opened))
    with gazhdor.Writer(upload, names={140: "physiology"}) as out:
        dev: gazhdor.DeveloperField = out.describe("Form power", "watts", "uint16", native=("record", 7))
        record: gazhdor.Definition = out.define(
            "record", ["timestamp", 3, dev, (200, "uint16"), (201, "string", 16)], local=1)
        record.write({dev: 5, 3: None}, timestamp=datetime.datetime.now(datetime.timezone.utc))
        record.columns({"timestamp": [1, 2]}, heart_rate=[None, 1.5])
        out.write("file_id", type="activity")
        for event in gazhdor.messages(upload, everything=True):
            if isinstance(event, gazhdor.DefinitionMessage):
                sizes: List[int] = [field.size for field in event.fields]
            if isinstance(event, gazhdor.Message):
                out.copy(event.replace(heart_rate=1).emptied(lambda field: field.base == 0x85))
            else:
                out.copy(event)
"""
WRONG = (
    "gazhdor.check(io.StringIO())",
    "gazhdor.check(5)",
    "gazhdor.from_csv(pathlib.Path())",
    "gazhdor.table('a').place",
    "row: str = gazhdor.check('a').row",
    "gazhdor.messages('a', only=1.5)",
    "gazhdor.lists('a', 'record', [1.5])",
    "next(gazhdor.messages('a')).place = 5",
    "gazhdor.columns('a')",
    "gazhdor.Writer(5)",
    "gazhdor.from_blocks('a')",
    "gazhdor.messages('a', only='lap', everything=True)",
    "gazhdor.Writer('a').copy(5)",
    "gazhdor.Writer(io.StringIO())",
    "gazhdor.edit('a', 'b', position=1)",
    "gazhdor.join('a')",
    "gazhdor.messages('a', everything=True, ready=True)",
    "gazhdor.Stream('rows')",
    "gazhdor.Stream('show', only=20)",
    "gazhdor.Stream('table').feed('a')",
    "number: int = gazhdor.Stream('table').finish()",
)
