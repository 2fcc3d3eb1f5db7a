"""Words for the numbers of fields: reading and writing them. What is expected is what the FIT protocol calls these
numbers."""
import io
import pickle
import unittest

from support import RIDE, in_tree, left_out, text_at

import gazhdor

EXTRA = gazhdor.EXTRA


def file_of(*messages, names=EXTRA):
    """The bytes of a file with such messages, of which each is a name and its values."""
    sink = io.BytesIO()
    with gazhdor.Writer(sink, names=names) as out:
        for name, values in messages:
            out.write(name, values)
    return sink.getvalue()


def first(data, **how):
    return next(gazhdor.messages(data, **how))


SESSION = {"sport": 2, "sub_sport": 7, "event": 9, "event_type": 1, "trigger": 0, "total_calories": 2}


class Reading(unittest.TestCase):
    def test_word(self):
        message = first(file_of(("session", SESSION)))
        told = {key: message.word(key) for key in SESSION}
        self.assertEqual(told, {"sport": "cycling", "sub_sport": "road", "event": "lap", "event_type": "stop",
            "trigger": "activity_end", "total_calories": None})
        self.assertEqual((message["sport"], message.field("sport").word, message.word(5)), (2, "cycling", "cycling"))
        with self.assertRaises(KeyError):
            message.word("intensity")

    def test_values(self):
        """With words=True the values are words, and a number without one, or no value, stays as it is."""
        data = file_of(("session", {**SESSION, "sub_sport": 253, "trigger": None}))
        message = first(data, words=True)
        wanted = {"sport": "cycling", "sub_sport": 253, "event": "lap", "event_type": "stop", "trigger": None,
            "total_calories": 2}
        self.assertEqual(dict(message), wanted)
        told = message.as_dict(), message.get("sport"), message.values("sport")
        self.assertEqual(told, (wanted, "cycling", ("cycling",)))
        field = message.field("sport")
        self.assertEqual((field.value, field.word, field.raw, field.exact), ("cycling", "cycling", 2, "cycling"))
        self.assertIsNone(message.word("sub_sport"))
        self.assertIn("sport='cycling'", repr(field))

    def test_several(self):
        sink = io.BytesIO()
        with gazhdor.Writer(sink, names=EXTRA) as out:
            out.define("set", [(7, "uint16"), (5, "uint8")]).write({7: ["curl", 65534, 999], 5: "active"})
        data = sink.getvalue()
        self.assertEqual(first(data, words=True, names=EXTRA)["category"], ("curl", "unknown", 999))
        self.assertEqual(first(data).word(5), "active")
        self.assertIsNone(first(data).word(7))

    def test_by_another_field(self):
        """What a product or a device is depends on who made it, or how it is connected."""
        known = (1, 1169, "edge800"), (15, 1169, "edge800"), (263, 12, "assioma_duo")
        known += (32, 1169, None), (263, 1169, None)
        for manufacturer, product, word in known:
            message = first(file_of(("file_id", {"manufacturer": manufacturer, "product": product})))
            self.assertEqual(message.word("product"), word, (manufacturer, product))
        self.assertIsNone(first(file_of(("file_id", {"product": 1169}))).word("product"))
        for source, device, word in ((1, 120, "heart_rate"), (3, 1, "heart_rate"), (5, 4, "barometer"), (0, 120, None)):
            data = file_of(("device_info", {"device_type": device, "source_type": source}))
            self.assertEqual(first(data).word("device_type"), word)
            self.assertEqual(first(data, words=True)["device_type"], word or device)

    def test_data_of_events(self):
        for event, data, word in ((0, 0, "manual"), (44, 1, "standing"), (9, 0, None)):
            message = first(file_of(("event", {"event": event, "event_type": 0, "data": data})))
            self.assertEqual(message.word("data"), word)

    def test_what_has_no_words(self):
        """A scaled field, a developer field, a message that the profile hasn't."""
        message = first(file_of(("session", SESSION)), names={("session", 5): ("sport", None, 10)})
        self.assertEqual((message["sport"], message.word("sport")), (0.2, None))
        sink = io.BytesIO()
        with gazhdor.Writer(sink) as out:
            of = out.describe("sport", base="uint8")
            out.define(0xFF00, [(5, "enum"), of]).write({5: 2, of: 2})
        message = list(gazhdor.messages(sink.getvalue(), words=True))[-1]
        self.assertEqual([(field.value, field.word) for field in message.fields], [(2, None), (2, None)])

    def test_types_of_the_caller(self):
        data = file_of((0xFF00, {3: 2}), names={(0xFF00, 3): ("kind", None, None, None, None, "uint8")})
        names = gazhdor.Names({(0xFF00, 3): ("kind", None, None, None, "swim_stroke")})
        self.assertEqual(first(data, names=names).word("kind"), "breaststroke")
        self.assertEqual(first(data, names=names, words=True)["kind"], "breaststroke")
        with self.assertRaisesRegex(ValueError, "as sport, and not 'swimstroke'"):
            gazhdor.Names({(0xFF00, 3): ("kind", None, None, None, "swimstroke")})

    def test_streams_and_pickles(self):
        data = file_of(("session", SESSION))
        with gazhdor.Stream("messages", words=True) as stream:
            told = stream.feed(data[:20]) + stream.feed(data[20:]) + stream.finish()
        self.assertEqual([message["sport"] for message in told], ["cycling"])
        with self.assertRaises(TypeError):
            gazhdor.Stream("table", words=True)
        for kept in (pickle.loads(pickle.dumps(told[0])), pickle.loads(pickle.dumps(told[0].field("sport")))):
            self.assertIn(kept, (told[0], told[0].field("sport")))
        self.assertEqual(pickle.loads(pickle.dumps(told[0].field("sport"))).word, "cycling")
        self.assertNotEqual(told[0], first(data))

    def test_everything(self):
        told = list(gazhdor.messages(RIDE, everything=True, words=True))
        messages = [event for event in told if isinstance(event, gazhdor.Message)]
        self.assertEqual(messages[0]["type"], "course")
        sink = io.BytesIO()
        with gazhdor.Writer(sink) as out:
            for event in told:
                out.copy(event)
        self.assertEqual(sink.getvalue(), gazhdor.from_blocks(gazhdor.blocks(RIDE)))


class Columns(unittest.TestCase):
    DATA = file_of(*(("lap", {"intensity": k, "sport": 2, "total_calories": 2}) for k in (0, 1, None, 77)))

    def test_lists(self):
        found = gazhdor.lists(self.DATA, "lap", words=True)
        self.assertEqual(found, {"intensity": ["active", "rest", None, 77], "sport": ["cycling"] * 4,
            "total_calories": [2] * 4})
        self.assertEqual(gazhdor.lists(self.DATA, "lap", ["intensity"]), {"intensity": [0, 1, None, 77]})

    def test_arrays(self):
        try:
            import pandas
        except ImportError:
            left_out("there is no pandas, so frames of words are not made")
        found = gazhdor.columns(self.DATA, "lap", words=True)
        self.assertEqual(found["intensity"].tolist(), ["active", "rest", None, 77])
        self.assertEqual((found["sport"].dtype, found["total_calories"].dtype), ("O", "f8"))
        frame = gazhdor.frame(self.DATA, "lap", words=True)
        self.assertEqual([str(frame[name].dtype) for name in frame], ["category", "category", "float64"])
        self.assertEqual(frame["intensity"].isna().tolist(), [False, False, True, False])
        self.assertEqual(frame.groupby("sport", observed=True)["total_calories"].sum().to_dict(), {"cycling": 8})
        self.assertIsInstance(frame, pandas.DataFrame)


class Writing(unittest.TestCase):
    def test_words(self):
        words = {"sport": "cycling", "sub_sport": "road",
            "event": "lap", "event_type": "stop", "trigger": "activity_end",
            "total_calories": 2}
        self.assertEqual(file_of(("session", words)), file_of(("session", SESSION)))
        message = first(file_of(("session", SESSION)), words=True).replace(sport="running", sub_sport=3)
        self.assertEqual((message["sport"], message["sub_sport"], message.field("sport").raw), ("running", "trail", 1))

    def test_wrong_words(self):
        wrong = ("sport", "cyclign", ": is it 'cycling'?"), ("sport", "qqq", ""), ("intensity", "", "")
        for field, word, more in wrong:
            with self.assertRaises(gazhdor.WrongValue) as caught:
                file_of(("lap", {field: word}))
            self.assertEqual(str(caught.exception), f"{field}: {word!r} is no word that it can have{more}")
        with self.assertRaisesRegex(gazhdor.WrongValue, "'fast' is not within"):
            file_of(("lap", {"avg_heart_rate": "fast"}))

    def test_by_another_field(self):
        """The same word is another number where the message says another source."""
        for source, number in (("antplus", 120), ("bluetooth_low_energy", 1)):
            for values in ({"device_type": "heart_rate", "source_type": source}, {"source_type": source, "device_type":
                    "heart_rate"}):
                self.assertEqual(first(file_of(("device_info", values)))["device_type"], number)
        with self.assertRaises(gazhdor.WrongValue):
            file_of(("device_info", {"device_type": "heart_rate", "source_type": "ant"}))
        with self.assertRaises(gazhdor.WrongValue):
            file_of(("file_id", {"product": "edge800"}))
        message = first(file_of(("file_id", {"manufacturer": "garmin", "product": "edge800"})))
        self.assertEqual(message.replace(product="edge500")["product"], 1036)
        with self.assertRaises(gazhdor.WrongValue):
            message.replace(product="edge500", manufacturer="zwift")

    def test_columns(self):
        sink = io.BytesIO()
        with gazhdor.Writer(sink, names=EXTRA) as out:
            event = out.define("event", "event event_type data")
            event.columns(event=["timer", 9, None], event_type=("start", "stop", "stop_all"), data=["auto", 7, 8])
            with self.assertRaises(gazhdor.WrongValue) as caught:
                event.columns(event=["timer", "time"])
            self.assertEqual((caught.exception.row, caught.exception.value), (1, "time"))
        told = gazhdor.lists(sink.getvalue(), "event")
        self.assertEqual(told, {"event": [0, 9, None], "event_type": [0, 1, 4], "data": [1, 7, 8]})
        try:
            import numpy
        except ImportError:
            left_out("there is no numpy, so arrays of words are not written")
        again = io.BytesIO()
        with gazhdor.Writer(again, names=EXTRA) as out:
            out.define("event", "event event_type data").columns(event=numpy.array(["timer", 9, None], object),
                event_type=numpy.array(["start", "stop", "stop_all"]), data=numpy.array([1, 7, 8]))
        self.assertEqual(again.getvalue(), sink.getvalue())

    def test_frames_go_back(self):
        """What a frame of words has is written as the same numbers."""
        try:
            frame = gazhdor.frame(Columns.DATA, "lap", words=True)
        except ImportError:
            left_out("there is no pandas, so no frame of words is written")
        sink = io.BytesIO()
        with gazhdor.Writer(sink) as out:
            out.define("lap", list(frame)).columns(dict(frame))
        self.assertEqual(gazhdor.lists(sink.getvalue(), "lap"), gazhdor.lists(Columns.DATA, "lap"))


class Tables(unittest.TestCase):
    def test_words(self):
        self.assertEqual(gazhdor.words("length_type"), {0: "idle", 1: "active"})
        gazhdor.words("length_type").clear()
        self.assertEqual(len(gazhdor.words("length_type")), 2)
        with self.assertRaises(gazhdor.UnknownName) as caught:
            gazhdor.words("lengthtype")
        self.assertEqual(caught.exception.nearest, "length_type")

    def test_base_types(self):
        """The words of base types are those by which the library names them."""
        rows = [line.split("\t") for line in text_at(in_tree("profile/base_types.tsv")).splitlines()[1:]]
        self.assertEqual(gazhdor.words("fit_base_type"), {int(row[1], 0): row[0] for row in rows})

    def test_messages(self):
        """The words of messages are their names."""
        for number, name in gazhdor.words("mesg_num").items():
            sink = io.BytesIO()
            with gazhdor.Writer(sink) as out:
                out.define(number, [(250, "uint8")]).write({250: 1})
            self.assertEqual(first(sink.getvalue(), names=EXTRA).name, name)


if __name__ == "__main__":
    unittest.main()
