"""Loops that compare bytes, made one question. Whether two lists have the same bytes the proved code asks of 32 or 64 at
once; the module has no instruction for that, but a loop that asks it of each byte."""
import re

from values import Value

NUMBER = r"(?:\(u64\)(?:\d+)|U64\((?:0x[0-9a-f]+|\d+)\)|\d+u)"
LOOP = re.compile(
    rf"(?P<begin>(?:^l\d+={NUMBER};\n)+)(?P<label>b\d+):;\n"
    r"(?P<first>l\d+)=\((?P<sum>l\d+\+l\d+)\);\n"
    r"(?P<second>l\d+)=\((?P<other>l\d+\+l\d+)\);\n"
    r"(?P<found>l\d+)=(?P<asked>.*);\n"
    r"(?P<at>l\d+)=\((?P=at)\+\(u64\)(?P<step>\d+)\);\n"
    r"if\((?P=at)!=(?P<end>\(u64\)\d+)\)goto (?P=label);$",
    re.M,
)


def _number(text):
    return int(re.search(r"0x[0-9a-f]+|\d+(?=u|\)|$)", text.replace("(u64)", "").replace("U64", "")).group(), 0)


def _of(number):
    return Value.of_constant(number % (1 << 64), "u64").text


def _asked(found, first, second, offset, step):
    """The C of the question of a loop: whether any of so many bytes differ, or others did before."""
    for k in range(offset, offset + step):
        one, other = (name if k == 0 else f"({name}+(u64){k})" for name in (first, second))
        found = f"({found}|(u32)(L8({one})!=L8({other})))"
    return found


def _beside(text, at):
    """What is added to `at`; None where that is itself, or isn't there."""
    names = text.split("+")
    return None if at not in names or names[0] == names[1] else names[1 - names.index(at)]


def _whole(loop, body):
    """The question of a loop as one; the loop where it isn't such a one."""
    label, first, second, found, asked, at = (loop[name] for name in ("label", "first", "second", "found", "asked", "at"))
    begun = dict(line.split("=", 1) for line in loop["begin"].replace(";", "").splitlines())
    one, other = _beside(loop["sum"], at), _beside(loop["other"], at)
    changed = {first, second, found, at}
    offset = re.search(r"\(u64\)(\d+)", asked.split("!=")[0])
    offset, step = int(offset[1]) if offset else 0, int(loop["step"])
    if at not in begun or body.count(f"goto {label};") != 1 or len(changed | {one, other}) != 6 or None in (one, other):
        return loop[0]
    start, end = _number(begun[at]), _number(loop["end"])
    length = (end - start) % (1 << 64)
    if asked != _asked(found, first, second, offset, step) or length % step or length % 8 or not 0 < length <= 64:
        return loop[0]
    lines = [f"{found}=({found}|DIFFER({one}+{_of(start + offset)},{other}+{_of(start + offset)},{length}));"]
    lines += [f"{name}=({place}+{_of(end - step)});" for name, place in ((first, one), (second, other))]
    return loop["begin"] + "\n".join(lines + [f"{at}={loop['end']};"])


def joined(body):
    """The C of a function, without such loops."""
    return LOOP.sub(lambda loop: _whole(loop, body), body)
