"""Expressions of C, as they stand for what is on the stack of a WebAssembly function."""


class Value:
    """An expression: its text, its type (u32 or u64), the locals that it reads, whether it reads memory or a global
    (`memory`), whether it is a truth of C, which is an int, and its number where it is a constant. `wide` is the text
    before its upper 32 bits were cut off. `depth` says of an address on the stack in memory how far it is below where
    the stack was when the function began."""

    def __init__(self, text, kind, reads=frozenset(), memory=False, truth=False, constant=None, wide=None, depth=None):
        self.text, self.kind, self.reads, self.memory = text, kind, reads, memory
        self.truth, self.constant, self.wide, self.depth = truth, constant, wide, depth

    @classmethod
    def of_constant(cls, number, kind):
        if kind == "u32":
            text = f"{number}u"
        elif number < 1 << 31:
            text = f"(u64){number}"
        else:
            text = f"U64({number if number < 1 << 63 else hex(number)})"
        return cls(text, kind, constant=number)

    @classmethod
    def made_of(cls, text, kind, *parts, memory=False, **more):
        """An expression that has others in it."""
        reads = frozenset().union(*(part.reads for part in parts))
        return cls(text, kind, reads, memory or any(part.memory for part in parts), **more)

    @property
    def number(self):
        """The text where a number is wanted."""
        return f"(u32){self.text}" if self.truth else self.text

    @property
    def condition(self):
        """The text in the parentheses of an `if`: a truth has its own, and compilers warn of two around `==`."""
        return self.text[1:-1] if self.truth else self.text

    @property
    def stays(self):
        """Whether the text means the same at any later place: that of a variable which is set once, or a constant."""
        return self.constant is not None or self.text[0] == "t"

    def place(self, offset):
        """The text of a place in memory, of 64 bits. Where a place was cut off to 32 bits just to be used, it is taken
        as it was before: the code comes of 64-bit code, all of whose places are in memory, so there is nothing to cut
        off."""
        text = self.wide or self.number
        return f"{text}+(u64){offset}" if offset else text


class Block:
    """A block that is open: the variables of its results, how many values are on the stack below it, whether it was
    reached, the label to which a branch to it goes, where there is one, and how deep the stack in memory is where it
    begins, and at most where it has ended."""

    def __init__(self, kind, names, height, dead, depth):
        self.kind, self.names, self.height, self.dead, self.label = kind, names, height, dead, None
        self.depth, self.end_depth = depth, depth if kind == "if" else 0

    def leave(self, depth):
        """The block ends at this depth, or goes on from its start where it is a loop."""
        if self.kind == "loop" and depth > self.depth:
            raise SystemExit("module_c.py: a loop takes more and more of the stack")
        self.end_depth = max(self.end_depth, depth)
