"""Reads the sections of a WebAssembly module, as far as js/gazhdor.wasm has them, and stops at any other."""


class Reader:
    """Reads bytes one after another from a place on."""

    def __init__(self, data, place=0):
        self.data, self.place = data, place

    def byte(self):
        self.place += 1
        return self.data[self.place - 1]

    def take(self, count):
        self.place += count
        return self.data[self.place - count : self.place]

    def _number(self):
        """A LEB128 number, how many bits it was written with, and whether the last of them is set."""
        value = bits = 0
        while True:
            byte = self.byte()
            value |= (byte & 127) << bits
            bits += 7
            if byte < 128:
                return value, bits, bool(byte & 64)

    def unsigned(self):
        return self._number()[0]

    def signed(self, width):
        """A signed number, as the bits of an unsigned one of this width."""
        value, bits, negative = self._number()
        return (value - (1 << bits) if negative else value) & (1 << width) - 1

    def constant(self):
        """The number that an initial expression is: one constant."""
        code = self.byte()
        if code not in (0x41, 0x42):
            raise SystemExit(f"module_c.py: an initial value by instruction {code:#x}")
        value = self.signed(64)
        if self.byte() != 0x0B:
            raise SystemExit("module_c.py: an initial value isn't one constant")
        return value


class Module:
    """What the sections say: `types` are parameters and results by their codes, `functions` the type of each function,
    `globals` type and first value, `exports` name and function, `data` place and bytes, `codes` the bytes of each
    function; `pages` are those of memory at first."""

    def __init__(self, data):
        if data[:8] != b"\0asm\1\0\0\0":
            raise SystemExit("module_c.py: not a WebAssembly module")
        self.types, self.functions, self.globals, self.exports, self.data, self.codes = [], [], [], [], [], []
        self.pages = 0
        readers = {1: self._type, 3: self._function, 5: self._memory, 6: self._global, 7: self._export, 10: self._code, 11: self._datum}
        place = 8
        while place < len(data):
            section, reader = data[place], Reader(data, place + 1)
            size = reader.unsigned()
            place = reader.place + size
            if section in (0, 4, 12):  # names and the like, a table that nothing calls by, and how many data there are
                continue
            if section not in readers:
                raise SystemExit(f"module_c.py: section {section} isn't known")
            for _ in range(reader.unsigned()):
                readers[section](reader)

    def _type(self, reader):
        if reader.byte() != 0x60:
            raise SystemExit("module_c.py: a type that is none of a function")
        parameters = list(reader.take(reader.unsigned()))
        self.types.append((parameters, list(reader.take(reader.unsigned()))))

    def _function(self, reader):
        self.functions.append(reader.unsigned())

    def _memory(self, reader):
        if reader.byte() & 4:
            raise SystemExit("module_c.py: a memory of 64-bit addresses")
        self.pages = reader.unsigned()

    def _global(self, reader):
        kind = reader.byte()
        reader.byte()
        self.globals.append((kind, reader.constant()))

    def _export(self, reader):
        name = reader.take(reader.unsigned()).decode()
        kind, number = reader.byte(), reader.unsigned()
        if kind == 0:
            self.exports.append((name, number))

    def _code(self, reader):
        self.codes.append(reader.take(reader.unsigned()))

    def _datum(self, reader):
        if reader.unsigned() != 0:
            raise SystemExit("module_c.py: data without a place")
        place = reader.constant()
        self.data.append((place, reader.take(reader.unsigned())))
