"""Writes a function of a WebAssembly module as C.

Expressions are joined again from the stack machine; what reads memory, a global or a local is put into a variable
before that is changed, so the order of reads and writes is that of the module. Numbers of floating point are moved as
their bits, and nothing calculates with them."""
import re

from instructions import CALCULATED, CALCULATED_FROM, COMPARED, COMPARED_FROM, COUNTS, EXTENDED, KINDS, LOADS, NO_KIND, STORES
from loops import joined
from values import Block, Value
from wasm import Reader

LONG = 300  # characters of an expression, from which on it gets a variable
STACK = 0  # the global that points to the end of the stack in memory


class Function:
    """The C of one function. `frame` is how much it takes itself of the stack in memory, and `calls` are the functions
    that it calls, each with how much it has taken then."""

    def __init__(self, module, number):
        self.module, self.number = module, number
        self.parameters, self.results = ([KINDS[code] for code in codes] for codes in module.types[module.functions[number]])
        self.locals = list(self.parameters)
        self.lines, self.stack, self.variables, self.labels = [], [], [], 0
        self.blocks, self.dead = [], False
        self.depth, self.depths, self.frame, self.calls = 0, {}, 0, {}
        self._translate(Reader(module.codes[number]))

    def text(self):
        lines = []
        for line in self.lines:
            if not isinstance(line, Block):
                lines.append(line)
            elif line.label is not None:
                lines.append(f"{line.label}:;")
        body = joined("\n".join(lines))
        return f"{self.head()}\n{{\n{self._declared(body)}{body}\n}}\n"

    def head(self):
        words = ["memory*m"] + [f"{kind} l{k}" for k, kind in enumerate(self.parameters)]
        return f"static {self.results[0] if self.results else 'void'} F{self.number}({','.join(words)})"

    def _declared(self, body):
        """Declares the locals and variables that the body has."""
        used = set(re.findall(r"\b[tl][0-9]+\b", body))
        text = ""
        for wanted in ("u32", "u64"):
            names = [f"l{k}=0" for k, kind in enumerate(self.locals) if k >= len(self.parameters) and kind == wanted and f"l{k}" in used]
            names += [f"t{k}" for k, kind in enumerate(self.variables) if kind == wanted and f"t{k}" in used]
            if names:
                text += f"{wanted} {','.join(names)};\n"
        return text

    # ---- lines, variables and the stack

    def _say(self, line):
        if not self.dead:
            self.lines.append(line)

    def _variable(self, kind):
        self.variables.append(kind)
        return f"t{len(self.variables) - 1}"

    def _put(self, kind, text):
        """Puts the value of a call, which is made here and now, on the stack."""
        name = self._variable(kind)
        self._say(f"{name}={text};")
        self.stack.append(Value(name, kind))

    def _push(self, value):
        self.stack.append(value)
        if len(value.text) > LONG:
            self._keep(len(self.stack) - 1)

    def _pop(self):
        # After a branch nothing is there, and what would be done with it is never reached.
        if self.dead and len(self.stack) <= self.blocks[-1].height:
            return Value.of_constant(0, "u32")
        return self.stack.pop()

    def _keep(self, place):
        """Puts a value of the stack into a variable."""
        value = self.stack[place]
        name = self._variable(value.kind)
        self._say(f"{name}={value.text};")
        self.stack[place] = Value(name, value.kind)

    def _keep_where(self, holds):
        for place, value in enumerate(self.stack):
            if holds(value):
                self._keep(place)

    def _keep_memory(self):
        self._keep_where(lambda value: value.memory)

    # ---- blocks and branches

    def _open(self, kind, kinds):
        names = [(self._variable(kind_of_result), kind_of_result) for kind_of_result in kinds]
        self.blocks.append(Block(kind, names, len(self.stack), self.dead, self.depth))
        return self.blocks[-1]

    def _block_kinds(self, reader):
        code = reader.byte()
        if code == NO_KIND:
            return []
        if code not in KINDS:
            raise SystemExit(f"module_c.py: a block of type {code:#x}")
        return [KINDS[code]]

    def _set_results(self, block):
        """The values on top of the stack are the results of the block."""
        values = [self._pop() for _ in block.names]
        for (name, _), value in zip(block.names, reversed(values)):
            self._say(f"{name}={value.number};")
        return values

    def _goto(self, block):
        if self.dead:
            return ""
        block.leave(self.depth)
        if block.label is None:
            block.label = f"b{self.labels}"
            self.labels += 1
        return f"goto {block.label};"

    def _branch(self, block):
        """Goes to the end of a block, or to the start of a loop; the values of its results stay where they are."""
        if block.kind != "loop":
            self.stack += reversed(self._set_results(block))
        self._say(self._goto(block))

    def _ends_here(self):
        self.dead = True
        del self.stack[self.blocks[-1].height :]

    def _begin(self, kind, reader):
        kinds = self._block_kinds(reader)
        condition = self._pop() if kind == "if" else None
        self._keep_where(lambda value: not value.stays)
        block = self._open(kind, kinds)
        if kind == "loop":
            self._say(block)
        if condition is not None:
            self._say(f"if({condition.condition}){{")

    def _else(self, _):
        block = self._ended()
        if not self.dead:
            block.leave(self.depth)
        self.depth, self.dead = block.depth, block.dead
        self._say("}else{")

    def _ended(self):
        block = self.blocks[-1]
        self._set_results(block)
        del self.stack[block.height :]
        return block

    def _end(self, _):
        block = self._ended()
        if not self.dead:
            block.leave(self.depth)
        if block.kind != "loop":
            self.depth = block.end_depth
        self.blocks.pop()
        self.dead = block.dead
        if block.kind == "if":
            self._say("}")
        if block.kind != "loop":
            self._say(block)
        self.stack += [Value(name, kind) for name, kind in block.names]

    def _block(self, depth):
        return self.blocks[-1 - depth]

    def _branch_always(self, reader):
        self._branch(self._block(reader.unsigned()))
        self._ends_here()

    def _branch_if(self, reader):
        block, condition = self._block(reader.unsigned()), self._pop()
        if not block.names or block.kind == "loop":
            self._say(f"if({condition.condition}){self._goto(block)}")
            return
        name = self._variable("u32")
        self._say(f"{name}={condition.text};")
        self._say(f"if({name}){{")
        self._branch(block)
        self._say("}")

    def _branch_table(self, reader):
        blocks = [self._block(reader.unsigned()) for _ in range(reader.unsigned() + 1)]
        if any(block.names and block.kind != "loop" for block in blocks):
            raise SystemExit("module_c.py: a table of branches with results")
        value, usual = self._pop(), blocks[-1]
        text = f"switch({value.number}){{"
        for case, block in enumerate(blocks[:-1]):
            if block is not usual:
                text += f"\ncase {case}:{'' if blocks[case + 1] is block else self._goto(block)}"
        self._say(f"{text}\ndefault:{self._goto(usual)}}}")
        self._ends_here()

    def _return(self, _):
        self._branch(self.blocks[0])
        self._ends_here()

    def _trap(self, _):
        self._say("TRAP;")
        self._ends_here()

    # ---- calls, locals, memory

    def _call(self, reader):
        callee = reader.unsigned()
        parameters, results = self.module.types[self.module.functions[callee]]
        if not self.dead:
            self.calls[callee] = max(self.calls.get(callee, 0), self.depth)
        words = list(reversed([self._pop() for _ in parameters]))
        self._keep_memory()
        call = f"F{callee}({','.join(['m'] + [word.number for word in words])})"
        if results:
            self._put(KINDS[results[0]], call)
        else:
            self._say(f"{call};")

    def _drop(self, _):
        self._pop()

    def _select(self, _):
        condition, other, value = self._pop(), self._pop(), self._pop()
        text = f"({condition.text}?{value.number}:{other.number})"
        self._push(Value.made_of(text, value.kind, value, other, condition))

    def _local(self, local):
        return Value(f"l{local}", self.locals[local], frozenset([local]), depth=self.depths.get(local))

    def _get_local(self, reader):
        self.stack.append(self._local(reader.unsigned()))

    def _set_local(self, reader):
        local, value = reader.unsigned(), self._pop()
        self._keep_where(lambda other: local in other.reads)
        self._say(f"l{local}={value.number};")
        self.depths[local] = value.depth
        return local

    def _tee_local(self, reader):
        self.stack.append(self._local(self._set_local(reader)))

    def _get_global(self, reader):
        number = reader.unsigned()
        kind, depth = KINDS[self.module.globals[number][0]], self.depth if number == STACK else None
        self.stack.append(Value(f"m->g{number}", kind, memory=True, depth=depth))

    def _set_global(self, reader):
        number, value = reader.unsigned(), self._pop()
        self._keep_memory()
        self._say(f"m->g{number}={value.number};")
        if number == STACK and not self.dead:
            self._move_stack(value.depth)

    def _move_stack(self, depth):
        if depth is None or depth < 0:
            raise SystemExit(f"module_c.py: how much stack function {self.number} takes isn't known")
        self.depth, self.frame = depth, max(self.frame, depth)

    def _load(self, reader, kind, name):
        reader.unsigned()
        offset, place = reader.unsigned(), self._pop()
        self._push(Value.made_of(f"{name}({place.place(offset)})", kind, place, memory=True))

    def _store(self, reader, name):
        reader.unsigned()
        offset, value, place = reader.unsigned(), self._pop(), self._pop()
        self._keep_memory()
        self._say(f"{name}({place.place(offset)},{value.number});")

    def _size(self, reader):
        reader.byte()
        self._push(Value("PAGES", "u32", memory=True))

    def _grow(self, reader):
        reader.byte()
        value = self._pop()
        self._keep_memory()
        self._put("u32", f"GROW({value.number})")

    def _bulk(self, reader):
        code = reader.unsigned()
        if code not in (10, 11):
            raise SystemExit(f"module_c.py: instruction 0xfc {code} isn't known")
        reader.take(2 if code == 10 else 1)
        length, other, to = self._pop(), self._pop(), self._pop()
        self._keep_memory()
        source = other.place(0) if code == 10 else other.number
        self._say(f"{'COPY' if code == 10 else 'FILL'}({to.place(0)},{source},{length.number});")

    # ---- numbers

    def _constant(self, number, kind):
        self.stack.append(Value.of_constant(number, kind))

    def _is_zero(self, _):
        value = self._pop()
        self._push(Value.made_of(f"(!{value.text})", "u32", value, truth=True))

    def _compare(self, sign, bits):
        second, first = self._pop(), self._pop()
        cast = f"(s{bits})" if sign.endswith("s") else ""
        self._push(Value.made_of(f"({cast}{first.number}{sign.rstrip('s')}{cast}{second.number})", "u32", first, second, truth=True))

    def _calculate(self, sign, bits):
        second, first = self._pop(), self._pop()
        kind = f"u{bits}"
        if sign.startswith("ROT"):
            text = f"{sign}{bits}({first.number},{second.number})"
        elif sign in ("<<", ">>", ">>s"):
            by = f"({second.number}&{bits - 1})" if second.constant is None else second.constant & bits - 1
            text = f"({kind})((s{bits}){first.number}>>{by})" if sign == ">>s" else f"({first.number}{sign}{by})"
        else:
            text = f"({first.number}{sign}{second.number})"
        self._push(Value.made_of(text, kind, first, second, depth=self._depth_of(sign, first, second)))

    def _depth_of(self, sign, first, second):
        """The depth of an address on the stack more or less a constant."""
        if first.depth is None or second.constant is None or sign not in ("+", "-"):
            return None
        up = second.constant - (1 << 64 if second.constant >= 1 << 63 else 0)
        return first.depth + (up if sign == "-" else -up)

    def _count(self, kind, name):
        value = self._pop()
        self._push(Value.made_of(f"{name}({value.number})", kind, value))

    def _cut(self, _):
        value = self._pop()
        self._push(Value.made_of(f"(u32){value.text}", "u32", value, wide=value.text))

    def _extend(self, kind, narrow):
        value = self._pop()
        self._push(Value.made_of(f"({kind})(s{kind[1:]})({narrow}){value.number}", kind, value))

    def _extend_unsigned(self, _):
        value = self._pop()
        self._push(Value.made_of(f"(u64){value.text}", "u64", value))

    # ---- instructions

    SIMPLE = {
        0x00: _trap, 0x01: lambda self, _: None, 0x05: _else, 0x0B: _end, 0x0C: _branch_always, 0x0D: _branch_if, 0x0E: _branch_table, 0x0F: _return,
        0x10: _call, 0x1A: _drop, 0x1B: _select, 0x20: _get_local, 0x21: _set_local, 0x22: _tee_local, 0x23: _get_global, 0x24: _set_global,
        0x3F: _size, 0x40: _grow, 0x45: _is_zero, 0x50: _is_zero, 0xA7: _cut, 0xAD: _extend_unsigned, 0xBD: lambda self, _: None,
        0xBF: lambda self, _: None, 0xFC: _bulk,
    }  # fmt: skip

    def _translate(self, reader):
        for _ in range(reader.unsigned()):
            self.locals += self._some_locals(reader)
        self._open("function", self.results)
        while self.blocks:
            self._instruction(reader.byte(), reader)
        if self.results:
            self._say(f"return {self.stack[-1].text};")

    def _some_locals(self, reader):
        count, code = reader.unsigned(), reader.byte()
        return [KINDS[code]] * count

    def _instruction(self, code, reader):
        if code in self.SIMPLE:
            self.SIMPLE[code](self, reader)
        elif code in (0x02, 0x03, 0x04):
            self._begin({2: "block", 3: "loop", 4: "if"}[code], reader)
        elif code in (0x41, 0x42):
            self._constant(reader.signed(32 if code == 0x41 else 64), "u32" if code == 0x41 else "u64")
        elif code == 0x44:
            self._constant(int.from_bytes(reader.take(8), "little"), "u64")
        elif code in LOADS:
            self._load(reader, *LOADS[code])
        elif code in STORES:
            self._store(reader, STORES[code])
        elif code in COUNTS:
            self._count(*COUNTS[code])
        elif code in EXTENDED:
            self._extend(*EXTENDED[code])
        else:
            self._calculation(code)

    def _calculation(self, code):
        for first, bits in COMPARED_FROM.items():
            if first <= code < first + len(COMPARED):
                return self._compare(COMPARED[code - first], bits)
        for first, bits in CALCULATED_FROM.items():
            if first <= code < first + len(CALCULATED) and CALCULATED[code - first] is not None:
                return self._calculate(CALCULATED[code - first], bits)
        raise SystemExit(f"module_c.py: instruction {code:#x} isn't known")
