#!/usr/bin/env python3
"""Writes the WebAssembly module as C: module_c.py MODULE.wasm, to standard output

The C is for any compiler and any processor; everywhere.c includes it after module.h, which says what memory is. An
instruction that the module hasn't got isn't known here, and the writer stops at it. It also stops where a call might
take more of the stack in memory than there is, so nothing has to look for that while the code runs. The same module
gives the same bytes."""
import sys

from functions import STACK, Function
from wasm import Module

BYTES_A_LINE = 60
# A function that calls itself goes down a balanced tree: in 4 GiB none is higher, even if no node had more than two
# below it.
LEVELS = 32


def deepest(functions, number, calling, known):
    """How much of the stack a function takes at most, with all that it calls."""
    if number in calling:
        raise SystemExit(f"module_c.py: function {number} calls others that call it, so how much stack it takes isn't known")
    if number not in known:
        function, inside = functions[number], calling | {number}
        below = [depth + deepest(functions, callee, inside, known) for callee, depth in function.calls.items() if callee != number]
        known[number] = LEVELS * function.calls.get(number, 0) + max([function.frame] + below)
    return known[number]


def see_stack(module, functions):
    """Says in a comment how much of the stack the calls take; stops where that is more than there is. The stack is
    below the data."""
    known, room = {}, module.globals[STACK][1]
    if len(module.globals) != 1 or min(place for place, _ in module.data) < room:
        raise SystemExit("module_c.py: the stack isn't where it should be")
    most = max(deepest(functions, number, frozenset(), known) for _, number in module.exports)
    if most > room:
        raise SystemExit(f"module_c.py: a call may take {most} bytes of stack, and there are {room}")
    return f"/* The calls take at most {most} of {room} bytes of the stack in memory. */\n"


def image(module):
    """The data as they are in memory at first, from the end of the stack on, and the call that puts them there. Where
    the module has none, and after them, there are zeros."""
    first = module.globals[STACK][1]
    data = bytearray(max(place + len(bytes_) for place, bytes_ in module.data) - first)
    for place, bytes_ in module.data:
        data[place - first : place - first + len(bytes_)] = bytes_
    lines = "\n".join(",".join(map(str, data[k : k + BYTES_A_LINE])) + "," for k in range(0, len(data), BYTES_A_LINE))
    end = first + len(data)
    return (
        f"#define MODULE_PAGES {module.pages}u\n"
        f"static const unsigned char image[{len(data)}]={{\n{lines}\n}};\n"
        f"static void module_begin(memory*m)\n{{\nm->g{STACK}={first}u;\n"
        f"memcpy(m->base+{first}u,image,sizeof image);\nmemset(m->base+{end}u,0,(MODULE_PAGES<<16)-{end}u);\n}}\n"
    )


def export(name, function):
    """The function under the name that everywhere.c calls it by."""
    words = [f"{kind} a{k}" for k, kind in enumerate(function.parameters)]
    result = function.results[0] if function.results else "void"
    call = f"{'return ' if function.results else ''}F{function.number}({','.join(['m'] + [f'a{k}' for k in range(len(words))])});"
    return f"static {result} module_{name[len('gazhdor_'):]}({','.join(['memory*m'] + words)})\n{{\n{call}\n}}\n"


def text(module):
    functions = [Function(module, number) for number in range(len(module.codes))]
    parts = ["/* Made of js/gazhdor.wasm by release/any/module_c.py; everywhere.c includes it. */\n", see_stack(module, functions), image(module)]
    parts += [function.head() + ";\n" for function in functions]
    parts += [function.text() for function in functions]
    parts += [export(name, functions[number]) for name, number in module.exports]
    return "".join(parts)


def main():
    if len(sys.argv) != 2:
        sys.exit("usage: module_c.py MODULE.wasm")
    with open(sys.argv[1], "rb") as file:
        sys.stdout.write(text(Module(file.read())))


if __name__ == "__main__":
    main()
