"""What gives the numbers of the library and of its blocks their names, in each language: profile/blocks.tsv, statuses.tsv, streams.tsv and
base_types.tsv."""
import itertools

from tables import c_comment, filled, messages, packed, put, read, reasons, rows, shouted

# What the rows of a part of profile/blocks.tsv are, and their type in Rust.
PARTS = {
    'kind': ('What a block tells.', 'u8'),
    'block': ('Where each block has these.', 'usize'),
    'header': ('Where the block of a header has these.', 'usize'),
    'definition': ('Where the block of a definition message has these.', 'usize'),
    'message': ('Where the block of a data message has these.', 'usize'),
    'entry': ('Where the entry of a field in a definition has these.', 'usize'),
    'told': ('The bits of a data message: what it tells.', 'u8'),
    'defined': ('The bits of a definition message.', 'u16'),
    'items': ('What the items of a field stand for. Of a string and of bytes each item is one byte.', 'u8'),
    'architecture': ('The architecture of a definition message.', 'u8'),
    'sum': ('The checksum of a header.', 'u8'),
    'none': ('What stands for none in the block of a data message.', None),
    'length': ('The least length of these.', 'usize'),
}
NONE_TYPES = {'NO_TIME': 'u32', 'NO_OFFSET': 'u8'}
C_ENUMS = {'kind': 'gazhdor_kind', 'items': 'gazhdor_items_kind'}
READS = 'Read by `from_messages`'


def block_rows():
    return rows('blocks', 'of', 'name', 'number', 'bytes', 'what it is', 'read')


def parts():
    """The rows of each part, each as name, number and what it is."""
    for part, found in itertools.groupby(block_rows(), lambda row: row[0]):
        yield part, [(name, number, what) for _, name, number, _, what, _ in found]


def statuses():
    return rows('statuses', 'status', 'name', 'what it says')


def streams():
    return rows('streams', 'kind', 'what is made')


def base_types():
    return rows('base_types', 'base type', 'code', 'kind', 'width', 'invalid', 'what it is')


# ---- C

C_NUMBERS = """/* The numbers that stand in the blocks of gazhdor_messages, and those of messages, by their names. docs/BLOCKS.md says what each is.
 * gazhdor.h includes it. Written by profile/make. */
#ifndef GAZHDOR_NUMBERS_H
#define GAZHDOR_NUMBERS_H

{parts}/* The global message numbers of the messages that have names, those of profile/fields.tsv. */
enum gazhdor_message_number {
{messages}};

/* The base types of fields, by their codes in the file. */
enum gazhdor_base_type {
{types}};

/* Of the five low bits of a code the width of an item, an enum gazhdor_items_kind, and a bit where 0 stands for no value. */
#define GAZHDOR_TYPE_WIDTHS { {widths} }
#define GAZHDOR_TYPE_KINDS { {kinds}}
#define GAZHDOR_TYPE_ZEROS 0x{zeros}u

#endif
"""


def c_enum(named):
    listed = [f'    GAZHDOR_{name} = {number}' for name, number in named]
    return ',\n'.join(listed) + '\n'


def c_parts():
    for part, found in parts():
        yield c_comment(PARTS[part][0])
        if part in C_ENUMS:
            yield f'enum {C_ENUMS[part]} {{\n{c_enum((name, number) for name, number, _ in found)}}};\n\n'
            continue
        unsigned = 'u' if part in ('told', 'defined', 'none') else ''
        yield ''.join(f'#define GAZHDOR_{name} {number}{unsigned}\n' for name, number, _ in found) + '\n'


def c_numbers():
    types = base_types()
    by_code = {int(code, 16) & 31: (kind, width, invalid) for _, code, kind, width, invalid, _ in types}
    ordered = [by_code[k] for k in range(len(by_code))]
    zeros = sum(1 << k for k, (_, _, invalid) in enumerate(ordered) if int(invalid, 16) == 0)
    kinds = ''.join(f'{line} \\\n' for line in packed([f'GAZHDOR_{kind}' for kind, _, _ in ordered], '    '))
    return filled(C_NUMBERS, parts=''.join(c_parts()), messages=c_enum((f'MESSAGE_{name.upper()}', number) for number, name, _ in messages()),
                  types=c_enum((f'TYPE_{name.upper()}', code) for name, code, *_ in types), widths=', '.join(width for _, width, _ in ordered),
                  kinds=f'\\\n{kinds}', zeros=f'{zeros:X}')


def c_header(text):
    """c/gazhdor.h, with the numbers of statuses, of reasons and of kinds of streams."""
    said = ''.join(c_comment(what, '    ') + f'    GAZHDOR_{name} = {number},\n' for number, (name, _, what) in enumerate(statuses()))
    text = put(text, 'enum gazhdor_status {\n', said[:-2] + '\n', '};\n')
    for kind, table, what, prefix in (('reason', 'reasons', 'byte', ''), ('block_reason', 'block_reasons', 'block', 'BLOCK_')):
        found = c_enum((prefix + shouted(name), number) for number, (name, _) in enumerate(reasons(table, what), 1))
        text = put(text, f'enum gazhdor_{kind} {{\n', found, '};\n')
    kinds = c_enum((f'STREAM_{kind}', number) for number, (kind, _) in enumerate(streams()))
    return put(text, 'enum gazhdor_stream_kind {\n', kinds, '};\n')


def c_names(text):
    """c/beside.h, with the names of statuses and of reasons."""
    said = ''.join(f'    case GAZHDOR_{name}: return "{words}";\n' for name, words, _ in statuses())
    text = put(text, 'switch (status) {\n', said, '    default:')
    said = ''.join(f'    case GAZHDOR_{shouted(name)}: return "{name}";\n' for name, _ in reasons('reasons', 'byte'))
    return put(text, 'switch (reason) {\n', said, '    default:')


# ---- Python, Rust, JavaScript

PYTHON = '''"""The numbers of the library and of its blocks (docs/BLOCKS.md), by their names. Written by profile/make."""

{parts}# The numbers of a block up to what has no length of its own, and of an entry, as `struct` packs them.
{formats}
# What a call found.
{statuses}
# What is made of the pieces of a stream.
{streams}
# Each base type: its name, its code, what its items stand for, the bytes of one, and the item that stands for no value.
BASE_TYPES = (
{types})
'''
RUST = """//! The numbers of the library and of its blocks, as docs/BLOCKS.md has them, by their names. Written by profile/make.
#![allow(dead_code)]
use crate::base_type::{BaseRow, BaseType};

{parts}// What a call found.
{statuses}
// What is made of the pieces of a stream.
{streams}
/// All base types.
pub(crate) static BASE_TYPES: [BaseRow; {count}] = [
{types}];
"""
JAVASCRIPT = """/* The numbers of the library and of its blocks (docs/BLOCKS.md), by their names. Written by profile/make. */

{parts}// What a call found.
{statuses}
// What is made of the pieces of a stream.
{streams}
// The base types: name, code, what the items stand for, the bytes of one, and the item that stands for no value.
export const BASE_TYPES = [
{types}]
"""


def listed(comment, form):
    """All parts in a language: a comment before each, and a line for each name."""
    made = ''
    for part, found in parts():
        made += f'{comment} {PARTS[part][0]}\n'
        made += ''.join(form.format(name=name, number=number, type=PARTS[part][1] or NONE_TYPES.get(name)) for name, number, _ in found) + '\n'
    return made


def grouped(number):
    """A hexadecimal number as Rust writes it, in groups of four digits."""
    digits = f'{int(number, 16):X}'
    groups = [digits[max(end - 4, 0):end] for end in range(len(digits), 0, -4)]
    return '0x' + '_'.join(reversed(groups)) if int(number, 16) else '0'



def formats():
    """The formats by which `struct` packs a block up to what has no length of its own: the places of each block and those of its kind."""
    found = block_rows()
    each = [row for row in found if row[0] == 'block']
    for part in ('header', 'definition', 'message', 'entry'):
        own = list(itertools.takewhile(lambda row: row[3], (row for row in found if row[0] == part)))
        every = sorted(own if part == 'entry' else each + own, key=lambda row: int(row[2]))
        at, code = 0, '<'
        for _, name, number, size, _, _ in every:
            if int(number) == at:
                code += {'1': 'B', '2': 'H', '4': 'I', '8': 'Q'}[size]
                at += int(size)
        yield part, code


def python():
    types = ''.join(f'    ("{name}", {code}, {kind}, {width}, {invalid}),\n' for name, code, kind, width, invalid, _ in base_types())
    said = ''.join(f'{name} = {number}\n' for number, (name, *_) in enumerate(statuses()))
    kinds = ''.join(f'STREAM_{kind} = {number}\n' for number, (kind, _) in enumerate(streams()))
    return filled(PYTHON, parts=listed('#', '{name} = {number}\n'), statuses=said, streams=kinds, types=types,
                  formats=''.join(f'{part.upper()}_FORMAT = "{code}"\n' for part, code in formats()))


def rust():
    form = 'pub(crate) const {name}: {type} = {number};\n'
    types = base_types()
    table = ''.join(f'    BaseRow {{ base_type: BaseType::{name.capitalize()}, name: "{name}", kind: {kind}, width: {width}, invalid: {grouped(invalid)} }},\n'
                    for name, _, kind, width, invalid, _ in types)
    said = ''.join(form.format(name=name, type='u32', number=number) for number, (name, *_) in enumerate(statuses()))
    kinds = ''.join(form.format(name=f'STREAM_{kind}', type='u32', number=number) for number, (kind, _) in enumerate(streams()))
    every = listed('//', form).replace('0xFFFFFFFF', '0xFFFF_FFFF')
    return filled(RUST, parts=every, statuses=said, streams=kinds, types=table, count=str(len(types)))


def rust_types(text):
    """rust/src/base_type.rs, with the base types."""
    variants = ''.join(f'    /// {what}\n    {name.capitalize()} = {code},\n' for name, code, _, _, _, what in base_types())
    return put(text, 'pub enum BaseType {\n', variants, '}\n')


def javascript():
    form = 'export const {name} = {number}\n'
    said = ''.join(form.format(name=name, number=number) for number, (name, *_) in enumerate(statuses()))
    kinds = ''.join(form.format(name=f'STREAM_{kind}', number=number) for number, (kind, _) in enumerate(streams()))
    types = ''.join(f'    ["{name}", {code}, {kind}, {width}, {invalid}n],\n' for name, code, kind, width, invalid, _ in base_types())
    return filled(JAVASCRIPT, parts=listed('//', form), statuses=said, streams=kinds, types=types)


# ---- docs/BLOCKS.md

TITLES = {'block': 'Each block begins so', 'header': 'Then a header has', 'definition': 'A definition message', 'message': 'A data message',
          'entry': 'An entry of a definition'}


def page(text):
    """docs/BLOCKS.md, with its tables."""
    for part, found in itertools.groupby(block_rows(), lambda row: row[0]):
        found = list(found)
        if part in TITLES:
            table = ''.join(f'| {number} | {size} | {what} | `{name}` | {read_of} |\n' for _, name, number, size, what, read_of in found)
            text = put(text, f'{TITLES[part]}:\n\n| At | Bytes | | Name | {READS} |\n|--:|--:|---|---|---|\n', table[:-1], '\n\n')
    told = ', '.join(f'{number} {what}' for part, rows in parts() if part == 'told' for _, number, what in rows)
    return put(text, 'The bits of a message say what is told: ', told, '. ')


def wanted():
    """Each file that has these names, with the text that it ought to have."""
    yield 'c/gazhdor_numbers.h', c_numbers()
    yield 'c/gazhdor.h', c_header(read('c/gazhdor.h'))
    yield 'c/beside.h', c_names(read('c/beside.h'))
    yield 'python/gazhdor/_numbers.py', python()
    yield 'rust/src/numbers.rs', rust()
    yield 'rust/src/base_type.rs', rust_types(read('rust/src/base_type.rs'))
    yield 'js/src/numbers.mjs', javascript()
    yield 'docs/BLOCKS.md', page(read('docs/BLOCKS.md'))
