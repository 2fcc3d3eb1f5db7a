"""What reads the tables of profile/, and puts what is made of them into files."""
import itertools
import re
import sys
import textwrap

# how long a line of the languages beside Rattle may be, and one of a proof or a definition
LINE, PROOF_LINE = 124, 160


def read(path):
    with open(path, encoding='utf-8') as file:
        return file.read()


def rows(table, *columns):
    """The rows of a table, each with as many cells as there are columns."""
    head, *lines = read(f'profile/{table}.tsv').splitlines()
    found = [line.split('\t') for line in lines]
    wrong = next((number for number, row in enumerate(found, 2) if len(row) != len(columns)), None)
    if head.split('\t') != list(columns) or wrong:
        sys.exit(f"profile/{table}.tsv{f', line {wrong}' if wrong else ''}: each line has {len(columns)} cells with tabs between them: {', '.join(columns)}")
    return found


def messages():
    """Each message as its number, its name, and its fields: number, name, unit, scale, offset."""
    columns = 'message', 'message name', 'field', 'field name', 'unit', 'scale', 'offset', 'type', 'base type'
    for (number, name), fields in itertools.groupby(rows('fields', *columns), lambda row: (row[0], row[1])):
        yield int(number), name, [(int(f[2]), f[3], f[4], int(f[5]), int(f[6])) for f in fields]


def reasons(table, what):
    """Each reason with what it says of the byte or the block, in the order of their numbers, which count from 1."""
    found = rows(table, 'reason', f'the {what}')
    if any(not re.fullmatch('[A-Za-z]+', name) for name, _ in found):
        sys.exit(f'profile/{table}.tsv: a reason is one word of letters')
    return found


def shouted(name):
    """A name as constants are written: FILE_SUM of FileSum."""
    return re.sub('(?<=[a-z])(?=[A-Z])', '_', name).upper()


def packed(parts, indent, width=LINE):
    """Parts in lines of which none is too long, each part with a comma behind it."""
    line = indent
    for part in parts:
        if line != indent and len(line) + len(part) + 2 > width:
            yield line
            line = indent
        line += f'{part},' if line == indent else f' {part},'
    yield line


def c_comment(text, indent=''):
    """A comment of C in lines of which none is too long."""
    lines = textwrap.wrap(f'{indent}/* {text} */', 120, subsequent_indent=f'{indent} * ', break_long_words=False)
    return ''.join(line + '\n' for line in lines)


def put(text, before, new, after):
    """A text with something else between two parts of it."""
    start = text.index(before) + len(before)
    return text[:start] + new + text[text.index(after, start):]


def filled(form, **parts):
    for name, part in parts.items():
        form = form.replace('{' + name + '}', part)
    return form
