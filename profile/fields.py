"""What has the messages and fields of the proved profile, profile/fields.tsv: the code, the definition, bench/, and each language."""
import itertools
import re

from tables import LINE, PROOF_LINE, filled, messages, packed, put, read

JAVASCRIPT = """/* The names of messages and fields, as profile/fields.tsv and profile/extra.tsv of the project. profile/make writes this file.
 *
 * Each message is [number, name, fields], and each field [number, name, unit, scale, offset, type, base type]; null says nothing. */

/* What the proved profile has. */
export const PROFILE = [
{profile}
]

/* What recordings have besides. */
export const EXTRA_ROWS = [
{extra}
]
"""


def identifier(name):
    """What a message is called in code and definitions, where `record` is a word of the language."""
    return 'record_message' if name == 'record' else name


def arms(table, form):
    return ''.join('        ' + form.format(number=number, name=name, called=identifier(name)) + '\n' for number, name, _ in table)


def code(table):
    """The functions of the fields of each message."""
    for _, name, fields in table:
        arms = ''.join(f'        {n} => field("{of}", "{unit}", {scale}, {offset}),\n' for n, of, unit, scale, offset in fields)
        yield (f'#[inline(always)]\nfn {identifier(name)}(number: u8) -> Option<Info>\n'
               f'    ensures {{ option_map meaning result ≡ field_of profile.{identifier(name)}.fields number }}\n'
               f'{{\n    let info = match number {{\n{arms}        _ => return None,\n    }};\n    Some(info)\n}}\n\n')


def definition_row(number, name, unit, scale, offset):
    if (scale, offset) != (1, 0):
        return f'scaled {number} "{name}" "{unit}" {scale} {offset}'
    return f'measured {number} "{name}" "{unit}"' if unit else f'plain {number} "{name}"'


def definition(table):
    """The definition of each message, and the list of all, in as many lines as it needs."""
    for number, name, fields in table:
        listed = '\n    ∷ '.join(definition_row(*field) for field in fields)
        called = identifier(name)
        yield f'abbrev pub {called} : Message\n{called} =\n    message {number} "{name}" (\n    {listed}\n    ∷ [])\n\n'
    line, lines = '   ', []
    for part in [*(f'{identifier(name)} ∷' for _, name, _ in table), '[]']:
        if len(line) + len(part) + 1 > PROOF_LINE:
            lines.append(line)
            line = '   '
        line += f' {part}'
    yield 'abbrev pub messages : List Message\nmessages =\n' + '\n'.join([*lines, line]) + '\n'


def bench(table):
    """The table of bench/."""
    for number, name, fields in table:
        listed = [f'({n}, "{of}", "{unit}", {scale}, {offset})' for n, of, unit, scale, offset in fields]
        whole = f'    ({number}, "{name}", &[{", ".join(listed)}]),'
        yield whole if len(whole) <= LINE else '\n'.join([f'    ({number}, "{name}", &[', *packed(listed, '        '), '    ]),'])


def javascript_field(row):
    """A field as JavaScript has it: number, name, unit, scale, offset, type and base type, of which the last ones may be left out."""
    number, name, unit, scale, offset, kind, base = row
    cells = [number, *(f'"{cell}"' if cell else 'null' for cell in (name, unit)), *(cell or 'null' for cell in (scale, offset))]
    cells += [f'"{cell}"' if cell else 'null' for cell in (kind, base)]
    while cells[-1] == 'null':
        cells.pop()
    return f'[{", ".join(cells)}]'


def javascript(table):
    """Of each message its number, its name, and its fields."""
    for (number, name), fields in itertools.groupby((line.split('\t') for line in lines_of(table)), lambda row: (row[0], row[1])):
        yield '\n'.join([f'    [{number}, "{name}", [', *packed([javascript_field(row[2:]) for row in fields if row[2]], '        '), '    ]],'])


def lines_of(table):
    """The rows of a table that may have lines beside them."""
    return [line for line in read(f'profile/{table}.tsv').splitlines() if not line.startswith(('#', 'message\t'))]


def wanted():
    """Each file that has the table, with the text that it ought to have."""
    table = list(messages())
    path = 'crates/fit_names/src/profile.rt'
    text = put(read(path), '        offset,\n    }\n}\n\n', ''.join(code(table)), '/// The name of a message')
    text = put(text, 'let name = match global {\n', arms(table, '{number} => "{name}",'), '        _ => return None,')
    yield path, put(text, '\n{\n    match global {\n', arms(table, '{number} => {called}(number),'), '        _ => None,')
    path = 'crates/fit_names/specs/Profile.antt'
    text = read(path)
    yield path, text[:re.search(r'^abbrev pub \w+ : Message\n', text, re.M).start()] + ''.join(definition(table))
    path = 'bench/profile.rs'
    yield path, put(read(path), '&[Row])] = &[\n', '\n'.join(bench(table)) + '\n', '];\n')
    yield 'js/src/names_table.mjs', filled(JAVASCRIPT, profile='\n'.join(javascript('fields')), extra='\n'.join(javascript('extra')))
    for folder in ('python/gazhdor', 'rust/src'):
        yield f'{folder}/profile.tsv', read('profile/fields.tsv')
        yield f'{folder}/extra.tsv', read('profile/extra.tsv')
