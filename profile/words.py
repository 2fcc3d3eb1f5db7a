"""What has the words for numbers: profile/words.tsv, the types of fields in fields.tsv and extra.tsv, and profile/subfields.tsv. These are
Python, Rust and JavaScript; the proved part shows numbers."""
import re
import sys

from tables import filled, packed, read, rows

TIMES = 'date_time', 'local_date_time'
JAVASCRIPT = """/* Words for numbers, and which fields have them, as profile/words.tsv and profile/subfields.tsv of the project. profile/make writes this file. */

/* Of each type its numbers with their words. */
export const WORDS = {
{words}
}

/* Of each message, by its number, its fields that have a type, by their numbers. */
export const TYPES = {
{types}
}

/* Of each message the fields whose type depends on another field: a list of [that field, its number, the type]. */
export const SUBFIELDS = {
{subfields}
}
"""


def words():
    """Of each type its numbers with their words."""
    found = {}
    for kind, number, word in rows('words', 'type', 'number', 'word'):
        known = found.setdefault(kind, {})
        if int(number) in known or word in known.values() or not re.fullmatch('[a-z0-9_]+', word):
            sys.exit(f'profile/words.tsv: {kind} {number} {word}: a type has each number and each word once, of small letters, digits and _')
        known[int(number)] = word
    return found


def field_types():
    """Of each message its fields that have a type of words."""
    known, found = words(), {}
    for table in ('fields', 'extra'):
        lines = [line.split('\t') for line in read(f'profile/{table}.tsv').splitlines() if not line.startswith('#')]
        head = lines[0]
        for row in (dict(zip(head, line)) for line in lines[1:]):
            if row['type'] and row['type'] not in (*known, *TIMES):
                sys.exit(f"profile/{table}.tsv: {row['message name']} {row['field name']}: there is no type {row['type']}")
            if row['type'] in known:
                found.setdefault(int(row['message']), {})[int(row['field'])] = row['type']
    return dict(sorted(found.items()))


def subfields():
    """Of each message the fields whose type depends on another field."""
    found = {}
    for message, field, reference, number, kind in rows('subfields', 'message', 'field', 'reference field', 'reference number', 'type'):
        if kind not in words():
            sys.exit(f'profile/subfields.tsv: there is no type {kind}')
        found.setdefault(int(message), {}).setdefault(int(field), []).append(f'[{reference}, {number}, "{kind}"]')
    return found


def listed(name, parts):
    """A member of an object of JavaScript that is an object, in as many lines as it needs."""
    return '\n'.join([f'    {name}: {{', *packed(parts, '        '), '    },'])


def javascript():
    told = (listed(kind, [f'{number}: "{word}"' for number, word in known.items()]) for kind, known in words().items())
    types = (listed(message, [f'{field}: "{kind}"' for field, kind in known.items()]) for message, known in field_types().items())
    cases = (listed(message, [f'{field}: [{", ".join(found)}]' for field, found in known.items()]) for message, known in subfields().items())
    return filled(JAVASCRIPT, words='\n'.join(told), types='\n'.join(types), subfields='\n'.join(cases))


def wanted():
    """Each file that has the words, with the text that it ought to have."""
    yield 'js/src/words_table.mjs', javascript()
    for folder in ('python/gazhdor', 'rust/src'):
        for table in ('words', 'subfields'):
            yield f'{folder}/{table}.tsv', read(f'profile/{table}.tsv')
