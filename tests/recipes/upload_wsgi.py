"""Uploads to the program of docs/RECIPES.md for WSGI, which stands in the folder where this runs."""
import io
import sys

sys.path.insert(0, '.')
from upload_wsgi import app  # noqa: E402


def ask(upload, length=None):
    """The first line and the text of the answer to an upload."""
    lines = []
    said = app({'wsgi.input': io.BytesIO(upload), 'CONTENT_LENGTH': str(len(upload) if length is None else length)}, lambda line, heads: lines.append(line))
    return lines[0], b''.join(said).decode()


with open('activity.fit', 'rb') as file:
    ride = file.read()
assert ask(ride) == ('200 OK', '1 files')
assert ask(ride + ride) == ('200 OK', '2 files')
assert ask(b'')[1].startswith('truncated at byte 0: ')
status, said = ask(b'PK' + ride[2:])
assert status[:3] == '422' and said.startswith('refused at byte 1: Protocol: '), said
assert ask(ride[:1000])[1].startswith('truncated at byte 1000: ')
assert ask(ride, 1000)[0][:3] == '422'
