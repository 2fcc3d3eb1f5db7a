"""Uploads to the program of docs/RECIPES.md for FastAPI, which stands in the folder where this runs."""
import sys

sys.path.insert(0, '.')
from fastapi.testclient import TestClient  # noqa: E402
from upload_fastapi import app  # noqa: E402

client = TestClient(app)
with open('activity.fit', 'rb') as file:
    ride = file.read()
answer = client.post('/rides', content=ride)
assert answer.status_code == 200 and answer.json() == [{'start': '2026-05-17T07:30:00+00:00', 'metres': 9600.0}], answer.text
answer = client.post('/rides', content=b'<gpx' + ride)
assert answer.status_code == 422 and answer.json()['detail'].startswith('refused at byte '), answer.text
assert client.post('/rides', content=ride[:1000]).json() == {'detail': 'truncated at byte 1000'}
assert client.post('/rides', content=ride * 400).status_code == 413
