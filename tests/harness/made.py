"""Files of a crate that are made of the rows kept here."""
import os
import sys

from .verdict import Verdict


def as_bytes(text):
    return text if isinstance(text, bytes) else text.encode('latin-1')


def made(crate, files):
    """Writes the files, by their names in the crate's folder; with the word --check only compares them. Returns the exit status."""
    if sys.argv[1:] == ['--check']:
        verdict = Verdict()
        for name, text in files.items():
            with open(os.path.join(crate, name), 'rb') as file:
                verdict.expect(f'{os.path.basename(crate)}/{name} is not what the rows make', file.read(), as_bytes(text))
        return verdict.end()
    for name, text in files.items():
        path = os.path.join(crate, name)
        os.makedirs(os.path.dirname(path), exist_ok=True)
        with open(path, 'wb') as file:
            file.write(as_bytes(text))
    return 0
