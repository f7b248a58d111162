"""Recorded sessions of clients, replayed to `zkc lsp`: sessions/*.jsonl, written by hand from the protocol (3.17).

Each line is an object. `file` and `text`: a file of the folder. `send`: a message of the client; `$ROOT` stands for the URI of the folder, `$PATH` for its path. `receive`: a message that the server
sends, behind those that were received before; it has at least these members, and lists of this length."""
import json
import os
import subprocess
import tempfile

from client import frame, unframed


def fits(found, wanted):
    """Whether a value has all that another one has."""
    if isinstance(wanted, dict):
        return isinstance(found, dict) and all(name in found and fits(found[name], value) for name, value in wanted.items())
    if isinstance(wanted, list):
        return isinstance(found, list) and len(found) == len(wanted) and all(fits(one, other) for one, other in zip(found, wanted))
    return found == wanted


def is_about(found, wanted):
    """Whether a message answers the same request, or is the same notification of the same file."""
    if 'id' in wanted:
        return found.get('id') == wanted['id']
    uri = wanted.get('params', {}).get('uri')
    return found.get('method') == wanted['method'] and (uri is None or found['params'].get('uri') == uri)


def replay(path, cc, verdict):
    """Replays a session."""
    name = os.path.basename(path)
    with tempfile.TemporaryDirectory() as folder, open(path, encoding='utf-8') as file:
        rows = [json.loads(row.replace('$ROOT', f'file://{folder}').replace('$PATH', folder)) for row in file if row.strip()]
        for row in rows:
            if 'file' in row:
                with open(os.path.join(folder, row['file']), 'w', encoding='utf-8', newline='') as made:
                    made.write(row['text'])
        data = b''.join(frame(row['send']) for row in rows if 'send' in row)
        done = subprocess.run([cc, 'lsp'], input=data, stdout=subprocess.PIPE, cwd=folder, check=False)
        verdict.expect(f'{name}: the status', done.returncode, 0)
        bodies = unframed(done.stdout)
        if isinstance(bodies, str):
            verdict.holds(f'{name}: {bodies}', False)
            return
        requests = [row['send']['id'] for row in rows if 'id' in row.get('send', {}) and 'method' in row['send']]
        verdict.expect(f'{name}: each request is answered once, in order', [it['id'] for it in bodies if 'id' in it and 'method' not in it], requests)
        for row in rows:
            if 'receive' in row:
                bodies = received(name, bodies, row['receive'], verdict)


def received(name, bodies, wanted, verdict):
    """The messages behind the one that is wanted."""
    for number, body in enumerate(bodies):
        if is_about(body, wanted):
            verdict.holds(f'{name}: {json.dumps(body)[:600]} and not {json.dumps(wanted)[:600]}', fits(body, wanted))
            return bodies[number + 1:]
    verdict.holds(f'{name}: nothing like {json.dumps(wanted)[:600]}', False)
    return bodies
