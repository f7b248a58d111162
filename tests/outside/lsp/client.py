"""A client of `zkc lsp`: frames and messages after the Language Server Protocol 3.17, and nothing of the server's own."""
import json
import subprocess


def frame(body):
    """A body, which is bytes or a value of JSON, with its header."""
    if not isinstance(body, bytes):
        body = json.dumps(body).encode()
    return b'Content-Length: %d\r\n\r\n' % len(body) + body


def request(number, method, params):
    return {'jsonrpc': '2.0', 'id': number, 'method': method, 'params': params}


def notice(method, params):
    return {'jsonrpc': '2.0', 'method': method, 'params': params}


def unframed(stream):
    """The bodies in what a server wrote; a text where it is no row of frames."""
    bodies = []
    while stream:
        head, mark, rest = stream.partition(b'\r\n\r\n')
        fields = dict(line.split(b': ', 1) for line in head.split(b'\r\n') if b': ' in line)
        length = fields.get(b'Content-Length', b'').decode()
        if not mark or not length.isdigit() or len(rest) < int(length):
            return f'no frame: {stream[:80]!r}'
        bodies.append(json.loads(rest[:int(length)]))
        stream = rest[int(length):]
    return bodies


INITIALIZE = {'processId': None, 'rootUri': None, 'capabilities': {}}


class Session:
    """A recorded session: what a client sends, in its order."""

    def __init__(self, folder, options=None, encodings=None):
        self.folder, self.options, self.sent, self.number = folder, options or {}, [], 0
        params = dict(INITIALIZE, rootUri=self.uri(''))
        if options:
            params['initializationOptions'] = options
        if encodings:
            params['capabilities'] = {'general': {'positionEncodings': encodings}}
        self.ask('initialize', params)
        self.tell('initialized', {})

    def uri(self, name):
        return f'file://{self.folder}/{name}'.rstrip('/')

    def ask(self, method, params):
        """Sends a request; returns its number."""
        self.number += 1
        self.sent.append(frame(request(self.number, method, params)))
        return self.number

    def tell(self, method, params):
        self.sent.append(frame(notice(method, params)))

    def send(self, data):
        self.sent.append(data)

    def open(self, name, text):
        document = {'uri': self.uri(name), 'languageId': 'c', 'version': 1, 'text': text}
        self.tell('textDocument/didOpen', {'textDocument': document})

    def change(self, name, start, end, text):
        """Replaces what stands from one position, line and character, up to another."""
        span = {'start': dict(zip(('line', 'character'), start)), 'end': dict(zip(('line', 'character'), end))}
        self.tell('textDocument/didChange', {'textDocument': {'uri': self.uri(name), 'version': 2}, 'contentChanges': [{'range': span, 'text': text}]})

    def at(self, method, name, line, character, **more):
        place = {'textDocument': {'uri': self.uri(name)}, 'position': {'line': line, 'character': character}}
        return self.ask('textDocument/' + method, {**place, **more})

    def of(self, method, name, **more):
        return self.ask('textDocument/' + method, {'textDocument': {'uri': self.uri(name)}, **more})

    def run(self, program):
        """Plays the session, then `shutdown` and `exit`; returns the status, the answers by their numbers, and the notifications."""
        end = self.ask('shutdown', None)
        self.tell('exit', None)
        done = subprocess.run([program, 'lsp', '--stdio'], input=b''.join(self.sent), stdout=subprocess.PIPE, stderr=subprocess.PIPE, timeout=600, check=False)
        bodies = unframed(done.stdout)
        if isinstance(bodies, str):
            return done.returncode, {}, [bodies]
        answers = {body['id']: body for body in bodies if 'id' in body}
        notices = [body for body in bodies if 'method' in body]
        ended = done.returncode if end in answers else f'{done.returncode} without an answer to shutdown'
        return ended, answers, notices


def shown(notices, uri):
    """The diagnostics that a client has last of a file."""
    told = [it['params']['diagnostics'] for it in notices if it.get('method') == 'textDocument/publishDiagnostics' and it['params']['uri'] == uri]
    return told[-1] if told else None


def places(answer):
    """The places of an answer: the end of the URI, line, first and last character."""
    found = []
    for it in answer.get('result') or []:
        start, end = it['range']['start'], it['range']['end']
        found.append((it['uri'].rsplit('/', 1)[1], start['line'], start['character'], end['character']))
    return sorted(found)
