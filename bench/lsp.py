#!/usr/bin/env python3
"""How long `zkc lsp` takes to answer a change in a file of 5,000 lines, beside `clangd` in the same run.

    python3 bench/lsp.py [CC [TURNS [LINES]]]

CC is bin/cc by default, TURNS 9, LINES 5000. A turn is a change of one line in the middle, with a request for the definition of a name behind it, since clangd
else waits for further changes before it looks at one. Its time is that of the clock from the message until both the diagnostics of that change and the
answer have come. The servers take their turns one after the other. Printed are the least and the median of each in milliseconds, and the ratio of the
medians: once the file has no fault, once a line lacks its semicolon. Where clangd is missing, that is said.
"""
import json
import os
import shutil
import statistics
import subprocess
import sys
import tempfile
import time

FUNCTION = ('static int table_{0}[16];\nint step_{0}(int value, int count)\n{{\n    int sum = {0};\n    for (int i = 0; i < 16; i++) {{\n'
            '        table_{0}[i] = value + i;\n        sum = sum + table_{0}[i] * count;\n    }}\n    if (sum > LIMIT && count != 0)\n        sum = sum % LIMIT;\n'
            '    return sum;\n}}\n')


def source(lines):
    """A program of about so many lines."""
    count = (lines - 8) // 12
    calls = ''.join(f'    sum = step_{k}(sum, {k + 1}) & 0xffff;\n' for k in range(0, count, max(1, count // 4)))
    return '#define LIMIT 1000\n' + ''.join(FUNCTION.format(k) for k in range(count)) + 'int main(void)\n{\n    int sum = 0;\n' + calls + '    return sum & 1;\n}\n'


class Server:
    """A language server over the streams of a process."""

    def __init__(self, words, folder):
        self.process = subprocess.Popen(words, cwd=folder, stdin=subprocess.PIPE, stdout=subprocess.PIPE, stderr=subprocess.DEVNULL)
        self.uri, self.version, self.number = f'file://{folder}/main.c', 0, 0
        self.ask('initialize', {'processId': None, 'rootUri': f'file://{folder}', 'capabilities': {}})
        self.tell('initialized', {})

    def send(self, body):
        body = json.dumps(dict(body, jsonrpc='2.0')).encode()
        self.process.stdin.write(b'Content-Length: %d\r\n\r\n' % len(body) + body)
        self.process.stdin.flush()

    def tell(self, method, params):
        self.send({'method': method, 'params': params})

    def take(self):
        length = 0
        while True:
            line = self.process.stdout.readline()
            if not line:
                sys.exit('a server ended')
            if line == b'\r\n':
                return json.loads(self.process.stdout.read(length))
            name, _, value = line.partition(b':')
            if name.lower() == b'content-length':
                length = int(value)

    def ask(self, method, params):
        self.number += 1
        self.send({'id': self.number, 'method': method, 'params': params})
        while self.take().get('id') != self.number:
            pass

    def diagnostics(self, number=None):
        """Waits for those of the newest version, and for the answer of this number; a server that names no version tells them in order."""
        found = None
        while found is None or number is not None:
            message = self.take()
            if message.get('id') is not None and message.get('id') == number:
                number = None
            params = message.get('params') or {}
            if message.get('method') == 'textDocument/publishDiagnostics' and params['uri'] == self.uri and params.get('version', self.version) == self.version:
                found = params['diagnostics']
        return found

    def open(self, text):
        self.version += 1
        self.tell('textDocument/didOpen', {'textDocument': {'uri': self.uri, 'languageId': 'c', 'version': self.version, 'text': text}})
        return self.diagnostics()

    def change(self, line, text):
        """Replaces a line; returns the seconds until the diagnostics and the answer to a request came, and the diagnostics."""
        self.version += 1
        self.number += 1
        span = {'start': {'line': line, 'character': 0}, 'end': {'line': line + 1, 'character': 0}}
        document = {'uri': self.uri}
        begun = time.perf_counter()
        self.tell('textDocument/didChange', {'textDocument': dict(document, version=self.version), 'contentChanges': [{'range': span, 'text': text}]})
        self.send({'id': self.number, 'method': 'textDocument/definition', 'params': {'textDocument': document, 'position': {'line': line, 'character': 9}}})
        found = self.diagnostics(self.number)
        return time.perf_counter() - begun, found

    def end(self):
        self.ask('shutdown', None)
        self.tell('exit', None)
        self.process.wait()


def measure(servers, text, turns, end):
    """The times of each server: a line of the middle gets another number in each turn, and this end."""
    lines = text.split('\n')
    middle = len(lines) // 2
    while 'int sum = ' not in lines[middle]:
        middle += 1
    times = {name: [] for name in servers}
    errors = {}
    for turn in range(turns + 1):
        for name, server in servers.items():
            took, found = server.change(middle, f'    int sum = {turn + 7}{end}\n')
            errors[name] = sum(it.get('severity') == 1 for it in found)
            if turn:
                times[name].append(took * 1000)
    return times, errors


def main():
    cc = os.path.abspath(sys.argv[1] if len(sys.argv) > 1 else 'bin/cc')
    turns = int(sys.argv[2]) if len(sys.argv) > 2 else 9
    text = source(int(sys.argv[3]) if len(sys.argv) > 3 else 5000)
    with tempfile.TemporaryDirectory() as folder:
        with open(os.path.join(folder, 'main.c'), 'w', encoding='ascii') as file:
            file.write(text)
        servers = {'zkc lsp': Server([cc, 'lsp'], folder)}
        clangd = shutil.which('clangd') or shutil.which('clangd-14')
        if clangd:
            servers['clangd'] = Server([clangd, '--background-index=0', '--log=error'], folder)
        else:
            print('clangd is missing: no ratio (apt-get install clangd)')
        for name, server in servers.items():
            told = server.open(text)
            if any(it.get('severity') == 1 for it in told):
                sys.exit(f'{name} tells faults in a program without one: {told[:2]}')
        print(f'{text.count(chr(10))} lines, {turns} turns')
        for what, end in (('no fault', ';'), ('a missing semicolon', '')):
            times, errors = measure(servers, text, turns, end)
            for name, list_ in times.items():
                print(f'{what:20} {name:8} least {min(list_):7.1f} ms, median {statistics.median(list_):7.1f} ms, {errors[name]} errors')
            if clangd:
                ratio = statistics.median(times['zkc lsp']) / statistics.median(times['clangd'])
                print(f'{what:20} zkc lsp to clangd: {ratio:.2f}')
        for server in servers.values():
            server.end()


main()
