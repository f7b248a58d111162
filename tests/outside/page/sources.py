"""sources.py CC: a JSON line for each source that the page is tried with: name, files, input, and what the program CC answers by command.
Bytes are Latin-1."""
import concurrent.futures
import json
import os
import sys

sys.path.insert(0, os.path.join(os.path.dirname(os.path.abspath(__file__)), '..', 'library'))
import compiler  # noqa: E402
import sources  # noqa: E402

cc = compiler.Compiler(sys.argv[1])
text = lambda data: data.decode('latin-1')
given = list(sources.all_of_them())
with concurrent.futures.ThreadPoolExecutor(os.cpu_count()) as pool:
    for (name, files, input), answers in zip(given, pool.map(lambda one: cc.answers(one[1], one[2]), given)):
        wanted = {command: [status, text(output), text(message)] for command, (status, output, message) in answers.items()}
        print(json.dumps({'name': name, 'files': [[n, text(t)] for n, t in files], 'input': text(input), 'wanted': wanted}))
