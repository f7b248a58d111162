// node serve.mjs FOLDER: serves a folder on a free port of this machine, which it prints.
import fs from 'fs';
import http from 'http';
import path from 'path';

const types = { '.html': 'text/html', '.js': 'text/javascript', '.css': 'text/css', '.wasm': 'application/wasm' };
const server = http.createServer((asked, answer) => {
  const name = path.basename(new URL(asked.url, 'http://here').pathname) || 'index.html';
  try {
    const bytes = fs.readFileSync(path.join(process.argv[2], name));
    answer.setHeader('content-type', types[path.extname(name)] ?? 'application/octet-stream');
    answer.end(bytes);
  } catch {
    answer.statusCode = 404;
    answer.end();
  }
});
server.listen(0, '127.0.0.1', () => console.log(server.address().port));
