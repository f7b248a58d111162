// A client of `zkc lsp` on the editor's own interface: it needs no package and no build step. Copy this folder into ~/.vscode/extensions.
"use strict";
const vscode = require("vscode");
const { spawn } = require("child_process");

const SELECTOR = [{ scheme: "file", language: "zikorape-c" }, { scheme: "file", language: "c" }];
let client = null;

/** Frames and calls of JSON-RPC 2.0 over the streams of a process. */
class Connection {
  constructor(process, onNotification) {
    this.process = process;
    this.onNotification = onNotification;
    this.held = Buffer.alloc(0);
    this.next = 1;
    this.waiting = new Map();
    process.stdout.on("data", (bytes) => this.take(bytes));
    process.on("exit", () => this.fail(new Error("zkc lsp ended")));
    process.on("error", (error) => this.fail(error));
  }

  fail(error) {
    for (const { reject } of this.waiting.values()) reject(error);
    this.waiting.clear();
  }

  take(bytes) {
    this.held = Buffer.concat([this.held, bytes]);
    for (;;) {
      const end = this.held.indexOf("\r\n\r\n");
      if (end < 0) return;
      const header = /Content-Length: *(\d+)/i.exec(this.held.subarray(0, end).toString());
      const length = header ? Number(header[1]) : 0;
      if (this.held.length < end + 4 + length) return;
      const body = this.held.subarray(end + 4, end + 4 + length).toString("utf8");
      this.held = this.held.subarray(end + 4 + length);
      this.answer(JSON.parse(body));
    }
  }

  answer(message) {
    if (message.method) {
      this.onNotification(message.method, message.params);
      return;
    }
    const waiting = this.waiting.get(message.id);
    if (!waiting) return;
    this.waiting.delete(message.id);
    if (message.error) waiting.reject(new Error(message.error.message));
    else waiting.resolve(message.result);
  }

  send(message) {
    const body = Buffer.from(JSON.stringify({ jsonrpc: "2.0", ...message }), "utf8");
    this.process.stdin.write(`Content-Length: ${body.length}\r\n\r\n`);
    this.process.stdin.write(body);
  }

  notify(method, params) {
    this.send({ method, params });
  }

  request(method, params) {
    const id = this.next++;
    return new Promise((resolve, reject) => {
      this.waiting.set(id, { resolve, reject });
      this.send({ id, method, params });
    });
  }
}

const toPosition = (it) => new vscode.Position(it.line, it.character);
const toRange = (it) => new vscode.Range(toPosition(it.start), toPosition(it.end));
const toLocation = (it) => new vscode.Location(vscode.Uri.parse(it.uri), toRange(it.range));
const fromRange = (it) => ({
  start: { line: it.start.line, character: it.start.character },
  end: { line: it.end.line, character: it.end.character },
});
const about = (document) => ({ textDocument: { uri: document.uri.toString() } });
const at = (document, position) => ({
  ...about(document),
  position: { line: position.line, character: position.character },
});

function toEdit(edit) {
  const whole = new vscode.WorkspaceEdit();
  for (const [uri, edits] of Object.entries(edit.changes)) {
    for (const one of edits) whole.replace(vscode.Uri.parse(uri), toRange(one.range), one.newText);
  }
  return whole;
}

function showDiagnostics(shown, params) {
  const list = params.diagnostics.map((it) => {
    const diagnostic = new vscode.Diagnostic(toRange(it.range), it.message, it.severity - 1);
    diagnostic.code = it.code;
    diagnostic.source = it.source;
    return diagnostic;
  });
  shown.set(vscode.Uri.parse(params.uri), list);
}

function toAction(it) {
  const action = new vscode.CodeAction(it.title, vscode.CodeActionKind.QuickFix);
  action.edit = toEdit(it.edit);
  action.isPreferred = it.isPreferred;
  return action;
}

function toSymbol(it) {
  return new vscode.DocumentSymbol(it.name, "", it.kind - 1, toRange(it.range), toRange(it.selectionRange));
}

function toHover(it) {
  return it && new vscode.Hover(new vscode.MarkdownString(it.contents.value), toRange(it.range));
}

function toItem(it) {
  const item = new vscode.CompletionItem(it.label, it.kind - 1);
  item.detail = it.detail;
  if (it.textEdit) {
    item.range = toRange(it.textEdit.range);
    item.insertText = it.textEdit.newText;
  }
  return item;
}

function toSignature(it) {
  if (!it) return null;
  const help = new vscode.SignatureHelp();
  help.signatures = it.signatures.map((one) => {
    const signature = new vscode.SignatureInformation(one.label);
    signature.parameters = one.parameters.map((each) => new vscode.ParameterInformation(each.label));
    return signature;
  });
  help.activeSignature = it.activeSignature;
  help.activeParameter = it.activeParameter;
  return help;
}

function toHint(it) {
  const hint = new vscode.InlayHint(toPosition(it.position), it.label, it.kind);
  hint.paddingRight = it.paddingRight;
  return hint;
}

/** What the editor asks of the server. */
function providers(server, legend) {
  const ask = (method, params) => server.request(`textDocument/${method}`, params);
  const languages = vscode.languages;
  return [
    languages.registerDefinitionProvider(SELECTOR, {
      provideDefinition: async (d, p) => (await ask("definition", at(d, p))).map(toLocation),
    }),
    languages.registerReferenceProvider(SELECTOR, {
      provideReferences: async (d, p, context) => (await ask("references", { ...at(d, p), context })).map(toLocation),
    }),
    languages.registerDocumentHighlightProvider(SELECTOR, {
      provideDocumentHighlights: async (d, p) =>
        (await ask("documentHighlight", at(d, p))).map((it) => new vscode.DocumentHighlight(toRange(it.range), it.kind - 1)),
    }),
    languages.registerRenameProvider(SELECTOR, {
      prepareRename: async (d, p) => {
        const found = await ask("prepareRename", at(d, p));
        if (!found) throw new Error("there is no name here that is known");
        return { range: toRange(found.range), placeholder: found.placeholder };
      },
      provideRenameEdits: async (d, p, newName) => toEdit(await ask("rename", { ...at(d, p), newName })),
    }),
    languages.registerHoverProvider(SELECTOR, {
      provideHover: async (d, p) => toHover(await ask("hover", at(d, p))),
    }),
    languages.registerDocumentSymbolProvider(SELECTOR, {
      provideDocumentSymbols: async (d) => (await ask("documentSymbol", about(d))).map(toSymbol),
    }),
    languages.registerFoldingRangeProvider(SELECTOR, {
      provideFoldingRanges: async (d) =>
        (await ask("foldingRange", about(d))).map((it) => new vscode.FoldingRange(it.startLine, it.endLine)),
    }),
    languages.registerCodeActionsProvider(SELECTOR, {
      provideCodeActions: async (d, range) =>
        (await ask("codeAction", { ...about(d), range: fromRange(range), context: { diagnostics: [] } })).map(toAction),
    }),
    languages.registerCompletionItemProvider(SELECTOR, {
      provideCompletionItems: async (d, p) => (await ask("completion", at(d, p))).items.map(toItem),
    }, "#", "\"", "<", "/"),
    languages.registerSignatureHelpProvider(SELECTOR, {
      provideSignatureHelp: async (d, p) => toSignature(await ask("signatureHelp", at(d, p))),
    }, "(", ","),
    languages.registerDocumentSemanticTokensProvider(SELECTOR, {
      provideDocumentSemanticTokens: async (d) =>
        new vscode.SemanticTokens(new Uint32Array((await ask("semanticTokens/full", about(d))).data)),
    }, new vscode.SemanticTokensLegend(legend.tokenTypes, legend.tokenModifiers)),
    languages.registerInlayHintsProvider(SELECTOR, {
      provideInlayHints: async (d, range) =>
        (await ask("inlayHint", { ...about(d), range: fromRange(range) })).map(toHint),
    }),
  ];
}

/** Has a document verified as it stands in the editor, once it has not changed for some milliseconds; never where these are 0. */
class Verifier {
  constructor(server, delay) {
    this.server = server;
    this.delay = delay;
    this.timers = new Map();
  }

  /** Begins the time of a document anew. */
  restart(uri) {
    this.stop(uri);
    if (this.delay > 0) this.timers.set(uri, setTimeout(() => this.verify(uri), this.delay));
  }

  stop(uri) {
    clearTimeout(this.timers.get(uri));
    this.timers.delete(uri);
  }

  verify(uri) {
    this.timers.delete(uri);
    this.server.request("workspace/executeCommand", { command: "zikorape.verify", arguments: [uri] }).catch(() => {});
  }

  dispose() {
    for (const uri of [...this.timers.keys()]) this.stop(uri);
  }
}

/** Tells the server of documents. */
function watch(server, verifier) {
  const isOurs = (document) => vscode.languages.match(SELECTOR, document) > 0;
  const open = (document) => {
    if (!isOurs(document)) return;
    const { languageId, version } = document;
    server.notify("textDocument/didOpen", {
      textDocument: { uri: document.uri.toString(), languageId, version, text: document.getText() },
    });
  };
  vscode.workspace.textDocuments.forEach(open);
  return [
    vscode.workspace.onDidOpenTextDocument(open),
    vscode.workspace.onDidChangeTextDocument((event) => {
      if (!isOurs(event.document) || event.contentChanges.length === 0) return;
      verifier.restart(event.document.uri.toString());
      server.notify("textDocument/didChange", {
        textDocument: { uri: event.document.uri.toString(), version: event.document.version },
        contentChanges: event.contentChanges.map((it) => ({ range: fromRange(it.range), text: it.text })),
      });
    }),
    vscode.workspace.onDidSaveTextDocument((document) => {
      if (!isOurs(document)) return;
      verifier.stop(document.uri.toString());
      server.notify("textDocument/didSave", about(document));
    }),
    vscode.workspace.onDidCloseTextDocument((document) => {
      if (!isOurs(document)) return;
      verifier.stop(document.uri.toString());
      server.notify("textDocument/didClose", about(document));
    }),
  ];
}

async function activate(context) {
  const settings = vscode.workspace.getConfiguration("zikorape");
  const folder = vscode.workspace.workspaceFolders && vscode.workspace.workspaceFolders[0];
  const process = spawn(settings.get("command"), ["lsp"], { cwd: folder && folder.uri.fsPath });
  const shown = vscode.languages.createDiagnosticCollection("zikorape");
  client = new Connection(process, (method, params) => {
    if (method === "textDocument/publishDiagnostics") showDiagnostics(shown, params);
    if (method === "window/showMessage") vscode.window.showWarningMessage(params.message);
  });
  const begun = await client.request("initialize", {
    processId: null,
    rootUri: folder ? folder.uri.toString() : null,
    capabilities: { general: { positionEncodings: ["utf-16"] } },
    initializationOptions: {
      main: settings.get("main") || undefined,
      include: settings.get("include"),
      define: settings.get("define"),
      undefine: settings.get("undefine"),
      stack: settings.get("stack"),
      verify: settings.get("verify"),
    },
  });
  client.notify("initialized", {});
  const verifier = new Verifier(client, settings.get("verify") ? settings.get("verifyDelay") : 0);
  context.subscriptions.push(shown, verifier, ...watch(client, verifier));
  context.subscriptions.push(...providers(client, begun.capabilities.semanticTokensProvider.legend));
}

async function deactivate() {
  if (!client) return;
  await client.request("shutdown", null);
  client.notify("exit", null);
}

module.exports = { activate, deactivate };
