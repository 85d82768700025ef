// Starts bibtex-lsp for the files of a paper, and shows its answers: messages, hover, definition, references, rename, completion,
// symbols, layout, folding, links, code actions, code lenses, and the bibliography and the log in documents that follow each
// letter. It uses nothing but VS Code and Node, so there is no build step.
//
// Each paper has one server. A file's paper is that of its `% !TEX root`, else the newest .aux file that names the file: in
// the file's folder, in an output folder of it, or in the folder above. A file that no .aux file names joins the paper whose
// definition led to it, else the newest paper there. A command chooses another one, for all files of the folder.
'use strict';
const vscode = require('vscode');
const { spawn } = require('child_process');
const fs = require('fs');
const path = require('path');

const LANGUAGES = ['bibtex', 'bst', 'latex', 'tex'];
const servers = new Map(); // by the paper's .aux file, or its folder
const chosen = new Map(); // the .aux file that the user chose, by the folder of the files
const leads = new Map(); // by a file's path: the server whose answer led there, and the file's URI in it
let diagnostics, shown;

// --- The paper of a file ---

function outputs(folder) {
  const names = ['build', 'out', 'output', 'aux', '.aux', 'tmp'];
  for (const rc of ['latexmkrc', '.latexmkrc']) {
    try {
      for (const found of fs.readFileSync(path.join(folder, rc), 'utf8').matchAll(/^\s*\$(?:aux|out)_dir\s*=\s*["']([^"']+)["']/gm)) names.unshift(found[1]);
    } catch (_) { /* there is none */ }
  }
  return [folder, ...names.map(name => path.resolve(folder, name))];
}

// The .aux files of a folder and its output folders that name a database, the newest first.
function jobs(folder) {
  const found = [];
  for (const output of outputs(folder)) {
    let names = [];
    try { names = fs.readdirSync(output); } catch (_) { continue; }
    for (const name of names.filter(name => name.endsWith('.aux'))) {
      const aux = path.join(output, name);
      try {
        const text = fs.readFileSync(aux, 'latin1');
        if (/^\\bibdata\{/m.test(text)) found.push({ folder, output, job: path.basename(aux, '.aux'), aux, text, time: fs.statSync(aux).mtimeMs });
      } catch (_) { /* it is gone */ }
    }
  }
  return found.sort((one, other) => other.time - one.time);
}

// Whether an .aux file names a file: as a database, as the style, or as a part of the paper.
function isAbout(job, file) {
  const { name, ext } = path.parse(file);
  const command = { '.bib': 'bibdata', '.bst': 'bibstyle' }[ext] || '@input';
  const named = [...job.text.matchAll(new RegExp(`\\\\${command}\\{([^}]*)\\}`, 'g'))].flatMap(found => found[1].split(','));
  return named.some(one => [name, name + (command === '@input' ? '.aux' : ext)].includes(path.basename(one)));
}

const near = file => [path.dirname(file), path.dirname(path.dirname(file))];

// The paper of a document, and whether the document names it or it names the document.
function paperOf(document) {
  const file = document.uri.fsPath;
  const own = path.dirname(file);
  const found = near(file).flatMap(jobs);
  if (chosen.has(own)) return { ...chosen.get(own), isNamed: true };
  const root = /^\s*%\s*!\s*TEX\s+root\s*=\s*(.+?)\s*$/im.exec(document.getText().slice(0, 2000));
  if (root) {
    const main = path.resolve(own, root[1]);
    const job = path.basename(main).replace(/\.tex$/i, '');
    const folder = path.dirname(main);
    return { folder, job, output: outputs(folder).find(place => fs.existsSync(path.join(place, job + '.aux'))) || folder, isNamed: true };
  }
  const isOwn = one => !/\.b(ib|st)$/.test(file) && one.job === path.parse(file).name;
  const named = found.find(isOwn) || found.find(one => isAbout(one, file));
  return named ? { ...named, isNamed: true } : found[0] || { folder: own, job: '', output: own };
}

const keyOf = paper => paper.job ? path.join(paper.output, paper.job) : paper.folder;

// --- A server ---

class Server {
  constructor(paper) {
    Object.assign(this, { paper, waiting: new Map(), next: 1, input: Buffer.alloc(0), documents: new Set(), ended: false });
    this.watchers = [...new Set([paper.folder, paper.output])].map(folder => watch(new vscode.RelativePattern(vscode.Uri.file(folder), WRITTEN), [this]));
    const settings = vscode.workspace.getConfiguration('bibtexLsp');
    const job = settings.get('job') || paper.job;
    const words = [...(job ? ['--job=' + job] : []), '--search=' + paper.folder, '--search=' + paper.output, ...settings.get('arguments')];
    this.child = spawn(settings.get('program'), words, { cwd: paper.folder });
    this.child.on('error', error => this.end(`${settings.get('program')} can't be started (${error.message}): set bibtexLsp.program`));
    this.child.on('exit', status => this.end(status === 0 ? '' : `bibtex-lsp ended with status ${status}`));
    this.child.stdin.on('error', () => {});
    this.child.stdout.on('data', bytes => this.receive(bytes));
    this.child.stderr.on('data', bytes => console.error(`bibtex-lsp: ${bytes}`));
    this.ready = this.ask('initialize', {
      processId: process.pid, rootUri: vscode.Uri.file(paper.folder).toString(), capabilities: { textDocument: { publishDiagnostics: { relatedInformation: true } } }, initializationOptions: job ? { job } : {},
    }).then(() => this.note('initialized', {}));
  }

  end(words) {
    if (this.ended) return;
    this.ended = true;
    if (servers.get(keyOf(this.paper)) === this) servers.delete(keyOf(this.paper));
    for (const watcher of this.watchers) watcher.dispose();
    for (const { reject } of this.waiting.values()) reject(new Error(words));
    for (const uri of this.documents) diagnostics.delete(vscode.Uri.parse(uri));
    if (words) vscode.window.showWarningMessage(words);
  }

  write(message) {
    const body = Buffer.from(JSON.stringify({ jsonrpc: '2.0', ...message }));
    if (!this.ended) this.child.stdin.write(Buffer.concat([Buffer.from(`Content-Length: ${body.length}\r\n\r\n`), body]));
  }

  note(method, params) { this.write({ method, params }); }

  ask(method, params) {
    const id = this.next++;
    const answer = new Promise((resolve, reject) => this.waiting.set(id, { resolve, reject }));
    answer.catch(() => {});
    this.write({ id, method, params });
    return answer;
  }

  receive(bytes) {
    this.input = Buffer.concat([this.input, bytes]);
    for (;;) {
      const head = this.input.indexOf('\r\n\r\n');
      if (head < 0) return;
      const length = Number(/content-length:\s*(\d+)/i.exec(this.input.toString('latin1', 0, head))[1]);
      if (this.input.length < head + 4 + length) return;
      const message = JSON.parse(this.input.toString('utf8', head + 4, head + 4 + length));
      this.input = this.input.subarray(head + 4 + length);
      this.take(message);
    }
  }

  take(message) {
    if (message.method === 'textDocument/publishDiagnostics') {
      const kinds = [0, 0, 1, 2, 3]; // severities of the protocol, as VS Code counts them
      diagnostics.set(uriOf(message.params.uri), message.params.diagnostics.map(one => {
        const found = new vscode.Diagnostic(rangeOf(one.range), one.message, kinds[one.severity || 1]);
        found.source = one.source;
        found.tags = one.tags; // 1 marks what is unnecessary, as in the protocol
        found.relatedInformation = (one.relatedInformation || []).map(({ message, location }) =>
          new vscode.DiagnosticRelatedInformation(new vscode.Location(uriOf(location.uri), rangeOf(location.range)), message));
        return found;
      }));
      shown.changed(this);
    } else if (message.method === 'window/showMessage') {
      vscode.window.showWarningMessage(message.params.message);
    } else if (message.id !== undefined && this.waiting.has(message.id)) {
      const { resolve, reject } = this.waiting.get(message.id);
      this.waiting.delete(message.id);
      if (message.error) reject(new Error(message.error.message)); else resolve(message.result);
    } else if (message.id !== undefined && message.method) {
      this.write({ id: message.id, error: { code: -32601, message: 'not here' } });
    }
  }

  open(document) {
    if (this.documents.has(document.uri.toString())) return;
    this.documents.add(document.uri.toString());
    this.note('textDocument/didOpen', {
      textDocument: { uri: this.name(document), languageId: document.languageId, version: document.version, text: document.getText() },
    });
  }

  close(document) {
    this.note('textDocument/didClose', { textDocument: { uri: this.name(document) } });
    this.documents.delete(document.uri.toString());
    diagnostics.delete(document.uri);
  }

  // The server's URI of a document, which has the database ../bib/b in it as the .aux file does.
  name(document) {
    const lead = leads.get(document.uri.fsPath);
    return lead && lead.server === this ? lead.uri : document.uri.toString();
  }

  // The place of an answer.
  location({ uri, range }) {
    leads.set(uriOf(uri).fsPath, { server: this, uri });
    return new vscode.Location(uriOf(uri), rangeOf(range));
  }

  async stop() {
    servers.delete(keyOf(this.paper));
    await Promise.race([this.ask('shutdown', null).catch(() => {}), new Promise(resolve => setTimeout(resolve, 1000))]);
    this.note('exit', null);
  }
}

const uriOf = uri => vscode.Uri.file(path.normalize(vscode.Uri.parse(uri).fsPath));

const rangeOf = range => new vscode.Range(range.start.line, range.start.character, range.end.line, range.end.character);
const isOurs = document => document.uri.scheme === 'file' && (LANGUAGES.includes(document.languageId) || /\.(bib|bst|aux)$/.test(document.uri.fsPath));

// The server of a document, which it knows once this is done.
async function serverOf(document) {
  const known = [...servers.values()].find(server => server.documents.has(document.uri.toString()));
  if (known) return known;
  const paper = paperOf(document);
  const lead = leads.get(document.uri.fsPath);
  let server = !paper.isNamed && lead && !lead.server.ended ? lead.server : servers.get(keyOf(paper));
  if (!server) servers.set(keyOf(paper), server = new Server(paper));
  await server.ready;
  server.open(document);
  return server;
}

// An answer about a document, or the error of the server.
async function ask(document, method, params) {
  const server = await serverOf(document);
  return server.ask(method, { textDocument: { uri: server.name(document) }, ...params });
}

// An answer about a document, or null.
const askOf = (document, method, params) => ask(document, method, params).catch(() => null);

// An answer about a position of a document, or null.
const askAt = (document, position, method) => askOf(document, method, { position });

const editsOf = answer => (answer || []).map(one => new vscode.TextEdit(rangeOf(one.range), one.newText));

// The change of several files in an answer.
function changeOf(answer) {
  const change = new vscode.WorkspaceEdit();
  for (const { textDocument, edits } of answer.documentChanges) {
    for (const one of edits) change.replace(uriOf(textDocument.uri), rangeOf(one.range), one.newText);
  }
  return change;
}

// The file to which a link leads. LaTeX takes the names in a chapter from the paper's folder.
async function targetOf(document, link) {
  const target = uriOf(link.target);
  if (fs.existsSync(target.fsPath)) return target;
  const server = await serverOf(document);
  const inside = path.join(server.paper.folder, path.relative(path.dirname(document.uri.fsPath), target.fsPath));
  return fs.existsSync(inside) ? vscode.Uri.file(inside) : target;
}

// --- The bibliography and the log as documents ---

class Bibliography {
  constructor() {
    this.events = new vscode.EventEmitter();
    this.onDidChange = this.events.event;
  }

  uri(server, kind) { return vscode.Uri.parse('bibtex-bibliography:' + encodeURI(path.join(server.paper.output, (server.paper.job || 'paper') + kind))); }

  changed(server) { for (const kind of ['.bbl', '.blg']) this.events.fire(this.uri(server, kind)); }

  server(uri) { return [...servers.values()].find(server => ['.bbl', '.blg'].some(kind => this.uri(server, kind).toString() === uri.toString())); }

  // Where the byte at a position comes from: the `field`, or the style's `word`.
  async origin(document, position, what) {
    const server = this.server(document.uri);
    const answer = server && await server.ask('bibtex/origin', { position }).catch(() => null);
    const place = answer && answer[what];
    return place && server.location(place);
  }

  async provideTextDocumentContent(uri) {
    const server = this.server(uri);
    if (!server) return '';
    if (uri.toString().endsWith('.blg')) return (await server.ask('bibtex/log', {})).text;
    const { text } = await server.ask('bibtex/bbl', {});
    if (text) server.last = text;
    else if (server.last) return `% This is the last good bibliography: the messages of the run say why there is no new one.\n${server.last}`;
    return text || '% The bibliography is empty: the messages of the run say why.';
  }
}

// --- VS Code ---

// Opens the .tex files of the paper's folder, and of those in it, that mention the name at a position: a rename changes only
// open ones.
async function openMentions(document, position) {
  const answer = await askAt(document, position, 'textDocument/prepareRename');
  if (!answer) return;
  const name = document.getText(rangeOf(answer));
  const { folder } = (await serverOf(document)).paper;
  const folders = fs.readdirSync(folder, { withFileTypes: true }).filter(one => one.isDirectory()).map(one => path.join(folder, one.name));
  for (const place of [folder, ...folders]) {
    for (const file of fs.readdirSync(place).filter(one => one.endsWith('.tex')).map(one => path.join(place, one))) {
      if (fs.readFileSync(file, 'utf8').includes(name)) await serverOf(await vscode.workspace.openTextDocument(vscode.Uri.file(file)));
    }
  }
}

const WRITTEN = '*.{aux,bib,bst}';

// Tells servers that files have changed on disk, as the .aux file that LaTeX writes. VS Code watches a pattern without a
// folder only in the workspace.
function watch(pattern, these) {
  const watcher = vscode.workspace.createFileSystemWatcher(pattern);
  const tell = type => uri => these.forEach(server => server.note('workspace/didChangeWatchedFiles', { changes: [{ uri: uri.toString(), type }] }));
  watcher.onDidCreate(tell(1));
  watcher.onDidChange(tell(2));
  watcher.onDidDelete(tell(3));
  return watcher;
}

// Lets the user choose the paper of a document and of all others in its folder.
async function choose(document, opened) {
  const folder = path.dirname(document.uri.fsPath);
  const found = near(document.uri.fsPath).flatMap(jobs);
  const name = await vscode.window.showQuickPick(found.map(one => one.aux), { title: 'The paper of this folder' });
  if (!name) return;
  chosen.set(folder, found.find(one => one.aux === name));
  for (const server of [...servers.values()]) {
    for (const other of vscode.workspace.textDocuments) {
      if (path.dirname(other.uri.fsPath) === folder && server.documents.has(other.uri.toString())) server.close(other);
    }
    if (server.documents.size === 0) await server.stop();
  }
  vscode.workspace.textDocuments.forEach(opened);
}

function activate(context) {
  diagnostics = vscode.languages.createDiagnosticCollection('bibtex');
  shown = new Bibliography();
  const selector = [...LANGUAGES.map(language => ({ scheme: 'file', language })), { scheme: 'file', pattern: '**/*.{bib,bst,aux}' }];
  const opened = document => { if (isOurs(document)) serverOf(document).catch(() => {}); };
  const withServer = (document, then) => {
    const server = [...servers.values()].find(server => server.documents.has(document.uri.toString()));
    if (server) then(server, server.name(document));
  };
  const showing = kind => async () => {
    const editor = vscode.window.activeTextEditor;
    if (!editor || !isOurs(editor.document)) return vscode.window.showWarningMessage('Open a file of the paper first.');
    const server = await serverOf(editor.document);
    const document = await vscode.workspace.openTextDocument(shown.uri(server, kind));
    return vscode.window.showTextDocument(document, { viewColumn: vscode.ViewColumn.Beside, preserveFocus: true });
  };
  context.subscriptions.push(
    diagnostics,
    vscode.workspace.registerTextDocumentContentProvider('bibtex-bibliography', shown),
    vscode.workspace.onDidOpenTextDocument(opened),
    vscode.workspace.onDidChangeTextDocument(event => withServer(event.document, (server, uri) => {
      if (event.contentChanges.length === 0) return;
      server.note('textDocument/didChange', {
        textDocument: { uri, version: event.document.version },
        contentChanges: event.contentChanges.map(({ range, text }) => ({ range, text })),
      });
    })),
    vscode.workspace.onDidSaveTextDocument(document => withServer(document, (server, uri) => server.note('textDocument/didSave', { textDocument: { uri } }))),
    vscode.workspace.onDidCloseTextDocument(document => withServer(document, server => server.close(document))),
    watch('**/' + WRITTEN, servers),
    // Names in styles have dots and dollars.
    vscode.languages.setLanguageConfiguration('bst', { wordPattern: /[^\s{}"'#%]+/ }),
    vscode.languages.registerHoverProvider(selector, {
      async provideHover(document, position) {
        const answer = await askAt(document, position, 'textDocument/hover');
        return answer && new vscode.Hover(new vscode.MarkdownString(answer.contents.value));
      },
    }),
    vscode.languages.registerDefinitionProvider(selector, {
      async provideDefinition(document, position) {
        const answer = await askAt(document, position, 'textDocument/definition');
        const server = answer && await serverOf(document);
        return answer && [].concat(answer).map(one => server.location(one));
      },
    }),
    vscode.languages.registerDefinitionProvider({ scheme: 'bibtex-bibliography' }, {
      provideDefinition: (document, position) => shown.origin(document, position, 'field'),
    }),
    vscode.languages.registerTypeDefinitionProvider({ scheme: 'bibtex-bibliography' }, {
      provideTypeDefinition: (document, position) => shown.origin(document, position, 'word'),
    }),
    vscode.languages.registerCodeLensProvider(selector, {
      async provideCodeLenses(document) {
        const answer = await askAt(document, undefined, 'textDocument/codeLens');
        return (answer || []).map(one => new vscode.CodeLens(rangeOf(one.range), one.command));
      },
    }),
    vscode.languages.registerCompletionItemProvider(selector, {
      async provideCompletionItems(document, position) {
        const answer = await askAt(document, position, 'textDocument/completion');
        const items = answer ? answer.items || answer : [];
        // VS Code counts kinds from 0, the protocol from 1.
        return items.map(one => Object.assign(new vscode.CompletionItem(one.label, (one.kind || 1) - 1), {
          detail: one.detail,
          filterText: one.filterText,
          sortText: one.sortText,
          documentation: one.documentation && new vscode.MarkdownString(one.documentation.value),
          range: one.textEdit && rangeOf(one.textEdit.range),
        }));
      },
    }, '{', ',', '@'),
    vscode.languages.registerReferenceProvider(selector, {
      async provideReferences(document, position, context) {
        const answer = await askOf(document, 'textDocument/references', { position, context });
        const server = answer && await serverOf(document);
        return answer && answer.map(one => server.location(one));
      },
    }),
    vscode.languages.registerRenameProvider(selector, {
      async prepareRename(document, position) {
        const answer = await ask(document, 'textDocument/prepareRename', { position });
        if (!answer) throw new Error('nothing can be renamed here');
        return rangeOf(answer);
      },
      async provideRenameEdits(document, position, newName) {
        await openMentions(document, position);
        const answer = await ask(document, 'textDocument/rename', { position, newName });
        return answer && changeOf(answer);
      },
    }),
    vscode.languages.registerDocumentFormattingEditProvider({ scheme: 'file', language: 'bibtex' }, {
      provideDocumentFormattingEdits: async (document, options) => editsOf(await askOf(document, 'textDocument/formatting', { options })),
    }),
    vscode.languages.registerDocumentRangeFormattingEditProvider({ scheme: 'file', language: 'bibtex' }, {
      provideDocumentRangeFormattingEdits: async (document, range, options) => editsOf(await askOf(document, 'textDocument/rangeFormatting', { range, options })),
    }),
    vscode.languages.registerFoldingRangeProvider(selector, {
      async provideFoldingRanges(document) {
        return (await askOf(document, 'textDocument/foldingRange') || []).map(one => new vscode.FoldingRange(one.startLine, one.endLine));
      },
    }),
    vscode.languages.registerCodeActionsProvider(selector, {
      async provideCodeActions(document, range) {
        const answer = await askOf(document, 'textDocument/codeAction', { range, context: { diagnostics: [] } });
        return (answer || []).map(one => Object.assign(new vscode.CodeAction(one.title, vscode.CodeActionKind.QuickFix), { edit: changeOf(one.edit) }));
      },
    }),
    vscode.languages.registerDocumentLinkProvider(selector, {
      async provideDocumentLinks(document) {
        const answer = await askOf(document, 'textDocument/documentLink') || [];
        return Promise.all(answer.map(async one => new vscode.DocumentLink(rangeOf(one.range), await targetOf(document, one))));
      },
    }),
    vscode.languages.registerWorkspaceSymbolProvider({
      async provideWorkspaceSymbols(query) {
        const answers = await Promise.all([...servers.values()].map(async server => (await server.ask('workspace/symbol', { query }) || [])
          .map(one => new vscode.SymbolInformation(one.name, (one.kind || 1) - 1, '', server.location(one.location)))));
        return answers.flat();
      },
    }),
    vscode.languages.registerDocumentSymbolProvider(selector, {
      async provideDocumentSymbols(document) {
        const answer = await askAt(document, undefined, 'textDocument/documentSymbol');
        return (answer || []).map(one => new vscode.DocumentSymbol(one.name, one.detail || '', (one.kind || 1) - 1, rangeOf(one.range), rangeOf(one.selectionRange)));
      },
    }),
    vscode.commands.registerCommand('bibtexLsp.showBibliography', showing('.bbl')),
    vscode.commands.registerCommand('bibtexLsp.showLog', showing('.blg')),
    vscode.commands.registerCommand('bibtexLsp.chooseRoot', async () => {
      const editor = vscode.window.activeTextEditor;
      if (editor && isOurs(editor.document)) await choose(editor.document, opened);
    }),
    vscode.commands.registerCommand('bibtexLsp.restart', async () => {
      await deactivate();
      vscode.workspace.textDocuments.forEach(opened);
    }),
  );
  vscode.workspace.textDocuments.forEach(opened);
}

// Ends the servers.
async function deactivate() {
  for (const server of [...servers.values()]) await server.stop();
}

module.exports = { activate, deactivate };
