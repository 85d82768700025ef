// A stand-in for VS Code, with which editors/vscode runs in Node, and what its sessions need.
'use strict';
const fs = require('fs');
const path = require('path');
const Module = require('module');

const handlers = {}, providers = {}, commands = {}, published = new Map(), warnings = [];
const on = name => handler => { handlers[name] = handler; return { dispose() {} }; };
class Range { constructor(l, c, m, d) { Object.assign(this, { start: { line: l, character: c }, end: { line: m, character: d } }); } }
class Uri {
  constructor(scheme, fsPath) { Object.assign(this, { scheme, fsPath }); }
  static file(name) { return new Uri('file', name); }
  static parse(text) { const at = text.indexOf(':'); return new Uri(text.slice(0, at), decodeURI(text.slice(at + 1).replace(/^\/\//, ''))); }
  toString() { return this.scheme === 'file' ? 'file://' + encodeURI(this.fsPath) : `${this.scheme}:${encodeURI(this.fsPath)}`; }
}
class Emitter { constructor() { this.event = handler => { this.handler = handler; }; } fire(value) { if (this.handler) this.handler(value); } }
const settings = { program: process.env.PROGRAM, arguments: [], job: '' };
const vscode = {
  Range, Uri, EventEmitter: Emitter, ViewColumn: { Beside: -2 },
  Diagnostic: class { constructor(range, message, severity) { Object.assign(this, { range, message, severity }); } },
  Hover: class { constructor(contents) { this.contents = contents; } },
  MarkdownString: class { constructor(value) { this.value = value; } },
  Location: class { constructor(uri, range) { Object.assign(this, { uri, range }); } },
  CompletionItem: class { constructor(label, kind) { Object.assign(this, { label, kind }); } },
  CodeLens: class { constructor(range, command) { Object.assign(this, { range, command }); } },
  TextEdit: class { constructor(range, newText) { Object.assign(this, { range, newText }); } },
  WorkspaceEdit: class { constructor() { this.edits = []; } replace(uri, range, newText) { this.edits.push({ uri, range, newText }); } },
  FoldingRange: class { constructor(start, end) { Object.assign(this, { start, end }); } },
  CodeAction: class { constructor(title, kind) { Object.assign(this, { title, kind }); } }, CodeActionKind: { QuickFix: 'quickfix' },
  DocumentLink: class { constructor(range, target) { Object.assign(this, { range, target }); } },
  SymbolInformation: class { constructor(name, kind, container, location) { Object.assign(this, { name, kind, location }); } },
  DiagnosticRelatedInformation: class { constructor(location, message) { Object.assign(this, { location, message }); } },
  DocumentSymbol: class { constructor(name, detail, kind, range) { Object.assign(this, { name, detail, kind, range }); } },
  languages: {
    setLanguageConfiguration: (_, rules) => { providers.rules = rules; return { dispose() {} }; },
    createDiagnosticCollection: () => ({ set: (uri, list) => published.set(uri.toString(), list), delete: uri => published.delete(uri.toString()), dispose() {} }),
    registerHoverProvider: (_, p) => { providers.hover = p; }, registerDefinitionProvider: (s, p) => { providers[s.scheme ? 'field' : 'definition'] = p; },
    registerTypeDefinitionProvider: (_, p) => { providers.word = p; }, registerCodeLensProvider: (_, p) => { providers.lenses = p; },
    registerCompletionItemProvider: (_, p) => { providers.completion = p; }, registerDocumentSymbolProvider: (_, p) => { providers.symbols = p; },
    registerReferenceProvider: (_, p) => { providers.references = p; }, registerRenameProvider: (_, p) => { providers.rename = p; },
    registerDocumentFormattingEditProvider: (_, p) => { providers.layout = p; }, registerDocumentRangeFormattingEditProvider: (_, p) => { providers.part = p; },
    registerFoldingRangeProvider: (_, p) => { providers.folds = p; }, registerCodeActionsProvider: (_, p) => { providers.actions = p; },
    registerDocumentLinkProvider: (_, p) => { providers.links = p; }, registerWorkspaceSymbolProvider: p => { providers.names = p; },
  },
  workspace: {
    getConfiguration: () => ({ get: name => settings[name] }), textDocuments: [],
    registerTextDocumentContentProvider: (_, p) => { providers.bibliography = p; },
    onDidOpenTextDocument: on('open'), onDidChangeTextDocument: on('change'), onDidSaveTextDocument: on('save'), onDidCloseTextDocument: on('close'),
    // As VS Code does, it watches a folder that is named, and otherwise the workspace, which isn't there.
    createFileSystemWatcher: pattern => {
      const told = [];
      const watcher = pattern.base && fs.watch(pattern.base.fsPath, (_, name) => told.forEach(act => act(Uri.file(path.join(pattern.base.fsPath, name)))));
      return { onDidCreate() {}, onDidChange: act => told.push(act), onDidDelete() {}, dispose: () => watcher && watcher.close() };
    },
    openTextDocument: async uri => {
      if (uri.scheme !== 'file') return uri;
      const document = new Document(uri.fsPath, 'latex');
      handlers.open(document);
      return document;
    },
  },
  RelativePattern: class { constructor(base, pattern) { Object.assign(this, { base, pattern }); } },
  window: { activeTextEditor: null, showQuickPick: async list => list.find(one => one.endsWith(vscode.picked)), showWarningMessage: words => { warnings.push(words); }, showTextDocument: async document => document },
  commands: { registerCommand: (name, act) => { commands[name] = act; } },
};
const load = Module._load;
Module._load = (name, ...rest) => name === 'vscode' ? vscode : load(name, ...rest);
const { activate, deactivate } = require(path.join(process.env.EDITORS, 'vscode/extension.js'));

class Document {
  constructor(name, languageId) { Object.assign(this, { uri: Uri.file(path.resolve(name)), languageId, version: 1, text: fs.readFileSync(name, 'utf8') }); }
  getText(range) { return range ? this.text.slice(this.offset(range.start), this.offset(range.end)) : this.text; }
  offset({ line, character }) { return this.text.split('\n').slice(0, line).reduce((sum, one) => sum + one.length + 1, 0) + character; }
  position(place) { const lines = this.text.slice(0, place).split('\n'); return { line: lines.length - 1, character: lines[lines.length - 1].length }; }
  change(place, length, text) {
    const [from, to] = [this.position(place), this.position(place + length)];
    this.text = this.text.slice(0, place) + text + this.text.slice(place + length);
    this.version += 1;
    handlers.change({ document: this, contentChanges: [{ range: new Range(from.line, from.character, to.line, to.character), text }] });
  }
}

function check(step, holds, found) {
  console.log(`${holds ? 'passed' : 'FAILED'}: ${step}${holds ? '' : ': ' + JSON.stringify(found)}`);
  if (!holds) process.exit(1);
}

async function wait(holds) {
  for (let turn = 0; turn < 600 && !holds(); turn++) await new Promise(resolve => setTimeout(resolve, 100));
  return holds();
}

module.exports = { activate, deactivate, vscode, handlers, providers, commands, published, warnings, Document, check, wait };
