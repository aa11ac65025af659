// Ties the language server of dalgo to Visual Studio Code.
'use strict';
const fs = require('fs');
const path = require('path');
const vscode = require('vscode');
const { Client } = require('./client');

const LANGUAGE = 'distalgo';
let client = null;
let diagnostics = null;

// The file dalgo: that of the settings, one in an open folder, or one that the system finds.
function program() {
  const named = vscode.workspace.getConfiguration(LANGUAGE).get('program');
  if (named) return named;
  for (const folder of vscode.workspace.workspaceFolders ?? []) {
    const file = path.join(folder.uri.fsPath, 'dalgo');
    if (fs.existsSync(file)) return file;
  }
  return 'dalgo';
}

// A generated schedule, with `show` for each process behind it, is run.
const SHOW =
  'set -- "$1" "$2" $("$1" check "$2"); [ "$3" = ok ] || exit 1; ' +
  '{ "$1" walk "$2" 1 200; seq -f "show %.0f" "$5"; } | "$1" replay "$2" /dev/stdin';

// From the places of the protocol to those of the editor, and back.
const position = (one) => new vscode.Position(one.line, one.character);
const range = (one) => new vscode.Range(position(one.start), position(one.end));
const location = (one) => new vscode.Location(vscode.Uri.parse(one.uri), range(one.range));
const asked = (document, place) => ({
  textDocument: { uri: document.uri.toString() },
  position: { line: place.line, character: place.character },
});

function edits(changes) {
  const all = new vscode.WorkspaceEdit();
  for (const [uri, list] of Object.entries(changes.changes)) {
    for (const one of list) all.replace(vscode.Uri.parse(uri), range(one.range), one.newText);
  }
  return all;
}

// The numbers of kinds and of severities begin with 1 in the protocol, and with 0 in the editor.
function symbol(one) {
  const made = new vscode.DocumentSymbol(one.name, '', one.kind - 1, range(one.range), range(one.selectionRange));
  made.children = (one.children ?? []).map(symbol);
  return made;
}

function completion(one) {
  const made = new vscode.CompletionItem(one.label, one.kind - 1);
  if (one.textEdit) {
    made.range = range(one.textEdit.range);
    made.insertText = one.textEdit.newText;
  }
  return made;
}

function lens(one) {
  return new vscode.CodeLens(range(one.range), one.command);
}

function action(one) {
  const kind = one.kind === 'quickfix' ? vscode.CodeActionKind.QuickFix : vscode.CodeActionKind.Source;
  const made = new vscode.CodeAction(one.title, kind);
  made.edit = edits(one.edit);
  made.isPreferred = one.isPreferred === true;
  return made;
}

// Asks the server, where it runs.
async function ask(method, params) {
  return client === null ? null : client.ask(method, params);
}

function providers() {
  const on = vscode.languages;
  return [
    on.registerHoverProvider(LANGUAGE, {
      async provideHover(document, place) {
        const found = await ask('textDocument/hover', asked(document, place));
        if (!found) return null;
        const text = new vscode.MarkdownString();
        text.appendCodeblock(found.contents.value, LANGUAGE);
        return new vscode.Hover(text, range(found.range));
      },
    }),
    on.registerDefinitionProvider(LANGUAGE, {
      async provideDefinition(document, place) {
        const found = await ask('textDocument/definition', asked(document, place));
        return found ? location(found) : null;
      },
    }),
    on.registerReferenceProvider(LANGUAGE, {
      async provideReferences(document, place, context) {
        const found = await ask('textDocument/references', { ...asked(document, place), context });
        return (found ?? []).map(location);
      },
    }),
    on.registerDocumentSymbolProvider(LANGUAGE, {
      async provideDocumentSymbols(document) {
        const found = await ask('textDocument/documentSymbol', { textDocument: { uri: document.uri.toString() } });
        return (found ?? []).map(symbol);
      },
    }),
    on.registerRenameProvider(LANGUAGE, {
      async prepareRename(document, place) {
        const found = await ask('textDocument/prepareRename', asked(document, place));
        if (!found) throw new Error('this cannot be renamed');
        return range(found);
      },
      async provideRenameEdits(document, place, newName) {
        return edits(await ask('textDocument/rename', { ...asked(document, place), newName }));
      },
    }),
    on.registerCodeActionsProvider(LANGUAGE, {
      async provideCodeActions(document, where) {
        const params = {
          textDocument: { uri: document.uri.toString() },
          range: { start: where.start, end: where.end },
          context: { diagnostics: [] },
        };
        return ((await ask('textDocument/codeAction', params)) ?? []).map(action);
      },
    }),
    on.registerCompletionItemProvider(LANGUAGE, {
      async provideCompletionItems(document, place) {
        return ((await ask('textDocument/completion', asked(document, place))) ?? []).map(completion);
      },
    }, "'"),
    on.registerCodeLensProvider(LANGUAGE, {
      async provideCodeLenses(document) {
        const found = await ask('textDocument/codeLens', { textDocument: { uri: document.uri.toString() } });
        return (found ?? []).map(lens);
      },
    }),
  ];
}

// What the server tells unasked: the diagnostics of a document.
function told(method, params) {
  if (method !== 'textDocument/publishDiagnostics') return;
  const list = params.diagnostics.map((one) => {
    const made = new vscode.Diagnostic(range(one.range), one.message, one.severity - 1);
    made.source = one.source;
    made.code = one.code;
    return made;
  });
  diagnostics.set(vscode.Uri.parse(params.uri), list);
}

function open(document) {
  if (client === null || document.languageId !== LANGUAGE) return;
  const uri = document.uri.toString();
  client.notify('textDocument/didOpen', {
    textDocument: { uri, languageId: LANGUAGE, version: document.version, text: document.getText() },
  });
}

function change(document) {
  if (client === null || document.languageId !== LANGUAGE) return;
  client.notify('textDocument/didChange', {
    textDocument: { uri: document.uri.toString(), version: document.version },
    contentChanges: [{ text: document.getText() }],
  });
}

function close(document) {
  if (client === null || document.languageId !== LANGUAGE) return;
  client.notify('textDocument/didClose', { textDocument: { uri: document.uri.toString() } });
}

async function start() {
  const begun = new Client(program(), told, (why) => {
    if (client !== begun) return;
    client = null;
    diagnostics.clear();
    vscode.window.showWarningMessage(`The language server of dalgo has ended (${why}).`);
  });
  try {
    await begun.ask('initialize', { processId: process.pid, rootUri: null, capabilities: {} });
  } catch (error) {
    vscode.window.showWarningMessage(`dalgo does not start: ${error.message}. The setting distalgo.program names the file.`);
    return;
  }
  begun.notify('initialized', {});
  client = begun;
  vscode.workspace.textDocuments.forEach(open);
}

async function stop() {
  const ended = client;
  client = null;
  if (ended !== null) await ended.stop();
}

// A call of dalgo as a task, in a terminal.
function task(label, words) {
  return taskOf(label, { type: LANGUAGE, words }, new vscode.ProcessExecution(program(), words));
}

function shown(label, file) {
  const run = new vscode.ProcessExecution('sh', ['-c', SHOW, 'sh', program(), file]);
  return taskOf(label, { type: LANGUAGE, words: ['show', file] }, run);
}

function taskOf(label, definition, run) {
  return new vscode.Task(definition, vscode.TaskScope.Workspace, label, LANGUAGE, run, ['$distalgo']);
}

function calls(file) {
  return {
    check: task('check', ['check', file]),
    walk: task('walk', ['walk', file, '1', '200']),
    stuck: task('hunt stuck', ['hunt', file, '1', '1000', '200', 'stuck']),
    fault: task('hunt fault', ['hunt', file, '1', '1000', '200', 'fault']),
    show: shown('show', file),
  };
}

// Runs a task on the file of a lens, or on that of the active editor.
function run(name, uri) {
  const file = uri ? vscode.Uri.parse(uri).fsPath : vscode.window.activeTextEditor?.document.fileName;
  if (file !== undefined) vscode.tasks.executeTask(calls(file)[name]);
}

const tasks = {
  provideTasks() {
    const editor = vscode.window.activeTextEditor;
    if (editor === undefined || editor.document.languageId !== LANGUAGE) return [];
    return Object.values(calls(editor.document.fileName));
  },
  resolveTask(one) {
    const [word, file] = one.definition.words;
    return word === 'show' ? shown(one.name, file) : task(one.name, one.definition.words);
  },
};

function activate(context) {
  diagnostics = vscode.languages.createDiagnosticCollection(LANGUAGE);
  context.subscriptions.push(
    diagnostics,
    ...providers(),
    vscode.workspace.onDidOpenTextDocument(open),
    vscode.workspace.onDidChangeTextDocument((event) => change(event.document)),
    vscode.workspace.onDidCloseTextDocument(close),
    vscode.tasks.registerTaskProvider(LANGUAGE, tasks),
    vscode.commands.registerCommand('distalgo.walk', (uri) => run('walk', uri)),
    vscode.commands.registerCommand('distalgo.stuck', (uri) => run('stuck', uri)),
    vscode.commands.registerCommand('distalgo.fault', (uri) => run('fault', uri)),
    vscode.commands.registerCommand('distalgo.show', (uri) => run('show', uri)),
    vscode.commands.registerCommand('distalgo.restart', () => stop().then(start)),
  );
  return start();
}

module.exports = { activate, deactivate: stop };
