// The session of tests/editors/lsp in Node that goes from paper to paper.
'use strict';
const fs = require('fs');
const path = require('path');
const { activate, deactivate, vscode, handlers, providers, commands, Document, check, wait } = require('./stand_in.js');

function opened(name, languageId) {
  const document = new Document(name, languageId);
  vscode.workspace.textDocuments.push(document);
  handlers.open(document);
  vscode.window.activeTextEditor = { document };
  return document;
}

const hover = async (document, word) =>
  ((await providers.hover.provideHover(document, document.position(document.text.indexOf(word)))) || { contents: { value: '' } }).contents.value;

// The job of the active document.
const job = async () => path.basename((await commands['bibtexLsp.showBibliography']()).fsPath, '.bbl');

async function until(holds) {
  for (let turn = 0; turn < 100 && !(await holds()); turn++) await new Promise(resolve => setTimeout(resolve, 100));
  return holds();
}

(async () => {
  activate({ subscriptions: [] });
  // a.aux uses x.bib, and b.aux, which is newer, y.bib.
  const x = opened('x.bib', 'bibtex');
  check('the paper that names a database', (await hover(x, 'First')).includes('First') && await job() === 'a', await job());
  opened('a.tex', 'latex');
  check('the paper of its own name', await job() === 'a', await job());
  const y = opened('y.bib', 'bibtex');
  check('another paper in the folder', (await hover(y, 'Second')).includes('Second') && await job() === 'b', await job());
  vscode.picked = '/a.aux';
  await commands['bibtexLsp.chooseRoot']();
  check('the paper that was chosen', await job() === 'a' && !(await hover(y, 'Second')).includes('Second'), await job());
  vscode.picked = '/b.aux';
  await commands['bibtexLsp.chooseRoot']();
  check('another one', await job() === 'b' && (await hover(y, 'Second')).includes('Second'), await job());
  // The database is in lib/, which is in BIBINPUTS.
  const chapter = opened('sub/c.tex', 'latex');
  check('a root of another folder', await job() === 'c', await job());
  check('a relative folder of BIBINPUTS', (await hover(chapter, 'far')).includes('Far away'), await hover(chapter, 'far'));
  const place = await providers.definition.provideDefinition(chapter, chapter.position(chapter.text.indexOf('far')));
  check('the definition', place && place[0].uri.fsPath === path.resolve('lib/far.bib'), place);
  const far = opened(place[0].uri.fsPath, 'bibtex');
  check('its file has the same server', (await hover(far, 'Far away')).includes('Far away') && await job() === 'c', await job());
  far.change(far.text.indexOf('Far'), 0, 'Very ');
  check('its change', (await hover(chapter, 'far')).includes('Very far away'), await hover(chapter, 'far'));
  // LaTeX writes the .aux file.
  check('a key that the .aux file has not', !(await hover(chapter, 'near')).includes('Close by'), await hover(chapter, 'near'));
  fs.writeFileSync('c.aux', '\\relax\n\\citation{far}\n\\citation{near}\n\\bibstyle{plain}\n\\bibdata{far}\n');
  check('a change on disk', await until(async () => (await hover(chapter, 'near')).includes('Close by')), await hover(chapter, 'near'));
  // sub/d.aux has a database by a path with dots.
  const last = opened('sub/d.tex', 'latex');
  const [dots] = await providers.definition.provideDefinition(last, last.position(last.text.indexOf('four')));
  check('a path without dots', dots.uri.fsPath === path.resolve('more/four.bib'), dots);
  const four = opened(dots.uri.fsPath, 'bibtex');
  four.change(four.text.indexOf('Fourth'), 0, 'Very ');
  check('a change in that file', (await hover(last, 'four')).includes('Very fourth'), await hover(last, 'four'));
  const log = await providers.bibliography.provideTextDocumentContent(await commands['bibtexLsp.showLog']());
  check('the log', log.startsWith('The top-level auxiliary file: d.aux'), log);
  await deactivate();
  console.log('done');
  process.exit(0);
})();
