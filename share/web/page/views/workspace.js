// The view of the workspace as a whole: what is in it, copies to save, and the fold.
import {bringUpToDate, doNow, newer} from '../changes.js';
import {cancelButton, openDialog, showFault} from '../dialogs.js';
import {actions, button, fill, make, plural} from '../elements.js';
import {saveButton} from '../saving.js';
import {workspace} from '../workspace.js';

const COPIES = 'All tables as SQL for a database, as one page to read or print, or as a session that youtopia can check.';
const FOLD = 'Folding makes what stands the base, so that the file stays short and opens fast. Tables, questions and ' +
  'mappings stay. What was done until now can no longer be undone.';

export function open() {
  const place = make('div');
  const update = async () => {
    const {status} = workspace;
    fill(place, status ? contents(status) : make('p.soft.empty', null, 'There is no file yet; the first table makes it.'));
  };
  return {node: make('section', null, place), update};
}

function contents(status) {
  const [time, curator] = status.created.split(' ');
  const name = status.file.replace(/\.yt$/, '');
  return [
    make('h2', null, status.file),
    make('p.soft', null, `Made by ${curator} on ${time.slice(0, 10)}.`),
    make('dl.facts', null, facts(status).map(([what, n]) => [make('dt', null, what), make('dd', null, n.toLocaleString('en'))])),
    make('h3', null, 'Save a copy'),
    make('p', null, COPIES),
    actions(
      saveButton('As SQL', 'export --sql', name + '.sql', 'save-sql'),
      saveButton('As a page', 'page', name + '.html', 'save-page'),
      saveButton('As a session', 'dump', name + '.session', 'save-session')),
    make('h3', null, 'Fold'),
    make('p', null, FOLD),
    actions(button('Fold …', fold, 'fold', 'danger')),
  ];
}

function facts(status) {
  return [
    ['Tables', status.relations.length],
    ['Rows', status.relations.reduce((sum, t) => sum + t.count, 0)],
    ['Unknowns', status.unknowns],
    ['Mappings in force', status.in_force.length],
    ['Mappings proposed', Object.keys(status.proposed).length],
    ['Changes that wait', status.waits.length],
    ['Changes that can be undone', status.stand],
    ['Records in the log', status.at],
  ];
}

function fold() {
  const {stand, at} = workspace.status;
  const none = stand === 1 ? 'it can not' : 'none of them can';
  const words = `${plural(stand, 'change')} can be undone now, and ${none} be undone after the fold.`;
  const cancel = cancelButton();
  const go = button('Fold', () => foldNow(at), 'fold-now', 'main.danger');
  openDialog('Fold the workspace', [make('p.warning', null, words), actions(cancel, go)], {focus: cancel});
}
// If the log has gone on since, the question is asked again.
async function foldNow(at) {
  try {
    await doNow(`fold --still ${at}`, at);
  } catch (error) {
    if (!newer(error)) return showFault(error, document.getElementById('dialog'));
    await bringUpToDate();
    fold();
  }
}
