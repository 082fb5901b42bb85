// The view that asks: patterns are filled in, and the rows that are certain come, whatever the unknowns stand for.
import {attempt} from '../dialogs.js';
import {actions, code, fill, make, plural, showValue, soft} from '../elements.js';
import {askOne} from '../link.js';
import {howToFill, patternEditor, variablesOf} from '../patterns.js';
import {workspace} from '../workspace.js';

const MOST = 200;  // answers that are shown
const WHAT = 'Say which rows you look for. What comes is certain: it is so whatever the unknowns turn out to be.';

let kept;  // the view as it was left: {node, update, schema}
const schema = () => JSON.stringify(workspace.tables.map(t => [t.name, t.columns]));

export function open() {
  if (kept?.schema === schema()) return kept;
  const body = make('div');
  const node = make('section', null, make('h2', null, 'Ask'), body);
  if (!workspace.tables.length) {
    fill(body, make('p.soft.empty', null, 'There are no tables to ask about yet.'));
    return {node, update: async () => {}};
  }
  kept = {node, update: asking(body), schema: schema()};
  return kept;
}

/** Fills the view; returns the function that brings its answers up to date. */
function asking(body) {
  const columns = make('div');
  const line = make('p');
  const result = make('div');
  const uncertain = make('input', {type: 'checkbox', id: 'uncertain', onchange: () => attempt(ask)});
  const go = make('button.main', {'data-key': 'ask'}, 'Ask');
  const editor = patternEditor('ask', i => i ? 'and' : 'From', () => changed());
  const hidden = new Set();  // variables that are not columns of the answer
  let asked = false;

  const variables = () => variablesOf(editor.patterns());
  const command = () => {
    const shown = variables().filter(v => !hidden.has(v));
    const head = shown.length && shown.length < variables().length ? `q(${shown.join(', ')}): ` : '';
    return `ask ${head}${editor.text()}`;
  };
  const changed = () => {
    fill(columns, variables().length > 1 ? make('p.choices', null, 'Columns of the answer: ', variables().map(box)) : null);
    fill(line, code(command()));
    go.disabled = !variables().length;
  };
  const box = v => make('label.check', null, make('input', {
    type: 'checkbox', checked: !hidden.has(v), 'data-key': 'show ' + v, onchange: event => {
      hidden[event.target.checked ? 'delete' : 'add'](v);
      changed();
    },
  }), make('var', null, v));
  async function ask() {
    asked = true;
    const reply = await askOne(`${command()}${uncertain.checked ? ' --unknowns' : ''} --limit ${MOST}`);
    fill(result, answers(reply, uncertain.checked));
  }

  const submit = event => {
    event.preventDefault();
    attempt(ask, form);
  };
  const more = make('label.check', {for: uncertain.id}, uncertain, 'also rows with unknowns in them');
  const form = make('form', {onsubmit: submit}, howToFill(), editor.node, columns, more, actions(go, line));
  fill(body, make('p', null, WHAT), form, result);
  changed();
  return async () => {
    if (asked) await attempt(ask, form);
  };
}

function answers({count, rows, columns, uncertain}, withUnknowns) {
  const head = make('thead', null, make('tr', null, columns.map(c => make('th', {scope: 'col'}, c))));
  const body = make('tbody', null, rows.map(r => make('tr', null, r.map(v => make('td', null, showValue(v))))));
  return [
    make('h3.result', {role: 'status'}, count ? plural(count, 'answer') : 'No answers'),
    rows.length ? make('div.wide', null, make('table.rows', null, head, body)) : null,
    count > rows.length ? make('p', null, soft(`and ${(count - rows.length).toLocaleString('en')} more`)) : null,
    uncertain && !withUnknowns ? make('p', null, soft(uncertainWords(uncertain))) : null,
  ];
}
const uncertainWords = n => n === 1 ? '1 more row has unknowns in it, so it may or may not be so.' :
  `${n.toLocaleString('en')} more rows have unknowns in them, so they may or may not be so.`;
