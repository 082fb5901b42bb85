// Forms that make tables, and that change the key of one.
import {propose} from './changes.js';
import {attempt, cancelButton, openDialog} from './dialogs.js';
import {actions, button, labelFor, make, soft} from './elements.js';
import {fileInput, loadFile} from './load.js';

const COLUMNS = 8;  // of a table, at most

/** The properties of a field for a name. */
export const NAME = {
  type: 'text', autocomplete: 'off', spellcheck: 'false', pattern: '[A-Za-z][A-Za-z0-9_]*', maxlength: 60,
  title: 'letters, digits and _, a letter first',
};

// Shows the table that a command made.
const goTo = reply => { location.hash = '#tables/' + reply.line.match(/^(?:relation|load) (\w+)/)[1]; };

/** What is shown while there is no table: how to make the first one. */
export function firstSteps() {
  const file = fileInput('first-csv', f => attempt(() => loadFile(f, null, goTo)));
  return [
    make('h2', null, 'There are no tables yet'),
    make('p', null, 'Make the first one, or make it of a file of comma-separated values.'),
    actions(button('New table …', () => attempt(newTable), 'first-table', 'main'),
      button('Load a file …', () => file.click(), 'first-load')),
    file,
  ];
}

/** Asks for the name and the columns of a table, and makes it. */
export function newTable() {
  const name = make('input', {id: 'new-name', required: true, ...NAME});
  const fields = columnFields();
  const file = fileInput('new-csv', f => attempt(() => loadFile(f, null, goTo)));
  const submit = event => {
    event.preventDefault();
    const line = `relation ${name.value.trim()}(${fields.columns().join(', ')})`;
    attempt(() => propose(line, {title: 'New table', quick: true, done: goTo}), form);
  };
  const form = make('form', {onsubmit: submit},
    make('div.field', null, labelFor('new-name', 'Name'), name), fields.node,
    make('p', null, soft(`Two rows with the same values in their key columns are told as a clash. At most ${COLUMNS} columns.`)),
    actions(button('From a file …', () => file.click(), 'new-load'), make('span.space'), cancelButton(),
      make('button.main', null, 'Make it')),
    file);
  openDialog('New table', [form], {focus: name});
}

// Fields for names of columns, each with a box that says whether it belongs to the key.
function columnFields() {
  const fields = [];
  const place = make('div');
  const add = () => {
    const i = fields.length;
    const input = make('input', {id: 'new-column' + i, required: i === 0, ...NAME});
    const key = make('input', {type: 'checkbox', id: 'new-key' + i});
    fields.push({input, key});
    place.append(make('div.field', null, labelFor(input.id, `Column ${i + 1}`), input,
      make('label.check', {for: key.id}, key, 'key')));
    more.hidden = fields.length >= COLUMNS;
    return input;
  };
  const more = button('Another column', () => add().focus(), 'more-columns', 'link');
  add();
  add();
  const said = f => f.input.value.trim();
  const columns = () => fields.filter(said).map(f => said(f) + (f.key.checked ? '*' : ''));
  return {node: make('div', null, place, more), columns};
}

/** Asks which columns belong to the key of a table, and sets it. */
export function changeKey({name, columns, key}) {
  const boxes = columns.map((c, i) => make('input', {type: 'checkbox', id: 'key' + i, checked: key.includes(i + 1)}));
  const submit = event => {
    event.preventDefault();
    const said = columns.map((c, i) => c + (boxes[i].checked ? '*' : '')).join(', ');
    attempt(() => propose(`relation ${name}(${said})`, {title: `Key of ${name}`, quick: true}), form);
  };
  const form = make('form', {onsubmit: submit},
    make('p', null, 'Two rows with the same values in all of these columns are told as a clash:'),
    columns.map((c, i) => make('p', null, make('label.check', {for: 'key' + i}, boxes[i], c))),
    actions(cancelButton(), make('button.main', null, 'Set the key')));
  openDialog(`Key of ${name}`, [form], {focus: boxes[0]});
}
