// Forms with a field for each column: to add a row and to change one. What is typed is read back at once.
import {propose} from './changes.js';
import {attempt, cancelButton, openDialog} from './dialogs.js';
import {actions, labelFor, make, soft} from './elements.js';
import {askOne} from './link.js';
import {fieldText, isUnknown, kindOf, quoted, rowText, typed} from './values.js';

const SUGGESTIONS = 30;
const TYPING = 150;  // milliseconds after the last key before suggestions are asked for
const HELP = 'Leave a field empty if the value is not known yet. To write a number as a text, put it between quotes: "12".';

/** The values of a column that have this text in them, for the list below a field. */
async function suggestions(table, column, text) {
  const like = text ? ' --like ' + quoted(text.slice(0, 60)) : '';
  const {rows} = await askOne(`show ${table}${like} --limit 200`);
  const values = rows.map(r => r[column]).filter(v => !isUnknown(v)).map(fieldText);
  return [...new Set(values)].filter(v => v.toLowerCase().includes(text.toLowerCase())).slice(0, SUGGESTIONS);
}

/**
 * A field for a value: {row, input, value()}.
 * - `label`: its words. `from`: [table, number of the column] for its suggestions.
 * - `value`: what it has at first. `fresh`: whether it may be a new unknown.
 */
export function valueField(id, label, {from, value, fresh}) {
  const start = value === undefined ? '' : fieldText(value);
  const long = /\p{Cc}/u.test(start);  // a line feed would not outlive a field of one line
  const kind = make('span.kind.soft', {id: id + '-kind'});
  const list = make('datalist', {id: id + '-list'});
  const now = () => input.value === start && value !== undefined ? value : typed(input.value);  // unedited it stays as it is
  const tell = () => { kind.textContent = fresh || input.value ? kindOf(now()) : ''; };
  const suggest = async () => {
    const found = await suggestions(from[0], from[1], input.value.trim()).catch(() => []);
    list.replaceChildren(...found.map(v => make('option', {value: v})));
  };
  let timer;
  const input = make(long ? 'textarea' : 'input', {
    id, type: long ? null : 'text', list: list.id, 'data-key': id, autocomplete: 'off', dir: 'auto', spellcheck: 'false',
    required: !fresh, value: start, 'aria-describedby': kind.id, oninput: () => {
      tell();
      clearTimeout(timer);
      timer = setTimeout(suggest, TYPING);
    },
  });
  input.addEventListener('focus', suggest, {once: true});
  tell();
  return {input, value: now, row: make('div.field', null, labelFor(id, label), input, kind, list)};
}

/** Says beside the name of a column that it belongs to the key. */
export const keyMark = () => [' ', make('span.key', {title: 'part of the key'}, 'key')];

function rowForm({name, columns, key}, title, values, verb, lineOf, options) {
  const fields = columns.map((column, i) => valueField('field' + i, [column, key.includes(i + 1) ? keyMark() : null],
    {from: [name, i], value: values?.[i], fresh: true}));
  const submit = event => {
    event.preventDefault();
    attempt(() => propose(lineOf(rowText(name, fields.map(f => f.value()))), {title, verb, quick: true, ...options}), form);
  };
  const form = make('form', {onsubmit: submit}, fields.map(f => f.row), make('p', null, soft(HELP)),
    actions(cancelButton(), make('button.main', {'data-key': 'submit'}, verb)));
  openDialog(title, [form], {focus: fields[0].input});
}

/** Asks for the values of a new row, and adds it. */
export const addRow = table => rowForm(table, `Add a row to ${table.name}`, null, 'Add', row => 'insert ' + row);

/** Asks for the new values of a row, and changes it. Rows that depend on it stay. */
export function changeRow(table, text, values, done) {
  rowForm(table, `Change a row of ${table.name}`, values, 'Change', row => `replace ${text} with ${row}`, {done});
}
