// The dialog that loads a file of comma-separated values into a table: one command, one record of the log.
import {propose} from './changes.js';
import {linesOf, readCsv, separatorOf, textOf} from './csv.js';
import {attempt, cancelButton, openDialog} from './dialogs.js';
import {actions, labelFor, make, plural, showText, soft} from './elements.js';
import {quoted} from './values.js';

const SAMPLE = 5;  // rows that are shown
const SEPARATORS = {',': 'comma', ';': 'semicolon', '\t': 'tab'};
const EMPTY = {new: 'a value that is not known yet', text: 'the empty text', skip: 'its row is passed over', refuse: 'a fault'};
const FOREIGN = 'The file is not UTF-8; it is read as Western European text. Check the letters with accents.';

/** A button that asks for a file, and hands it on. */
export function fileInput(id, onfile) {
  const onchange = event => {
    const [file] = event.target.files;
    event.target.value = '';
    if (file) onfile(file);
  };
  const label = 'A file of comma-separated values';
  return make('input', {type: 'file', id, accept: '.csv,.tsv,.txt,text/csv', hidden: true, 'aria-label': label, onchange});
}

/** Shows a file and how it is read, then what loading it would do, then loads it. Without a table it makes one. */
export async function loadFile(file, table, done) {
  const {text, encoding} = textOf(await file.arrayBuffer());
  const {rows, count} = linesOf(text);
  const separator = choice('separator', 'Separator', SEPARATORS, separatorOf(text), () => draw());
  const empty = choice('empty', 'An empty cell is', EMPTY, 'new');
  const name = nameField(file.name);
  const sample = make('div');
  const columns = make('div');
  let choices = [];
  const draw = () => {
    const [header = [], ...first] = readCsv(text, separator.select.value, SAMPLE + 1).map(r => r.map(c => c.trim()));
    sample.replaceChildren(sampleTable(header, first));
    choices = table ? table.columns.map((c, i) => columnChoice(c, i, header)) : [];
    columns.replaceChildren(...choices.map(c => c.row));
  };
  const command = () => [`load ${table?.name ?? name.value} --lines ${count}`, table ? columnsOption(choices) : '--create',
    `--empty ${empty.select.value}`, separatorOption(separator.select.value)].filter(Boolean).join(' ');
  const submit = event => {
    event.preventDefault();
    const options = {title: `Load ${file.name}`, rows, verb: 'Load it', before: 'Loading it would do this:', done};
    attempt(() => propose(command(), options), form);
  };
  const check = make('button.main', {'data-key': 'check'}, 'Check …');
  const form = make('form', {onsubmit: submit},
    make('p', null, `${plural(count, 'line')}, the names of the columns among them.`),
    encoding === 'UTF-8' ? null : make('p.warning', null, FOREIGN),
    sample, table ? null : make('div.field', null, labelFor(name.id, 'Name of the table'), name),
    separator.row, empty.row, columns, actions(cancelButton(), check));
  draw();
  openDialog(table ? `Load ${file.name} into ${table.name}` : `Make a table of ${file.name}`, [form], {focus: check});
}

/** A list to choose from: {select, row}. */
function choice(id, label, options, value, onchange) {
  const list = Object.entries(options).map(([v, words]) => make('option', {value: v, selected: v === value}, words));
  const select = make('select', {id, 'data-key': id, onchange}, list);
  return {select, row: make('div.field', null, labelFor(id, label), select)};
}

/** A field for the name of the table that is made of a file. */
function nameField(file) {
  const value = file.replace(/\.[^.]*$/, '').replace(/\W+/g, '_').replace(/^[^A-Za-z]+/, '') || 'Table';
  const pattern = '[A-Za-z][A-Za-z0-9_]*';
  return make('input', {id: 'table-name', type: 'text', required: true, pattern, maxlength: 60, autocomplete: 'off', value});
}

function sampleTable(header, rows) {
  const cell = c => make('td', null, c === '' ? make('span.chip', {title: 'empty'}, '?') : showText(c, 60));
  const region = {tabindex: 0, role: 'region', 'aria-label': 'The first rows of the file'};
  return make('div.wide', region, make('table', null,
    make('thead', null, make('tr', null, header.map(h => make('th', {scope: 'col'}, showText(h))))),
    make('tbody', null, rows.map(r => make('tr', null, r.map(cell))))));
}

/** Which column of the file goes into a column of the table, and whether its numbers are texts. */
function columnChoice(column, i, header) {
  const fit = header.findIndex(h => h.toLowerCase() === column.toLowerCase());
  const names = Object.fromEntries(header.map((h, j) => [j, h || `column ${j + 1}`]));
  const {select, row} = choice('column' + i, [soft('into '), column], names, String(Math.max(fit, 0)));
  const text = make('input', {type: 'checkbox', id: 'text' + i});
  row.append(make('label.check', {for: text.id}, text, 'numbers as texts'));
  return {row, from: () => header[Number(select.value)], textOf: () => text.checked ? [column] : []};
}
function columnsOption(choices) {
  const texts = choices.flatMap(c => c.textOf());
  return `--columns ${quoted(choices.map(c => c.from()).join(','))}${texts.length ? ` --text ${texts.join(',')}` : ''}`;
}
const separatorOption = s => s === ',' ? '' : `--separator ${s === '\t' ? 'tab' : quoted(s)}`;
