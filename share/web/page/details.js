// The panel beside a view: a row and why it is there, an unknown and where it stands, or an update and what it did.
import {propose} from './changes.js';
import {attempt, faultBox} from './dialogs.js';
import {showWrite} from './effects.js';
import {
  actions, ago, badge, button, fill, focusOn, listed, make, plural, showRow, showText, showValue, soft,
} from './elements.js';
import {showLine} from './lines.js';
import {askOne} from './link.js';
import {changeRow, valueField} from './row-form.js';
import {readAtoms, readRow, rowText, tokens, valueText} from './values.js';
import {columnsOf, workspace} from './workspace.js';

const SHOWN = 100;  // rows, and writes, that are shown

const panel = document.getElementById('details');
let shown = null;  // {row} or {unknown} or {update}, and `from`: the key of what opened it

export const detailsOpen = () => Boolean(shown);

/** Opens the panel on `{row: text}`, `{unknown: name}` or `{update: number}`. */
export async function openDetails(what) {
  shown = what;
  await draw(true);
}

export function closeDetails() {
  const from = shown?.from;
  shown = null;
  panel.inert = false;
  panel.hidden = true;
  mark();
  if (from) focusOn(from);
}

/** Marks the row that the panel is about, if a view shows it. */
export function mark() {
  for (const row of document.querySelectorAll('tr[data-row]')) row.classList.toggle('selected', row.dataset.row === shown?.row);
}

/** Brings the panel up to date; what is being typed in it stays. */
export async function updateDetails() {
  const typing = panel.contains(document.activeElement) && /INPUT|TEXTAREA/.test(document.activeElement.tagName);
  if (shown && !typing) await draw(false);
}

async function draw(opened) {
  const what = shown;
  const body = make('div');
  try {
    await drawIn(body, what, opened);
  } finally {
    if (shown === what) panel.inert = false;
  }
}
async function drawIn(body, what, opened) {
  try {
    fill(body, await contents(what, body));
  } catch (error) {
    if (!error.reply) throw error;
    if (error.reply.lost) return;
    fill(body, heading('Not there any more'), faultBox(error.reply));
  }
  if (shown !== what) return;
  panel.hidden = false;
  fill(panel, button('×', closeDetails, 'close-details', 'close', {'aria-label': 'Close the details'}), body);
  mark();
  if (opened) body.querySelector('h2').focus({preventScroll: true});
}
function contents({row, unknown, update}, body) {
  if (row) return aboutRow(row, body);
  return unknown ? aboutUnknown(unknown, body) : aboutUpdate(update, body);
}

const heading = (...words) => make('h2', {tabindex: -1}, words);
const updateButton = n => button(n, null, 'update ' + n, 'link', {'data-update': n, 'aria-label': `Update ${n}`});
const moreThan = list => list.length > SHOWN ? make('p', null, soft(`and ${list.length - SHOWN} more`)) : null;

// ---- a row ----

async function aboutRow(text, body) {
  const {table, values} = readRow(text);
  const why = await askOne('why ' + text);
  const columns = columnsOf(table);
  const cells = values.map((v, i) => [make('dt', null, columns[i]), make('dd', null, showValue(v))]);
  const head = [heading(table), make('dl', null, cells)];
  if (!why.reasons) return [head, make('p.warning', null, showText(why.words ?? 'It is not there any more.'))];
  const change = () => attempt(() => changeRow(workspace.table(table), text, values, followChange), body);
  const options = {title: `Delete from ${table}`, verb: 'Delete', done: closeDetails};
  const remove = () => attempt(() => propose('delete ' + text, options), body);
  return [head, actions(button('Change', change, 'change'), button('Delete …', remove, 'delete', 'danger')),
    make('h3', null, 'Why it is there'), make('ul.why', null, why.reasons.map(showReason))];
}
// After a change the panel shows the row that came. Until it does, its buttons are about the one that went.
function followChange(reply) {
  if (reply.status !== 0 || !reply.came.length) return;
  shown = {row: reply.came.at(-1).tuple, from: shown?.from};
  panel.inert = true;
}

function showReason(reason, i, all) {
  const {tuple, how, number, curator, depth} = reason;
  const again = how !== 'base' && all.findIndex(r => r.tuple === tuple) < i;
  return make('li.depth' + Math.min(4, depth), null, showRow(tuple, depth === 0), ' ', howWords(reason),
    number ? [' in ', updateButton(number)] : null, curator ? [' by ', curator] : null, again ? ', as above' : null);
}
function howWords({how, mapping, from}) {
  if (how === 'generated') return ['was made by ', make('b', null, mapping)];
  if (how === 'rewritten') return ['was ', showRow(from, true)];
  return {base: 'is in the base', inserted: 'was added'}[how] ?? how;
}

// ---- an unknown ----

async function aboutUnknown(name, body) {
  const {words, tuples} = await askOne('why ' + name);
  const field = valueField('fill-in', 'It is', {from: placeOf(tuples[0], name), fresh: false});
  const submit = event => {
    event.preventDefault();
    const options = {title: ['Fill in ', name], verb: 'Fill in', done: closeDetails};
    attempt(() => propose(`replace ${name} with ${valueText(field.value())}`, options), body);
  };
  const go = actions(make('button.main', {'data-key': 'fill-in-button'}, 'Fill in …'));
  return [
    heading('Unknown ', make('span.chip', null, name)),
    make('p', null, originInWords(words)),
    make('form', {onsubmit: submit}, field.row, go),
    make('h3', null, 'It stands in ' + plural(tuples.length, 'row')),
    make('ul.plain', null, tuples.slice(0, SHOWN).map(t => make('li', null, showRow(t)))),
    moreThan(tuples),
  ];
}
function placeOf(text, name) {
  const {table, values} = readRow(text);
  return [table, values.findIndex(v => v?.unknown === name)];
}

// `?6.1 is p of hung in 6 by carol, since Hangs(..)`, by its tokens. Other texts stay as they are.
function originInWords(words) {
  const [, , ...rest] = tokens(words);
  const names = rest.map(t => t.name ?? '');
  const number = rest.find(t => typeof t.value === 'number')?.value;
  if (names[0] === 'new' && number) return ['It is new in update ', updateButton(number), ', by ', names.at(-1), '.'];
  if (names[1] !== 'of' || names[3] !== 'in' || !number) return showText(words, 600);
  const since = readAtoms(rest.slice(9)).atoms.map(a => showRow(rowText(a.table, a.terms.map(t => t.value)), true));
  const [variable, mapping] = [make('var', null, names[0]), make('b', null, names[2])];
  return ['Nobody has said this value yet. The mapping ', mapping, ' wants one, as ', variable, ', since update ',
    updateButton(number), ' by ', names[6], since.length ? [': there is ', listed(since)] : '', '.'];
}

// ---- an update ----

async function aboutUpdate(number, body) {
  const {line, curator, time, state, answers, writes} = await askOne('log ' + number);
  const options = {title: `Ask ${number} again`, verb: 'Ask again', before: 'Its answers are taken back, and it asks again:'};
  const askAgain = () => attempt(() => propose(`undo ${number} --answers`, options), body);
  const answer = a => make('li', null, showLine(`answer ${number} ${a}`));
  return [
    heading('Update ', number),
    make('p', null, curator, ', ', ago(time), ' ', stateBadge(state)),
    make('p', null, showLine(line)),
    state === 'waits' ? make('p', null, make('a', {href: '#inbox/' + number}, 'See its question')) : null,
    listUnder('Answers', answers, answer),
    listUnder('What it wrote', writes, showWrite),
    actions(undoButton(number, {state, line}, body),
      answers.length && state === 'stands' ? button('Ask again …', askAgain, 'ask-again') : null),
  ];
}
function listUnder(title, items, show) {
  if (!items.length) return null;
  return [make('h3', null, title), make('ul.effect', null, items.slice(0, SHOWN).map(show)), moreThan(items)];
}

/** The state of an update. */
export const stateBadge = state => badge(state === 'stands' ? 'done' : state, state.split(' ')[0]);

/** A button that undoes these updates, or brings them back, with a preview. `numbers`: as `undo` takes them. */
export function undoButton(numbers, {state, line}, place, words) {
  const verb = state === 'undone' ? 'Redo' : 'Undo';
  const options = {title: `${verb} ${numbers}`, verb, before: line ? [`${verb}: `, showLine(line)] : undefined};
  const work = () => attempt(() => propose(`${verb.toLowerCase()} ${numbers}`, options), place);
  return button((words ?? verb) + ' …', work, `undo ${numbers}`, '', {'aria-label': `${words ?? verb} ${numbers}`});
}
