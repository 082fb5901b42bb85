// What a change does, as lines: the rows that go and come, the unknowns that are filled in, and further notes.
import {attempt, closeDialog} from './dialogs.js';
import {button, make, plural, showRow, showText, showValue, soft} from './elements.js';
import {showLine} from './lines.js';
import {readAtoms, readRow, tokens} from './values.js';
import {columnsOf} from './workspace.js';

const SHOWN = 50;  // rows of an effect that are shown

function signed(kind, sign, words, ...kids) {
  return make('li.' + kind, null, make('span.sign', {role: 'img', 'aria-label': words}, sign), kids);
}
const by = mapping => mapping ? soft(' by ', mapping) : null;
const comes = x => signed('came', '+', 'comes', showRow(x.tuple, true), by(x.by));
const goes = x => signed('went', '−', 'goes', showRow(x.tuple, true), by(x.by));
function filled({unknown, value, tuples}) {
  const [known] = tokens(value);
  return signed('filled', '=', 'is filled in', make('span.chip', null, unknown), ' becomes ', showValue(known.value, true),
    ` in ${plural(tuples, 'row')}`);
}

/** A write of an update, `+Painter("Vermeer", "NL")`. */
export const showWrite = write => (write[0] === '+' ? comes : goes)({tuple: write.slice(1).trim()});

/** What a reply to `try`, or of a change, says that it does. `propose` proposes the commands of its notes. */
export function showEffect(reply, propose) {
  const rows = [...reply.went.map(goes), ...reply.came.map(comes), ...reply.filled.map(filled)];
  const told = [
    ...(reply.did === 'in force' ? [signed('also', '·', 'also', 'The mapping has no violation, and comes into force.')] : []),
    ...(reply.again ?? []).map(x => signed('again', '!', 'another update changes', showText(x.words))),
    ...(reply.also ?? []).map(x => signed('also', '·', 'also', showText(x))),
    ...notesOf(reply).map(n => signed('note', 'i', 'note', showNote(n, propose))),
  ];
  const left = rows.length - SHOWN;
  const nothing = !reply.question && !rows.length && !told.length;
  return [
    told.length ? make('ul.effect', null, told) : null,
    counted(reply),
    make('ul.effect', null, rows.slice(0, SHOWN)),
    left > 0 ? make('p.soft', null, `and ${left.toLocaleString('en')} more`) : null,
    reply.question ? showWaiting(reply.question) : null,
    nothing ? make('p', null, 'Nothing changes.') : null,
  ];
}

function counted({came, went}) {
  const count = (list, one, many) => list.length ? [`${plural(list.length, 'row')} ${list.length === 1 ? one : many}`] : [];
  const counts = [...count(went, 'goes', 'go'), ...count(came, 'comes', 'come')];
  return counts.length ? make('p', null, counts.join(', ') + ':') : null;
}

// ---- questions ----

function showWaiting(question) {
  const words = `${plural(question.count, 'candidate')}. Nothing changes until somebody answers it in the inbox.`;
  const head = make('b', null, 'It would wait with a question: ');
  return make('div.asks', null, head, questionInWords(question), make('p.soft', null, words));
}

/** The question of an update, in one sentence. */
export function questionInWords(question) {
  if (question.kind !== 'positive') return 'These cannot all stay. Which of them go?';
  const {table, values} = readRow(question.wanted);
  const columns = columnsOf(table);
  const known = values.map((v, i) => [columns[i], v]).filter(([, v]) => typeof v !== 'object');
  const words = known.map(([column, v], i) => [i ? ' and ' : ' with ', column, ' ', showValue(v, true)]);
  return ['Which ', make('b', null, table), words, ' is it?'];
}

// ---- notes ----

/** The notes of a reply, without the note on rows that go too: that one is shown with the rows. */
export function notesOf(reply) {
  return (reply.notes ?? []).filter(n => !/^[0-9]+ tuples? went that you did not name$/.test(n.words));
}

/** A note, with a button for each command that it proposes. */
export function showNote({words, commands}, propose) {
  const same = ' may be the same';
  const rest = readRow(words) && readAtoms(tokens(words)).rest.map(t => t.name ?? '').join(' ');
  const shown = rest === same.trim() ? [showRow(words.slice(0, -same.length), true), same] : showText(words);
  return [shown, commands.map(c => [' ', noteButton(c, propose)])];
}
function noteButton(command, propose) {
  const [verb, number] = tokens(command);
  if (verb?.name === 'questions') return make('a', {href: '#inbox/' + number?.value, onclick: closeDialog}, 'See its question');
  const fill = () => attempt(() => propose(command, {title: 'Fill in an unknown', verb: 'Fill in'}));
  return button(['Instead ', showLine(command)], fill, undefined, 'link');
}
