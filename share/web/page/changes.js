// Changes: what a command would do is shown before it is done, and it is done only if it still does the same.
import {attempt, cancelButton, closeDialog, message, openDialog, showFault} from './dialogs.js';
import {actions, button, code, labelFor, make} from './elements.js';
import {notesOf, showEffect, showNote} from './effects.js';
import {showLine} from './lines.js';
import {askOne} from './link.js';
import {ranges, readAtoms, readRow, rowText, tokens} from './values.js';
import {myRecords, workspace} from './workspace.js';

const ROUNDS = 5;  // tries to do a change while the log goes on
const CHANGED = 'The workspace changed while you looked. This is what it would do now:';

const dialog = document.getElementById('dialog');
let refresh = async () => {};
/** Sets the function that brings the page up to date. It is called after each change. */
export const afterChanges = f => { refresh = f; };
export const bringUpToDate = () => refresh();

// ---- what a command would do ----

const mayTakeAlong = line => /^(delete|replace [A-Za-z])/.test(line);
function printed(text) {
  const row = readRow(text);
  return rowText(row.table, row.values);
}

/** The rows that would go though the command does not name them. */
function goingAlong({line, went}) {
  if (!mayTakeAlong(line)) return [];
  const [verb, ...rest] = tokens(line);
  const rows = readAtoms(rest).atoms.map(a => rowText(a.table, a.terms.map(t => t.value)));
  const named = new Set(verb.name === 'delete' ? rows : rows.slice(0, 1));
  return went.filter(x => !named.has(printed(x.tuple)));
}

// `try` takes --cascade, so that it shows the rows that would go too. The command itself gets it only after a confirmation.
const trial = (line, rows) => askOne(`try ${line}${mayTakeAlong(line) ? ' --cascade' : ''}`, rows);

/** What two plans have in common if they do the same. */
function effectOf({did, came, went, filled, again, question}) {
  return JSON.stringify([did, came, went, filled, again, question?.wanted, question?.candidates, question?.count]);
}

/** Whether a command with `--still` was refused because something was recorded since. */
export const newer = error => error.reply?.status === 3 && /^the log is at [0-9]+$/.test(error.reply.words);

/** Whether a plan does more than the command says: then it is shown before it is done. */
function surprises(plan) {
  const own = /^replace [A-Za-z]/.test(plan.line) ? 1 : 0;
  return plan.status !== 0 || Boolean(plan.notes || plan.again) || plan.went.length > own || plan.came.some(x => x.by);
}

/**
 * Shows what a command would do, and does it when that is confirmed.
 * - `title`, `before`, `verb`: of the dialog: its heading, what it says first, and the words on its button.
 * - `rows`: the lines that belong to `load --lines`.
 * - `quick`: it is done at once if it does no more than the command says.
 * - `done`: called with the reply.
 */
export async function propose(line, options) {
  if (workspace.missing) return makeFile(line, options);
  const plan = await trial(line, options.rows);
  if (options.quick && !surprises(plan)) return carryOut(line, plan, options);
  return showPlan(line, plan, options);
}
// There is no workspace yet to try it on.
const makeFile = async (line, options) => finish(line, await askOne(line + ' --still 0', options.rows), options);

function showPlan(line, plan, options) {
  const nothing = plan.status === 13;
  const along = goingAlong(plan).length;
  const note = make('input', {type: 'text', id: 'log-note', maxlength: 200, autocomplete: 'off', 'data-key': 'log-note'});
  const noteField = [labelFor(note.id, 'Note'), note, make('span.kind.soft', null, 'kept in the log, may be empty')];
  const confirmed = () => carryOut(line, plan, {...options, note: note.value});
  const verb = plan.question ? 'Send it, and ask' : options.verb ?? 'Do it';
  const kind = plan.went.length ? 'main.danger' : 'main';
  const go = button(verb, () => confirm(go, confirmed), 'go', kind, {disabled: nothing});
  const cancel = cancelButton(nothing ? 'Close' : 'Cancel');
  const before = options.before ?? 'This would happen:';
  const region = {tabindex: 0, role: 'region', 'aria-label': 'What would happen'};
  openDialog(options.title, [
    options.warning ? make('p.warning', {role: 'alert'}, options.warning) : make('p.soft', null, before),
    make('div.scroll', region, showEffect(plan, propose)),
    along ? make('p.warning', null, alongWords(along)) : null,
    nothing ? null : make('div.field', null, noteField),
    make('details', null, make('summary', null, 'As a command of yt'), code(line, 2000)),
    actions(cancel, go),
  ], {focus: plan.went.length || nothing ? cancel : go});
}
const alongWords = n => n === 1 ? '1 row goes along that you did not name.' :
  `${n.toLocaleString('en')} rows go along that you did not name.`;

/** Runs the action of a button of the dialog, once. */
async function confirm(go, work) {
  go.disabled = true;
  try {
    await work();
  } catch (error) {
    go.disabled = false;
    showFault(error, dialog);
  }
}

// ---- doing it ----

/** Does what the plan says. If the log has gone on since, it is done only if it would still do the same. */
async function carryOut(line, plan, options) {
  const note = (options.note ?? '').replace(/\p{C}/gu, ' ').trim();
  for (let round = 0; round < ROUNDS; round++) {
    const words = `${line}${goingAlong(plan).length ? ' --cascade' : ''} --still ${plan.at}${note ? '  # ' + note : ''}`;
    try {
      return await finish(line, await askOne(words, options.rows), options);
    } catch (error) {
      if (error.reply?.lost) return lost(plan);
      if (!newer(error)) throw error;
    }
    const now = await trial(line, options.rows);
    if (effectOf(now) !== effectOf(plan)) return showPlan(line, now, {...options, warning: CHANGED});
    plan = now;
  }
  throw new Error('the workspace changes all the time; try again');
}

/** Does a command without showing its effect: for an answer, where `--at` makes sure that the question is the same. */
export async function doNow(line, at, options = {}) {
  try {
    return await finish(line, await askOne(line), options);
  } catch (error) {
    if (!error.reply?.lost) throw error;
    const begin = line.split(' ', 2).join(' ') + ' ';
    pending.push({line, at, limit: 100, is: record => record.lines.some(l => l.line.startsWith(begin))});
  }
}

async function finish(line, reply, options) {
  if (dialog.open) closeDialog();
  options.done?.(reply);
  const waits = reply.did === 'waits';
  const words = waits ? 'Waits: ' : reply.status === 13 ? 'Nothing changed: ' : 'Done: ';
  const notes = notesOf(reply).slice(0, 3).map(n => make('div.soft', null, showNote(n, propose)));
  const question = make('a', {href: '#inbox/' + (reply.question?.number ?? '')}, 'See the question');
  message('own', [make('b', null, words), showLine(reply.line), notes], waits ? question : wayBack(line, reply));
  await refresh();
  return reply;
}

/** A button that takes a change back, with a preview. */
function wayBack(line, reply) {
  const verb = tokens(line)[0].name;
  const numbers = [reply.number, ...(reply.numbers ?? []), ...(reply.waiting ?? [])].filter(Boolean);
  const back = (title, command) => button(title, () => attempt(() => propose(command, {title, verb: title})), 'back');
  if (reply.status === 13 || verb === 'relation' || verb === 'fold') return null;
  if (verb === 'undo') return line.includes('--answers') ? null : back('Redo', 'redo' + reply.line.slice(4));
  if (verb === 'redo') return back('Undo', 'undo' + reply.line.slice(4));
  if (verb === 'answer') return reply.number ? back('Ask again', `undo ${reply.number} --answers`) : null;
  return numbers.length ? back('Undo', 'undo ' + ranges(numbers)) : null;
}

// ---- a connection that breaks before the reply comes ----

const pending = [];
// A command that was sent with `--still` can only be the next record.
function lost(plan) {
  const manyLines = /^(load|adopt|answer)/.test(plan.line);
  pending.push({line: plan.line, at: plan.at, limit: 1, is: record => manyLines || record.lines[0].line === plan.line});
  closeDialog();
}

/** Shows for each command whose reply did not come whether it was recorded. */
export async function tellPending() {
  for (const {line, at, limit, is} of pending.splice(0)) {
    const recorded = (await myRecords(at, limit)).some(is);
    const words = recorded ? 'Done before the connection broke: ' : 'Not done, the connection broke first: ';
    message('own', [make('b', null, words), showLine(line)], make('a', {href: '#log'}, 'See the log'));
  }
}
