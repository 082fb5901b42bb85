// The log: what was done, newest first, with undo and redo.
import {stateBadge, undoButton} from '../details.js';
import {attempt} from '../dialogs.js';
import {ago, button, fill, make, plural, showText, soft} from '../elements.js';
import {showLine} from '../lines.js';
import {askOne, link} from '../link.js';
import {workspace} from '../workspace.js';

const STEP = 50;   // records that are shown at first
const AHEAD = 100; // records that may have come since the page looked

let shown = STEP;
let start = {log: '', record: 0};  // the record that a log begins after

// Whether `log --since` takes a record.
async function isThere(record) {
  try {
    await askOne(`log --since ${record} --limit 1`);
    return true;
  } catch (error) {
    if (error.reply?.status === 3) return false;
    throw error;
  }
}

/** The record that the log begins after: 0, or the record of the last fold. No reply has it, so it is searched for. */
async function beginning() {
  const {created, folded} = workspace.status;
  const log = `${created} ${folded}`;
  if (start.log === log) return start.record;
  let low = 0;
  let high = await isThere(0) ? 0 : workspace.at;
  while (low < high) {
    const middle = Math.floor((low + high) / 2);
    if (await isThere(middle)) high = middle;
    else low = middle + 1;
  }
  start = {log, record: high};
  return high;
}

export function open() {
  const place = make('div');
  const update = () => draw(place, update);
  return {node: make('section', null, make('div.bar', null, make('h2', null, 'Log'), soft('newest first')), place), update};
}

async function draw(place, redraw) {
  if (!workspace.status) return fill(place, make('p.soft.empty', null, 'Nothing was said yet.'));
  const first = await beginning();
  const from = Math.max(first, workspace.at - shown);
  const reply = await link.ask(`log --since ${from} --limit ${shown + AHEAD}`);
  const records = reply.filter(r => r.count > 0).reverse();
  const older = button('Show older', () => {
    shown *= 4;
    attempt(redraw);
  }, 'older');
  const folded = make('p.soft', null, `What came before record ${first} was folded and cannot be undone.`);
  return fill(place, records.length ? logTable(records) : make('p.soft.empty', null, 'Nothing was said since the last fold.'),
    from > first ? older : first > 0 ? folded : null);
}

function logTable(records) {
  const head = ['Update', 'When', 'Who', 'What', 'State', 'Undo'].map(c => make('th', {scope: 'col'}, c));
  const body = make('tbody', null, records.map(rowsOf));
  return make('div.wide', null, make('table.log', null, make('thead', null, make('tr', null, head)), body));
}

function rowsOf(record) {
  const rows = record.lines.map(line => lineRow(record, line)).reverse();
  return record.count > record.lines.length ? [moreRow(record), rows] : rows;
}

function lineRow({time, curator}, {line, number, state, comment}) {
  const open = {'data-update': number, 'aria-label': `Update ${number}`};
  return make('tr', null,
    make('td', null, number ? button(number, null, 'log ' + number, 'link', open) : null),
    make('td.end', null, ago(time)),
    make('td', null, curator),
    make('td', null, showLine(line), comment ? make('div.soft', null, showText(comment)) : null),
    make('td', null, state ? stateBadge(state) : null),
    make('td.end', null, number && state !== 'given up' ? undoButton(number, {line, state}) : null));
}

// A record has its first three lines. The numbers of its updates follow each other, after the lines that have none.
function moreRow({lines, count}) {
  const first = lines.find(l => l.number)?.number;
  const bare = lines.filter(l => !l.number).length;
  const all = first && bare < lines.length ? `${first}..${first + count - bare - 1}` : null;
  const words = soft(`and ${plural(count - lines.length, 'more line')} of this record`);
  const empty = () => make('td');
  return make('tr.more', null, empty(), empty(), empty(), make('td', null, words), empty(),
    make('td.end', null, all ? undoButton(all, {}, undefined, 'Undo all') : null));
}
