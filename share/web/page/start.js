// The page: which view is shown, what is new, and whether the connection stands.
import {afterChanges, tellPending} from './changes.js';
import {closeDetails, detailsOpen, openDetails, updateDetails} from './details.js';
import {attempt, banner, faultBox, message} from './dialogs.js';
import {button, fill, make, plural} from './elements.js';
import {showLine} from './lines.js';
import {link} from './link.js';
import './theme.js';
import * as ask from './views/ask.js';
import * as inbox from './views/inbox.js';
import * as log from './views/log.js';
import * as mappings from './views/mappings.js';
import * as tables from './views/tables.js';
import * as violations from './views/violations.js';
import * as whole from './views/workspace.js';
import {saidName, showWho} from './who.js';
import {learn, me, workspace} from './workspace.js';

const VIEWS = {tables, inbox, ask, mappings, violations, log, workspace: whole};
const POLL = 2000;     // milliseconds between two looks at the log
const HIDDEN = 15;     // a page that is not visible makes one look in this many
const THOROUGH = 10;   // one look in this many asks for the status in any case
const SLOW = 3;        // seconds after which yt is said to be at work
const STUCK = 30;      // seconds after which the page offers to connect again

const at = id => document.getElementById(id);
let view = null;  // the view that is shown: {node, update(news)}

// ---- views ----

function route() {
  const [name, argument] = location.hash.slice(1).split('/');
  return Object.hasOwn(VIEWS, name) ? [name, argument] : ['tables'];
}

function drawHeader() {
  const {status} = workspace;
  const waits = status?.waits.length ?? 0;
  const violated = Object.values(status?.proposed ?? {}).reduce((a, b) => a + b, 0);
  const counts = {inbox: waits, violations: violated};
  fill(at('nav'), Object.keys(VIEWS).map(name => viewLink(name, counts[name])));
  at('file').textContent = status?.file ?? 'yt';
  document.title = `${waits ? `(${waits}) ` : ''}${status?.file ?? 'yt'} · ${route()[0]}`;
  at('me').textContent = me() || saidName();
}
function viewLink(name, count) {
  const current = name === route()[0] ? 'page' : null;
  const words = [name[0].toUpperCase() + name.slice(1), count ? [' ', make('span.count', null, count)] : null];
  return make('a', {href: '#' + name, 'data-key': 'view ' + name, 'aria-current': current}, words);
}

async function show() {
  const [name, argument] = route();
  const mine = VIEWS[name].open(argument);
  view = mine;
  drawHeader();
  at('main').replaceChildren(mine.node);
  scrollTo(0, 0);
  await attempt(() => mine.update());
}

// ---- what is new ----

let busy = null;
let again = false;
/** Learns what is new and shows it. A call while another one is at work is done after it. */
function refresh(thorough) {
  again = Boolean(busy);
  busy ??= refreshAll(thorough).finally(() => { busy = null; });
  return busy;
}
async function refreshAll(thorough) {
  do {
    again = false;
    await look(thorough);
  } while (again);
}

async function look(thorough) {
  if (!link.up) return;
  const missing = workspace.missing;
  try {
    const news = await learn(thorough);
    if (news?.first || news?.renamed) showWho();
    if (news) await showNews(news);
  } catch (error) {
    if (!error.reply?.missing) throw error;
    if (!view || !missing) await show();
    showWho();
  }
}

async function showNews(news) {
  if (news.replaced) message('replaced', [make('b', null, 'The workspace was folded, or is another file now.')]);
  tellOthers(news.records.filter(r => r.curator !== me()));
  drawHeader();
  if (!view || news.first || news.replaced) await show();
  else await view.update(news);
  if (detailsOpen()) await updateDetails();
}

function tellOthers(records) {
  if (!records.length) return;
  const names = [...new Set(records.map(r => r.curator))].join(', ');
  const [first] = records[0].lines;
  const more = records.reduce((sum, r) => sum + r.count, -1);
  const number = first.number ? first.number + ' ' : '';
  const rest = more ? `, and ${plural(more, 'more line')}` : '';
  message('others', [make('b', null, names + ': '), number, showLine(first.line), rest]);
}

let polls = 0;
async function poll() {
  polls++;
  if (!document.hidden || polls % HIDDEN === 0) {
    try {
      await refresh(polls % THOROUGH === 0);
      if (link.up) banner();
    } catch (error) {
      tellTrouble(error);
    }
  }
  setTimeout(poll, POLL);
}
function tellTrouble(error) {
  if (!error.reply) console.error(error);
  else if (!error.reply.lost) banner(faultBox(error.reply));
}

// ---- the connection ----

function drawState() {
  const state = at('state');
  const words = !link.up ? 'not connected' : link.waited > SLOW ? 'working …' : 'connected';
  if (state.textContent !== words) state.textContent = words;
  state.className = link.up ? 'up' : 'down';
  document.body.classList.toggle('off', !link.up);
  if (link.up && link.waited > STUCK) {
    const words = make('b', null, `yt has not replied for ${Math.floor(link.waited)} seconds. `);
    banner(words, 'It may be busy with something large. ', button('Connect again', () => link.reopen(), 'again'));
  }
}

function tellLost() {
  banner(make('b', null, 'The connection is lost. '),
    'What you see may be old, and nothing can be changed until it is back. It is tried again by itself. ',
    button('Try now', () => link.reopen(), 'try-now'));
}

async function connected() {
  banner();
  await refresh(true);
  await tellPending();
}

link.onchange = () => {
  drawState();
  if (link.up) attempt(connected);
  else tellLost();
};
link.onfault = object => {
  if (object.reply === 'fault') banner(faultBox(object));
};

// ---- what is pressed ----

/** Opens the details of what was pressed: an unknown, a row or an update. The focus goes back to it afterwards. */
function openPressed(event) {
  const from = event.target.closest('[data-unknown], [data-row], [data-update]');
  if (!from || from.closest('#dialog')) return;
  if (from.tagName === 'TR' && (getSelection().toString() || event.target.closest('button'))) return;
  const {unknown, row, update, key} = from.dataset;
  const what = unknown ? {unknown} : update ? {update} : {row};
  attempt(() => openDetails({...what, from: key ?? 'open ' + row}));
}
document.addEventListener('click', openPressed);
document.addEventListener('keydown', event => {
  if (event.key === 'Escape' && detailsOpen() && !at('dialog').open) closeDetails();
});
addEventListener('hashchange', () => {
  if (detailsOpen()) closeDetails();
  show();
});
addEventListener('online', () => {
  if (!link.up) link.reopen();
});
document.addEventListener('visibilitychange', () => {
  if (!document.hidden) refresh().catch(tellTrouble);
});
for (const type of ['dragover', 'drop']) addEventListener(type, event => event.preventDefault());

afterChanges(refresh);
setInterval(drawState, 1000);
link.open(saidName());
setTimeout(poll, POLL);
