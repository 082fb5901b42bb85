// What the page knows about the workspace, and how it learns what is new: it asks for the records of the log after the
// last one that it has seen, and for the status if there are any.
import {Fault, askOne, link} from './link.js';

const MANY = 100;      // records asked for at once

export const workspace = {
  at: -1,            // the last record that was seen; -1 before the first status
  status: null,      // the last reply to `status`
  missing: false,    // whether there is no file yet
  records: [],       // the last records that came while the page was open, oldest first
  get tables() { return this.status?.relations ?? []; },
  table(name) { return this.tables.find(t => t.name === name); },
};
export const columnsOf = name => workspace.table(name)?.columns ?? [];
/** The curator whose name yt writes for this page. */
export const me = () => workspace.status?.curator ?? '';

async function newRecords() {
  const found = [];
  for (let at = workspace.at; found.length < 10 * MANY; at = found.at(-1).at) {
    const reply = (await link.ask(`log --since ${at} --limit ${MANY}`)).filter(r => r.count > 0);
    found.push(...reply);
    if (reply.length < MANY) break;
  }
  return found;
}

function forget() {
  Object.assign(workspace, {at: -1, status: null, records: []});
}

/**
 * Brings this up to date. Resolves to undefined if nothing is new, else to the new `records` and to what else is new:
 * `first` at the first time, `replaced` after a fold or if there is another file, `renamed` if yt writes another name.
 * `thorough`: the status is asked for also if there is no new record.
 */
export async function learn(thorough) {
  const before = workspace.status;
  let records = [], unread = workspace.at < 0;      // whether the records since then cannot be had
  if (!unread) {
    try {
      records = await newRecords();
    } catch (error) {
      if (error.reply?.status !== 3) throw error;
      unread = true;
    }
    if (!unread && !records.length && !thorough) return undefined;
  }
  const status = await statusNow(), news = {records, first: !before};
  news.replaced = Boolean(before) && (status.created !== before.created || status.folded !== before.folded || unread);
  news.renamed = status.curator !== before?.curator;
  if (status.created !== before?.created) forget();
  workspace.missing = false;
  workspace.status = status;
  // What was recorded between the two replies comes with the next ones.
  workspace.at = unread || news.replaced || !records.length ? status.at : records.at(-1).at;
  workspace.records = [...workspace.records, ...records].slice(-300);
  return records.length || news.first || news.replaced || news.renamed ? news : undefined;
}

async function statusNow() {
  try {
    return await askOne('status');
  } catch (error) {
    if (error.reply?.status !== 3) throw error;
    forget();
    workspace.missing = true;
    throw new Fault({...error.reply, missing: true});
  }
}

/** The records after `at` that this curator wrote, among the first `limit`. */
export async function myRecords(at, limit) {
  return (await link.ask(`log --since ${at} --limit ${limit}`)).filter(r => r.count > 0 && r.curator === me());
}
