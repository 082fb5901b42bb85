// The view of tables: the rows of one, by pages, with a filter, and what can be done with them.
import {mark} from '../details.js';
import {attempt, cancelButton, openDialog} from '../dialogs.js';
import {actions, button, fill, listed, make, openButton, plural, showValue, soft} from '../elements.js';
import {askOne} from '../link.js';
import {fileInput, loadFile} from '../load.js';
import {addRow, keyMark} from '../row-form.js';
import {saveButton} from '../saving.js';
import {changeKey, firstSteps, newTable} from '../table-forms.js';
import {plainText, quoted, rowText} from '../values.js';
import {workspace} from '../workspace.js';

const PAGE = 50;        // rows of a page
const SORTABLE = 2000;  // rows that the page sorts by itself; yt shows them in its own order
const TYPING = 150;     // milliseconds after the last key before the filter is sent

const kept = new Map();  // how each table was looked at last

export function open(argument) {
  const names = make('nav.tables', {'aria-label': 'Tables'});
  const body = make('section');
  let name = argument;
  let view;
  const update = async news => {
    if (!workspace.table(name)) {
      name = workspace.tables[0]?.name;
      view = undefined;
    }
    fill(names, workspace.tables.map(t => tableLink(t, t.name === name)), newTableButton());
    if (!name) return fill(body, firstSteps());
    if (!view) {
      view = new TableView(name);
      body.replaceChildren(view.node);
    }
    return view.update(news);
  };
  return {node: make('div.split', null, names, body), update};
}

function tableLink({name, count}, current) {
  const properties = {href: '#tables/' + name, 'data-key': 'table ' + name, 'aria-current': current ? 'page' : null};
  return make('a', properties, name, soft(count.toLocaleString('en')));
}
const newTableButton = () => button('New table …', () => attempt(newTable), 'new-table', 'link');

// ---- one table ----

const letters = new Intl.Collator('en', {numeric: true});
const rank = v => typeof v === 'string' ? 1 : typeof v === 'object' ? 2 : 0;
/** Numbers first, then texts, then unknowns. */
function compare(a, b) {
  if (rank(a) !== rank(b)) return rank(a) - rank(b);
  return rank(a) === 0 ? Number(a > b) - Number(a < b) : letters.compare(plainText(a), plainText(b));
}

class TableView {
  #turn = 0;     // of the last drawing that was begun
  #all;          // all rows that are meant, if the page sorts them: {options, reply}
  #drawn = '';   // how the table was looked at when it was drawn last, and the rows that it had then
  #texts = [];
  #timer;

  constructor(name) {
    this.name = name;
    this.look = kept.get(name) ?? {like: '', unknowns: false, page: 0, sort: -1, down: false};
    kept.set(name, this.look);
    this.file = fileInput('csv', f => this.#load(f));
    this.bar = make('div.bar');
    this.pages = make('div.pages');
    this.rows = make('div');
    this.filter = make('input', {
      type: 'search', 'data-key': 'filter', value: this.look.like, maxlength: 80, placeholder: 'Filter',
      'aria-label': `Filter ${name}`, oninput: () => this.#filterLater(),
    });
    const unknowns = make('input', {
      type: 'checkbox', checked: this.look.unknowns,
      onchange: event => this.#lookAt({unknowns: event.target.checked, page: 0}),
    });
    const only = make('label.check', null, unknowns, 'only rows with unknowns');
    const look = make('div.bar', null, this.filter, only, space(), this.pages);
    this.node = make('section.drop', {'aria-label': name}, this.bar, look, this.rows);
    this.#takeDrops();
  }

  async update(news) {
    if (!news || news.replaced || news.records.some(r => r.tables.includes(this.name))) this.#all = undefined;
    this.#drawBar();
    await this.#draw();
  }

  #load(file) {
    attempt(() => loadFile(file, workspace.table(this.name)));
  }
  #takeDrops() {
    const over = is => event => {
      event.preventDefault();
      this.node.classList.toggle('over', is);
    };
    this.node.addEventListener('dragover', over(true));
    this.node.addEventListener('dragleave', over(false));
    this.node.addEventListener('drop', over(false));
    this.node.addEventListener('drop', event => {
      const file = event.dataTransfer.files[0];
      if (file) this.#load(file);
    });
  }

  #lookAt(change) {
    Object.assign(this.look, change);
    attempt(() => this.#draw());
  }
  #filterLater() {
    clearTimeout(this.#timer);
    this.#timer = setTimeout(() => this.#lookAt({like: this.filter.value.trim(), page: 0}), TYPING);
  }

  /** The rows that are shown: a page from yt, or a part of all of them if the page sorts. */
  async #read() {
    const {like, unknowns, page, sort, down} = this.look;
    const options = (like ? ' --like ' + quoted(like) : '') + (unknowns ? ' --unknowns' : '');
    if (sort < 0) return askOne(`show ${this.name} --from ${page * PAGE + 1} --limit ${PAGE}${options}`);
    if (this.#all?.options !== options) {
      this.#all = {options, reply: await askOne(`show ${this.name} --limit ${SORTABLE}${options}`)};
    }
    const {reply} = this.#all;
    const rows = reply.rows.toSorted((a, b) => compare(a[sort], b[sort]) * (down ? -1 : 1));
    return {...reply, rows: rows.slice(page * PAGE, (page + 1) * PAGE)};
  }

  /** The rows that are shown. A page beyond the last, or a sort of too many rows, is mended first. */
  async #readShown() {
    const found = await this.#read();
    const count = found.count ?? 0;
    const last = Math.max(0, Math.ceil(count / PAGE) - 1);
    const sorted = this.look.sort >= 0 && count > SORTABLE;
    if (!sorted && this.look.page <= last) return found;
    if (sorted) this.look.sort = -1;
    this.look.page = Math.min(this.look.page, last);
    return this.#read();
  }

  async #draw() {
    const turn = ++this.#turn;
    const found = await this.#readShown();
    if (turn !== this.#turn) return;
    const texts = found.rows.map(r => rowText(this.name, r));
    const look = JSON.stringify(this.look);
    const before = this.#drawn === look ? new Set(this.#texts) : null;
    this.#drawn = look;
    this.#texts = texts;
    fill(this.rows, waitingRows(found.waiting ?? []), this.#table(found, texts, before));
    fill(this.pages, this.#pager(found.rows.length, found.count ?? 0));
    mark();
  }

  #drawBar() {
    const table = workspace.table(this.name);
    fill(this.bar, make('h2', null, this.name), soft(plural(table.count, 'row')), space(),
      button('Add a row', () => attempt(() => addRow(table)), 'add', 'main'),
      button('Load a file …', () => this.file.click(), 'load'), this.file,
      saveButton('Export', `export ${this.name}`, `${this.name}.csv`, 'export'),
      button('Key …', () => attempt(() => changeKey(table)), 'key'));
  }

  #table(found, texts, before) {
    const {columns, key} = workspace.table(this.name);
    const head = columns.map((c, i) => this.#heading(c, i, key.includes(i + 1), found.count));
    const fresh = text => before && !before.has(text) ? 'fresh' : null;
    const row = (values, i) => make('tr', {'data-row': texts[i], class: fresh(texts[i])},
      values.map(v => make('td', null, showValue(v))), make('td.end', null, openButton(texts[i])));
    const table = make('table.rows', null, make('caption.away', null, this.name),
      make('thead', null, make('tr', null, head, make('th', {scope: 'col'}, make('span.away', null, 'Open')))),
      make('tbody', {onkeydown: arrows}, found.rows.map(row)));
    return [make('div.wide', null, table), found.rows.length ? null : this.#empty()];
  }
  #empty() {
    const filtered = this.look.like || this.look.unknowns;
    return make('p.soft.empty', null,
      filtered ? 'No row has that.' : 'No rows yet. Add one, or drop a file of comma-separated values here.');
  }
  #heading(column, i, isKey, count) {
    const {sort, down} = this.look;
    const order = sort !== i ? 'none' : down ? 'descending' : 'ascending';
    const arrow = {none: '', descending: ' ▼', ascending: ' ▲'}[order];
    const words = [column, isKey ? keyMark() : null, arrow];
    const sortButton = button(words, () => this.#sortBy(i, count), 'sort ' + i, 'sort');
    return make('th', {scope: 'col', 'aria-sort': order}, sortButton);
  }

  #sortBy(column, count) {
    const {sort, down} = this.look;
    if (count > SORTABLE) tooManyToSort(count);
    else if (sort === column && down) this.#lookAt({sort: -1});
    else this.#lookAt({sort: column, down: sort === column});
  }

  #pager(shown, count) {
    const {page} = this.look;
    const last = Math.ceil(count / PAGE) - 1;
    const [from, to, all] = [page * PAGE + 1, page * PAGE + shown, count].map(n => n.toLocaleString('en'));
    const words = shown ? `${from} to ${to} of ${all}` : 'none';
    const step = (sign, title, goal) => button(sign, () => this.#lookAt({page: goal}), 'page ' + title, '',
      {'aria-label': title, title, disabled: goal === page || goal < 0 || goal > last});
    const steps = [step('«', 'First rows', 0), step('‹', 'Rows before', page - 1)];
    steps.push(step('›', 'Next rows', page + 1), step('»', 'Last rows', last));
    return [make('span', {role: 'status'}, words), last > 0 ? steps : null];
  }
}

const space = () => make('span.space');

function tooManyToSort(count) {
  const most = SORTABLE.toLocaleString('en');
  openDialog('Too many rows to sort', [
    make('p', null, `The page sorts ${most} rows at most, and there are ${count.toLocaleString('en')}. `,
      'They stand in the order of their first column. Filter them first.'),
    actions(cancelButton('Close')),
  ]);
}

function waitingRows(numbers) {
  if (!numbers.length) return null;
  const links = numbers.slice(0, 20).map(n => make('a', {href: '#inbox/' + n}, n));
  const words = numbers.length === 1 ? 'A change of this table waits for an answer' : 'Changes of this table wait for answers';
  return make('p.asks', null, words, ': ', listed(links), numbers.length > 20 ? ` and ${numbers.length - 20} more` : '');
}

// The arrow keys go from row to row.
function arrows(event) {
  const next = {ArrowDown: 'nextElementSibling', ArrowUp: 'previousElementSibling'}[event.key];
  const row = next && event.target.closest('tr')[next];
  if (!row) return;
  event.preventDefault();
  row.querySelector('.open').focus();
}
