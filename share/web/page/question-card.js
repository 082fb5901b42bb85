// The card of an update that waits: its question, its candidates, and what can be answered.
import {bringUpToDate, doNow, propose} from './changes.js';
import {openDetails} from './details.js';
import {attempt, showFault} from './dialogs.js';
import {questionInWords, showWrite} from './effects.js';
import {
  actions, ago, button, code, fill, labelFor, make, plural, showRow, showRows, showText, showValue, soft,
} from './elements.js';
import {mappingInWords, showLine} from './lines.js';
import {askOne} from './link.js';
import {quoted, readRow} from './values.js';
import {columnsOf, workspace} from './workspace.js';

const CANDIDATES = 50;  // that are asked for at once
const FEW = 8;          // candidates that need no filter
const NONE = 'none of them: a new one, with what is not known yet left open';
const TYPING = 150;     // milliseconds after the last key before the filter is sent

/** The identity of a question, as far as the page has seen its candidates. */
const identity = q => JSON.stringify([q.kind, q.mapping, q.wanted, q.count, q.candidates]);

export class QuestionCard {
  #question;               // as it is shown, its candidates filtered
  #identity;               // of the question that the choice is made on
  #drawn = '';             // what the card showed when it was drawn last
  #picked = new Set();     // numbers of candidates
  #none = false;           // whether none of them is chosen
  #at = 0;                 // the record after which what is chosen was seen
  #stale = false;          // whether the question changed after something was chosen
  #refused = false;        // whether an answer was refused
  #like = '';
  #limit = CANDIDATES;
  #turn;
  #timer;
  #candidates = make('div');
  #buttons = make('div');
  #soFarOpen = false;

  /** `forget` takes the card away; `redraw` draws the inbox. */
  constructor(number, forget, redraw) {
    this.number = number;
    this.forget = forget;
    this.redraw = redraw;
    this.node = make('article.card', {id: 'question-' + number});
  }

  get #chosen() { return this.#none || this.#picked.size > 0; }
  #clear() {
    this.#picked.clear();
    this.#none = this.#stale = this.#refused = false;
  }

  // ---- the question ----

  #ask(like, limit) {
    return askOne(`questions ${this.number} --limit ${limit}${like ? ' --like ' + quoted(like) : ''}`);
  }

  /** Reads the question as it is now. A choice that was made on another question is no longer sent. */
  async update() {
    let now;
    try {
      now = await this.#ask('', CANDIDATES);
    } catch (error) {
      if (error.reply?.status === 3) return;  // it no longer waits: the next status shows it
      throw error;
    }
    if (this.#identity && this.#identity !== identity(now) && this.#chosen) this.#stale = true;
    if (!this.#stale) {
      this.#identity = identity(now);
      this.#question = this.#like || this.#limit > CANDIDATES ? await this.#ask(this.#like, this.#limit) : now;
    }
    this.#drawIfNew();
  }

  // A card that would look the same stays, so that no press on it is lost.
  #drawIfNew() {
    const when = this.#question.time && ago(this.#question.time).textContent;
    const looks = JSON.stringify([{...this.#question, at: 0}, this.#stale, when]);
    if (looks === this.#drawn) return;
    this.#drawn = looks;
    this.#draw();
  }

  async #filter() {
    const turn = this.#turn = {};
    const found = await this.#ask(this.#like, this.#limit);
    if (turn !== this.#turn || !found.candidates) return;
    this.#question = found;
    this.#drawCandidates();
  }
  #filterLater(text) {
    this.#like = text.trim();
    clearTimeout(this.#timer);
    this.#timer = setTimeout(() => attempt(() => this.#filter(), this.node), TYPING);
  }

  // ---- what is shown ----

  #draw() {
    const q = this.#question;
    this.node.className = 'card';
    const wants = [q.curator, ' wants to ', showLine(q.line)];
    const head = make('h3', null, soft(`${q.number} · `), wants, ' ', soft('· ', ago(q.time)));
    if (!q.candidates) {
      const waits = make('p', null, 'It waits: ', showText(q.words ?? q.kind), '.');
      return fill(this.node, head, waits, actions(this.#tryAgain(), this.#withdraw()));
    }
    const since = q.since.length ? [' There is ', showRows(q.since, true), '.'] : null;
    const why = make('p.why', null, 'Why: ', mappingInWords(q.rule, columnsOf), since);
    fill(this.node, head, make('p.ask', null, questionInWords(q)), why, this.#candidates, this.#soFar(q), this.#buttons);
    return this.#drawCandidates();
  }

  #soFar(q) {
    const details = make('details', {open: this.#soFarOpen, ontoggle: () => { this.#soFarOpen = details.open; }},
      make('summary', {'data-key': 'so far ' + this.number}, 'What it would do before it asks'),
      make('p', null, code(q.rule)), make('ul.effect', null, q.so_far.slice(0, 20).map(showWrite)));
    return details;
  }

  #drawCandidates() {
    const q = this.#question;
    const left = (q.fit ?? q.count) - q.candidates.length;
    const more = button(`Show more: ${left.toLocaleString('en')} not shown`, () => this.#more(), 'more ' + this.number, 'link');
    const none = make('label.check.none', null, this.#choice(null), NONE);
    fill(this.#candidates, make('fieldset', {disabled: this.#stale}, make('legend.away', null, `Candidates of ${this.number}`),
      q.count > FEW ? this.#search(q) : null, make('div.wide', null, this.#table(q.candidates)), left > 0 ? more : null,
      q.kind === 'positive' ? none : null));
    this.#drawButtons();
  }
  #more() {
    this.#limit *= 4;
    attempt(() => this.#filter(), this.node);
  }
  #search(q) {
    const field = make('input', {
      type: 'search', 'data-key': 'like ' + this.number, value: this.#like, maxlength: 80,
      placeholder: `Filter ${plural(q.count, 'candidate')}`, 'aria-label': `Filter the candidates of ${this.number}`,
      oninput: () => this.#filterLater(field.value),
    });
    const found = this.#like ? `${(q.fit ?? q.count).toLocaleString('en')} found` : '';
    return make('div.bar', null, field, make('span.soft', {role: 'status'}, found));
  }

  // Rows of one table stand in its columns, other ones as they are.
  #table(candidates) {
    const rows = candidates.map(c => readRow(c.tuple));
    const table = rows[0]?.table;
    const alike = rows.every(r => r.table === table);
    const label = (c, ...words) => make('td', null, labelFor(this.#id(c), words));
    const cells = (c, i) => alike ? rows[i].values.map(v => label(c, showValue(v, true))) : label(c, showRow(c.tuple, true));
    const head = [make('th', null, make('span.away', null, 'Choose')), columnsOf(table).map(c => make('th', {scope: 'col'}, c))];
    return make('table.candidates', null, alike && table ? make('thead', null, make('tr', null, head)) : null,
      make('tbody', null, candidates.map((c, i) => make('tr', null, make('td', null, this.#choice(c)), cells(c, i)))));
  }

  // ---- choosing ----

  #id(candidate) { return candidate ? `candidate-${this.number}-${candidate.number}` : `none-${this.number}`; }

  /** The button or box that chooses a candidate, or none of them. */
  #choice(candidate) {
    return make('input', {
      type: this.#question.kind === 'positive' ? 'radio' : 'checkbox', name: 'question-' + this.number,
      id: this.#id(candidate), 'data-key': this.#id(candidate), 'aria-label': candidate ? candidate.tuple : 'none of them',
      checked: candidate ? this.#picked.has(candidate.number) : this.#none,
      onchange: event => this.#choose(candidate, event.target.checked),
    });
  }
  #choose(candidate, checked) {
    const {kind, at} = this.#question;
    if (kind === 'positive') this.#clear();
    this.#at = this.#chosen ? Math.min(this.#at, at) : at;
    if (!candidate) this.#none = checked;
    else if (checked) this.#picked.add(candidate.number);
    else this.#picked.delete(candidate.number);
    this.#drawButtons();
  }

  // ---- answering ----

  #command() {
    const numbers = [...this.#picked].sort((a, b) => a - b).join(', ');
    return `answer ${this.number} ${this.#none ? 'new' : numbers} --at ${this.#at}`;
  }
  #propose(line, title, verb, before) {
    return attempt(() => propose(line, {title: `${title} ${this.number}`, verb, before, done: this.forget}), this.node);
  }
  async #send() {
    try {
      await doNow(this.#command(), this.#at, {done: this.forget});
    } catch (error) {
      this.#refused = true;  // then the card stays, and shows who was faster
      await bringUpToDate();
      if (!this.#stale && !this.node.classList.contains('gone')) showFault(error, this.node);
    }
  }

  #drawButtons() {
    const disabled = this.#stale || !this.#chosen;
    const look = () => this.#propose(this.#command(), 'Answer', 'Answer');
    fill(this.#buttons, this.#stale ? this.#warning() : null,
      actions(button('Answer', () => this.#send(), 'answer ' + this.number, 'main', {disabled}),
        button('What would happen?', look, 'preview ' + this.number, '', {disabled}), this.#withdraw()));
  }
  #warning() {
    const show = async () => {
      this.#clear();
      await this.update();
    };
    return make('p.warning', {role: 'alert'}, 'This question has changed since you looked. ',
      button('Show it as it is now', () => attempt(show, this.node), 'now ' + this.number));
  }
  #withdraw() {
    const before = 'The change is taken back, as if it had never been said:';
    const withdraw = () => this.#propose(`undo ${this.number}`, 'Withdraw', 'Withdraw', before);
    return button('Withdraw …', withdraw, 'withdraw ' + this.number);
  }
  #tryAgain() {
    const again = () => this.#propose(`answer ${this.number} go`, 'Try again', 'Try again');
    return button('Try it again', again, 'again ' + this.number);
  }

  // ---- afterwards ----

  /** Called when the update no longer waits. Returns whether the card stays, because something was chosen on it. */
  gone() {
    if (!this.#chosen && !this.#refused) return false;
    const about = line => line.startsWith(`answer ${this.number} `) || /^(undo|redo) /.test(line);
    const by = workspace.records.findLast(r => r.lines.some(l => about(l.line)));
    const said = by?.lines.filter(l => about(l.line)).map(l => showLine(l.line));
    const close = () => {
      this.forget();
      attempt(this.redraw);
    };
    const look = () => attempt(() => openDetails({update: this.number, from: 'fine ' + this.number}));
    this.#drawn = '';
    this.node.className = 'card gone';
    fill(this.node, make('h3', {role: 'status'}, `${this.number} waits no longer; your answer was not sent`),
      by ? make('p', null, make('b', null, by.curator), ' was faster: ', said) : null,
      actions(button('Fine', close, 'fine ' + this.number), button('Look at it', look, 'look ' + this.number)));
    return true;
  }
}
