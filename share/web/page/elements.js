// Elements of the page, and how values and rows look in it. Text goes only into text nodes, never through a parser of
// HTML.
import {isUnknown, looksLikeNumber, readRow, valueText} from './values.js';

const HIDDEN = /[\u0000-\u001f\u007f-\u009f\u00ad\u061c\u200b-\u200f\u2028-\u202e\u2060-\u2069\ufeff]/u;
// The names that are set as properties of an element; all others are attributes.
const PROPERTIES = new Set([
  'value', 'checked', 'disabled', 'hidden', 'onclick', 'onchange', 'oninput', 'onsubmit', 'onkeydown', 'ontoggle',
]);

const children = kids => kids.flat(9).filter(k => k !== null && k !== undefined && k !== false);

/** An element: `make('div.card', {id: 'x', onclick: f}, 'text', make('b', null, 'more'))`. */
export function make(tag, properties, ...kids) {
  const [name, ...classes] = tag.split('.'), element = document.createElement(name);
  if (classes.length) element.className = classes.join(' ');
  for (const [key, value] of Object.entries(properties ?? {})) {
    if (PROPERTIES.has(key)) element[key] = value ?? (key === 'value' ? '' : null);
    else if (value !== undefined && value !== null && value !== false) element.setAttribute(key, value === true ? '' : value);
  }
  element.append(...children(kids));
  return element;
}

// Nodes that stay where they are are not touched: a press that is under way on one of them would be lost.
function replaceChildren(place, kids) {
  const stay = new Set(kids);
  for (const old of [...place.childNodes]) if (!stay.has(old)) old.remove();
  let next = place.firstChild;
  for (const kid of kids) {
    if (kid === next) next = next.nextSibling;
    else place.insertBefore(kid instanceof Node ? kid : document.createTextNode(kid), next);
  }
}

/**
 * Puts these into a place instead of what it has. The focus, and the selection in a field, stay with the element that has
 * the same key.
 */
export function fill(place, ...kids) {
  const held = place.contains(document.activeElement) ? document.activeElement : null, key = held?.dataset.key;
  const selection = held && /^(text|search)$/.test(held.type) ? [held.selectionStart, held.selectionEnd] : null;
  replaceChildren(place, children(kids));
  const next = key && focusOn(key, place);
  if (next && selection) next.setSelectionRange(...selection);
}
/** Gives the focus to the element of a key, if it is there. */
export function focusOn(key, place = document) {
  const element = place.querySelector(`[data-key="${CSS.escape(key)}"]`);
  element?.focus({preventScroll: true});
  return element;
}

/** A button. Its key lets the focus find it after the part of the page around it was made again. */
export function button(words, onclick, key, kind = '', more = {}) {
  return make('button' + (kind && '.' + kind), {type: 'button', 'data-key': key, onclick, ...more}, words);
}
/** The label of a field. */
export const labelFor = (id, ...words) => make('label', {for: id}, words);
export const actions = (...kids) => make('div.actions', null, kids);
export const plural = (n, one, many = one + 's') => `${n.toLocaleString('en')} ${n === 1 ? one : many}`;
export const badge = (words, kind) => make('span.badge.' + kind, null, words);
export const code = (text, limit = 600) => make('code', null, showText(text, limit));
export const soft = (...words) => make('span.soft', null, words);
/** A list in words: `a, b and c`. */
export const listed = items => items.map((x, i) => [i === 0 ? '' : i === items.length - 1 ? ' and ' : ', ', x]);

/** When something was, in words, with the exact time on the pointer. */
export function ago(time) {
  const s = Math.round((Date.now() - Date.parse(time)) / 1000);
  const words = () => {
    if (s < 60) return 'just now';
    if (s < 3600) return `${Math.floor(s / 60)} min ago`;
    return s < 86400 ? `${Math.floor(s / 3600)} h ago` : time.slice(0, 10);
  };
  return make('time', {datetime: time, title: time}, words());
}

// ---- values and rows ----

function hidden(c) {
  const name = 'U+' + c.codePointAt(0).toString(16).toUpperCase().padStart(4, '0');
  return make('span.hidden', {title: 'a character that does not show'}, name);
}

/** A text, cut at a limit. Characters that do not show, or that change the direction, are shown by their numbers. */
export function showText(text, limit = 300) {
  const all = Array.from(text), parts = [];
  if (text === '') parts.push(make('span.soft', {title: 'the empty text'}, '""'));
  for (const c of all.slice(0, limit)) {
    if (c === '\n') parts.push(make('span.soft', {title: 'a new line'}, '↵'), '\n');
    else if (HIDDEN.test(c)) parts.push(hidden(c));
    else if (typeof parts.at(-1) === 'string') parts.push(parts.pop() + c);
    else parts.push(c);
  }
  if (all.length > limit) parts.push(soft(' …'));
  if (text !== text.trim()) parts.push(soft(' (with blanks)'));
  return make('bdi.text', null, parts);
}

/** A value. An unknown is a chip to press, which tells where it stands, unless it is part of something else (`flat`). */
export function showValue(value, flat) {
  if (typeof value === 'string') {
    const quotes = looksLikeNumber(value) || /^\?[0-9]+\.[0-9]+$/.test(value);
    return quotes ? make('span', {title: 'a text, not a number'}, '"', showText(value), '"') : showText(value);
  }
  if (isUnknown(value) && !flat) {
    return make('button.chip', {type: 'button', 'data-unknown': value.unknown, 'data-key': 'unknown ' + value.unknown,
      'aria-label': `Unknown ${value.unknown.slice(1)}: see where it stands, fill it in`,
      title: 'not known yet: see where it stands, fill it in'}, value.unknown);
  }
  return make(typeof value === 'object' ? 'span.chip' : 'span.number', null, valueText(value));
}

/** A row: its table, its values, and a button that opens it (none if `flat`). */
export function showRow(text, flat) {
  const row = readRow(text);
  if (!row || row.values.includes(undefined)) return code(text);
  const values = row.values.map((v, i) => [i ? make('span.dot', null, ' · ') : ' ', showValue(v, flat)]);
  return make('span.row', null, make('b', null, row.table), values, flat ? null : openButton(text));
}
export const openButton = text => make('button.open', {type: 'button', 'data-row': text, 'data-key': 'open ' + text,
  'aria-label': 'Open ' + text}, '›');
export const showRows = (rows, flat, most = 8) => [listed(rows.slice(0, most).map(r => showRow(r, flat))),
  rows.length > most ? ` and ${rows.length - most} more` : ''];
