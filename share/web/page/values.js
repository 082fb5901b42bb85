// Values, rows and mappings in the text of yt. Text is read by tokens, so that nothing inside quotes can pass for
// syntax, and written so that yt reads the same back. Nothing here touches the page.
//
// A value is a number (a BigInt beyond 2^53), a text, {unknown: '?8.1'}, or {fresh: 'x'} for a new unknown.

const CONTROL = /[\u0000-\u001f\u007f-\u009f\u061c\u200e\u200f\u2028-\u202e\u2066-\u2069]/u;
const ESCAPES = {'"': '\\"', '\\': '\\\\', '\n': '\\n'};
const TOKEN = /\s*(?:("(?:[^"\\]|\\.)*")|(\?[0-9]+\.[0-9]+)|(\?\w*)|(-?[0-9]+)|([A-Za-z_]\w*)|(->|.))/suy;
const LONGEST = 256;  // bytes of a text
const TOO_LONG = `too long: a text has ${LONGEST} bytes at most`;

export const isUnknown = value => typeof value === 'object' && Boolean(value.unknown);
const bytesOf = text => new TextEncoder().encode(text).length;

/** Whether yt would take this text of a cell for a number. */
export function looksLikeNumber(text) {
  return /^(0|-?[1-9][0-9]*)$/.test(text) && BigInt(text) >= -(2n ** 63n) && BigInt(text) < 2n ** 63n;
}

/** A text between quotes, as yt prints it. */
export function quoted(text) {
  const spelled = c => ESCAPES[c] ?? (CONTROL.test(c) ? `\\u{${c.codePointAt(0).toString(16)}}` : c);
  return `"${Array.from(text, spelled).join('')}"`;
}

/** A value as a command takes it. */
export function valueText(value) {
  if (typeof value === 'string') return quoted(value);
  return typeof value === 'object' ? value.unknown ?? '?' + value.fresh : String(value);
}

/** A value without quotes, for sorting and for lists of suggestions. */
export const plainText = value => typeof value === 'string' ? value : valueText(value);

/** A row as a command takes it: `Painter("Vermeer", "NL")`. */
export const rowText = (table, values) => `${table}(${values.map(valueText).join(', ')})`;

// ---- reading ----

function unescaped(text) {
  return text.replace(/\\(?:u\{([0-9a-f]+)\}|(.))/giu, (_, hex, c) =>
    hex ? String.fromCodePoint(parseInt(hex, 16)) : c === 'n' ? '\n' : c);
}
const numberOf = digits => Number.isSafeInteger(Number(digits)) ? Number(digits) : BigInt(digits);

/** The tokens of a text: {value}, {name} or {sign}. */
export function tokens(text) {
  const found = [];
  TOKEN.lastIndex = 0;
  for (let m; TOKEN.lastIndex < text.length && (m = TOKEN.exec(text));) {
    if (m[1]) found.push({value: unescaped(m[1].slice(1, -1))});
    else if (m[2]) found.push({value: {unknown: m[2]}});
    else if (m[3]) found.push({value: {fresh: m[3].slice(1)}});
    else if (m[4]) found.push({value: numberOf(m[4])});
    else found.push(m[5] ? {name: m[5]} : {sign: m[6]});
  }
  return found;
}

/** The atoms `T(..), U(..)` that a list of tokens begins with, and the tokens after them. */
export function readAtoms(list) {
  const atoms = [];
  let i = 0;
  while (list[i]?.name && list[i + 1]?.sign === '(') {
    const atom = {table: list[i].name, terms: []};
    for (i += 2; list[i] && list[i].sign !== ')'; i++) if (list[i].sign !== ',') atom.terms.push(list[i]);
    atoms.push(atom);
    i++;
    if (list[i]?.sign !== ',') break;
    i++;
  }
  return {atoms, rest: list.slice(i)};
}

/** `Painter("Vermeer", "NL")` as {table, values}; undefined if the text is no row. */
export function readRow(text) {
  const atom = readAtoms(tokens(text)).atoms[0];
  return atom && {table: atom.table, values: atom.terms.map(t => t.value)};
}

/** `hung: Hangs(t, r) -> Painting(t, p)` as {name, left, right}. */
export function readMapping(rule) {
  const [name, , ...list] = tokens(rule), left = readAtoms(list);
  return {name: name.name, left: left.atoms, right: readAtoms(left.rest.slice(1)).atoms};
}

// ---- what a person types into a field ----

/** The value of a field: as `load` reads a cell, but empty is a new unknown, and quotes make anything a text. */
export function typed(text) {
  const s = text.trim();
  if (s === '') return {fresh: ''};
  if (/^\?[0-9]+\.[0-9]+$/.test(s)) return {unknown: s};
  if (/^\?[A-Za-z_]\w*$/.test(s)) return {fresh: s.slice(1)};
  if (looksLikeNumber(s)) return BigInt(s);
  return s.length > 1 && s.startsWith('"') && s.endsWith('"') ? s.slice(1, -1) : s;
}

/** The text of a field that `typed` reads back as this value. */
export function fieldText(value) {
  if (typeof value !== 'string') return valueText(value);
  const plain = value !== '' && value === value.trim() && !/^[?"]/.test(value) && !looksLikeNumber(value);
  return plain ? value : `"${value}"`;
}

/** What the page says about a typed value, below its field. */
export function kindOf(value) {
  if (typeof value === 'bigint' || typeof value === 'number') return 'a number';
  if (typeof value === 'string') return bytesOf(value) > LONGEST ? TOO_LONG : 'a text';
  if (value.unknown) return 'an unknown that is there';
  return value.fresh ? `a new unknown, the same in every field with ?${value.fresh}` : 'not known yet';
}

/** A term of a pattern: empty is any value, a word is a variable, and everything else a value. */
export function patternTerm(text) {
  const s = text.trim();
  if (s === '' || s === '_') return {any: true};
  return /^[A-Za-z]\w*$/.test(s) ? {variable: s} : {value: typed(s)};
}
export const termText = t => t.any ? '_' : t.variable ?? valueText(t.value);

// ---- numbers of updates ----

/** Numbers as `undo` takes them: `3..5, 9`. */
export function ranges(numbers) {
  const runs = [];
  for (const n of [...new Set(numbers)].sort((a, b) => a - b)) {
    const last = runs.at(-1);
    if (last && last[1] === n - 1) last[1] = n; else runs.push([n, n]);
  }
  return runs.map(([a, b]) => a === b ? `${a}` : `${a}..${b}`).join(', ');
}
