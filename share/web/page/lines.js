// Lines of the log, and mappings, in the words of the page.
import {code, listed, make, showValue, soft} from './elements.js';
import {readAtoms, readMapping, tokens} from './values.js';

const CUT = 4;  // rows of a line that are shown

/** A line of the log: `add Hangs A · Room 1`. A line without words of its own stays as it is. */
export function showLine(line) {
  const [verb, ...rest] = tokens(line);
  return make('span.line', null, (verb?.name && inWords(verb.name, rest, line)) ?? code(line, 300));
}

function inWords(verb, rest, line) {
  const name = rest[0]?.name && make('b', null, rest[0].name);
  if (verb === 'answer') return answerInWords(rest);
  if (verb === 'insert' || verb === 'delete') return rowsInWords(verb === 'insert' ? 'add ' : 'delete ', rest);
  if (verb === 'replace') return replacementInWords(rest);
  if (/^(undo|redo|fold)$/.test(verb)) return line;
  return name ? ofNameInWords(verb, name, rest, line) : null;
}

function ofNameInWords(verb, name, rest, line) {
  const values = readAtoms(rest).atoms.map(rowOf)[0]?.slice(1);
  switch (verb) {
    case 'relation': return ['make table ', name, ' ', soft(line.slice(line.indexOf('(')))];
    case 'mapping': return ['declare mapping ', name, ': ', code(line.slice(line.indexOf(':') + 2))];
    case 'force': return ['put mapping ', name, ' in force'];
    case 'drop': return ['drop mapping ', name];
    case 'adopt': return ['repair what violates ', name];
    case 'load': return ['load a file into ', name];
    case 'fix': return values ? ['repair ', name, ' for ', values] : null;
    default: return null;
  }
}

/** A row as parts of a line; undefined if it is no row. */
function rowOf({table, terms}) {
  const values = terms.map(t => t.value);
  if (values.includes(undefined)) return undefined;
  const parts = values.map((v, i) => [i ? make('span.dot', null, ' · ') : ' ', showValue(v, true)]);
  return [make('b', null, table), ...parts];
}
function rowsInWords(verb, rest) {
  const rows = readAtoms(rest).atoms.map(rowOf);
  return rows.length && !rows.includes(undefined) ? [verb, cut(rows)] : null;
}
const cut = rows => [listed(rows.slice(0, CUT)), rows.length > CUT ? `, and ${rows.length - CUT} more` : ''];

function replacementInWords(rest) {
  const [old, , value] = rest;
  if (old?.value && value) return ['fill in ', showValue(old.value, true), ' with ', showValue(value.value ?? '', true)];
  const {atoms: [from], rest: after} = readAtoms(rest);
  const {atoms: [to]} = readAtoms(after.slice(1));
  const rows = [from, to].map(a => a && rowOf(a));
  return rows.includes(undefined) ? null : ['change ', rows[0], ' to ', rows[1]];
}

function answerInWords([number, choice, ...rest]) {
  const said = `answer ${number?.value ?? ''}: `;
  const rows = readAtoms(rest).atoms.map(rowOf);
  if (choice?.name === 'expand') return [said, 'none of them, a new one'];
  if (choice?.name === 'go') return [said, 'try again'];
  if (!rows.length || rows.includes(undefined)) return null;
  if (choice?.name === 'unify') return [said, 'it is ', rows[0]];
  return choice?.name === 'delete' ? [said, cut(rows), rows.length > 1 ? ' go' : ' goes'] : null;
}

/** A mapping in words. A variable that occurs only once says nothing, and is left out. */
export function mappingInWords(rule, columnsOf) {
  const {left, right} = readMapping(rule);
  const names = [...left, ...right].flatMap(a => a.terms.map(t => t.name));
  const tells = term => !term.name || names.filter(n => n === term.name).length > 1;
  const shown = term => term.name ? make('var', null, term.name) : showValue(term.value ?? '', true);
  const words = article => ({table, terms}) => {
    const columns = columnsOf(table);
    const said = terms.flatMap((t, i) => tells(t) ? [[columns[i] ?? `column ${i + 1}`, ' ', shown(t)]] : []);
    return [article, make('b', null, table), said.length ? [' with ', listed(said)] : ''];
  };
  const [every, some] = [left.map(words('every ')), right.map(words('a '))];
  return make('span.words', null, 'For ', listed(every), ' there has to be ', listed(some), '.');
}
