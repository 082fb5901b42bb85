// The editor of patterns, `Painting(t, p), Painter(p, c)`: for each one a table, and a field for each of its columns.
// `ask` and new mappings are made with it.
import {button, labelFor, make, soft} from './elements.js';
import {kindOf, patternTerm, termText} from './values.js';
import {workspace} from './workspace.js';

const MOST = 8;  // patterns of a side
const HELP = 'Each field begins with a variable, named after its column. The same variable in two fields stands for the same ' +
  'value. For a value write a number, or a text between quotes: "Vermeer". Leave a field empty for any value.';

/** What the page says about a term, below its field. */
function termKind(term) {
  if (term.any) return 'any value';
  if (term.variable) return 'a variable';
  return term.value.fresh === undefined ? kindOf(term.value) : 'new unknowns stand in no pattern';
}

/**
 * An editor: {node, text(), patterns()}.
 * - `id`: distinguishes its fields. `words(i)`: in front of the pattern i.
 * - `changed`: called at each change. `first`: the number of the table that it begins with.
 */
export function patternEditor(id, words, changed, first = 0) {
  const patterns = [];
  const place = make('div');
  const add = button('Add another table', () => more(), id + '-add', 'link');
  const node = make('div.patterns', null, place, add);
  const draw = () => {
    place.replaceChildren(...patterns.map((p, i) => p.node(words(i), patterns.length > 1 ? () => remove(i) : null)));
    add.hidden = patterns.length >= MOST;
    if (node.isConnected) changed();
  };
  const remove = i => {
    patterns.splice(i, 1);
    draw();
  };
  const more = () => {
    const table = workspace.tables[(first + patterns.length) % workspace.tables.length];
    patterns.push(patternFields(`${id}-${counter++}`, table.name, draw, changed));
    draw();
  };
  more();
  const all = () => patterns.map(p => p.pattern());
  const text = () => all().map(p => `${p.table}(${p.terms.map(termText).join(', ')})`).join(', ');
  return {node, patterns: all, text};
}
let counter = 0;

/** The fields of one pattern. `redraw` when it has another table, `changed` when a field has another text. */
function patternFields(id, table, redraw, changed) {
  const options = workspace.tables.map(t => make('option', null, t.name));
  const select = make('select', {
    id, 'data-key': id, onchange: () => {
      fields = fieldsOf(select.value);
      redraw();
    },
  }, options);
  select.value = table;
  const fieldsOf = name => workspace.table(name).columns.map((column, i) => termField(`${id}-${i}`, column, changed));
  let fields = fieldsOf(table);
  const node = (words, remove) => {
    const cross = remove && button('×', remove, id + '-remove', 'open', {'aria-label': `Take ${select.value} away`});
    const head = make('div.pattern-table', null, labelFor(id, words), select, cross);
    return make('div.pattern', null, head, fields.map(f => f.node));
  };
  return {node, pattern: () => ({table: select.value, terms: fields.map(f => patternTerm(f.input.value))})};
}

/** A field for one term. It begins with a variable that is named after the column. */
function termField(id, column, changed) {
  const kind = make('span.kind.soft');
  const tell = () => { kind.textContent = termKind(patternTerm(input.value)); };
  const input = make('input', {
    type: 'text', id, autocomplete: 'off', spellcheck: 'false', value: column, oninput: () => {
      tell();
      changed();
    },
  });
  tell();
  return {input, node: make('div.term', null, labelFor(id, column), input, kind)};
}

/** The variables of patterns, by first place. */
export function variablesOf(patterns) {
  return [...new Set(patterns.flatMap(p => p.terms.map(t => t.variable)).filter(Boolean))];
}

/** How the fields of an editor are read, for the person who fills them. */
export function howToFill() {
  return make('p', null, soft(HELP));
}
