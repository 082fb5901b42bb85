// The view of mappings: a picture of them, what each says, and how a new one is made.
import {propose} from '../changes.js';
import {attempt, cancelButton, openDialog} from '../dialogs.js';
import {actions, badge, button, code, fill, labelFor, make, plural, soft} from '../elements.js';
import {mappingInWords} from '../lines.js';
import {link} from '../link.js';
import {howToFill, patternEditor, variablesOf} from '../patterns.js';
import {picture} from '../picture.js';
import {NAME} from '../table-forms.js';
import {columnsOf, workspace} from '../workspace.js';
import {adoptButton} from './violations.js';

const WHAT = 'A mapping says what has to be there when something else is. One in force always holds: what a change breaks is ' +
  'repaired, and if there is more than one way, it asks.';
const UNRELATED = ' Write the same variable on both sides, else any row will do.';
const DROP = 'The mapping goes, and what it made stays. Its name is free again after a fold.';

export function open() {
  const graph = make('div');
  const list = make('div');
  const add = button('New mapping …', () => attempt(newMapping), 'new-mapping', 'main');
  const bar = make('div.bar', null, make('h2', null, 'Mappings'), make('span.space'), add);
  const update = async () => {
    const all = (await link.ask('violations --limit 1')).filter(v => v.mapping);
    const region = {tabindex: 0, role: 'region', 'aria-label': 'Picture of the mappings'};
    fill(graph, all.length ? make('div.wide.picture', region, picture(workspace.tables, all)) : null);
    fill(list, all.length ? all.map(card) : make('p.soft.empty', null, 'No mappings yet.'));
  };
  return {node: make('section', null, bar, make('p.soft', null, WHAT), graph, list), update};
}

function card({mapping, rule, count, in_force: inForce}) {
  const drop = () => attempt(() => propose('drop ' + mapping, {title: `Drop ${mapping}`, verb: 'Drop', before: DROP}));
  return make('article.card', null,
    make('h3', null, mapping, ' ', inForce ? badge('in force', 'stands') : badge('proposed', 'waits')),
    make('p', null, mappingInWords(rule, columnsOf)),
    make('p', null, code(rule)),
    inForce ? null : make('p', null, whyProposed(count)),
    actions(inForce ? null : adoptButton(mapping), button('Drop …', drop, 'drop ' + mapping)));
}
function whyProposed(count) {
  if (!count) return 'It has no violation, and can be put in force.';
  return ['It has ', make('a', {href: '#violations'}, plural(count, 'violation')), ', so it is not in force.'];
}

// ---- a new one ----

function newMapping() {
  const none = [make('p', null, 'A mapping speaks of tables, and there are none yet.'), actions(cancelButton('Close'))];
  if (!workspace.tables.length) return openDialog('New mapping', none);
  const name = make('input', {id: 'mapping-name', required: true, ...NAME, oninput: () => changed()});
  const words = make('p', {role: 'status'});
  const line = make('p');
  const left = patternEditor('left', i => i ? 'and every' : 'For every', () => changed());
  const right = patternEditor('right', i => i ? 'and a' : 'there has to be a', () => changed(), 1);
  const rule = () => `${name.value.trim() || 'name'}: ${left.text()} -> ${right.text()}`;
  const changed = () => {
    fill(words, mappingInWords(rule(), columnsOf), shared(left, right) ? null : soft(UNRELATED));
    fill(line, code(rule()));
  };
  const submit = event => {
    event.preventDefault();
    attempt(() => propose('mapping ' + rule(), {title: `New mapping ${name.value}`, verb: 'Declare it'}), form);
  };
  const form = make('form', {onsubmit: submit}, make('div.field', null, labelFor(name.id, 'Name'), name), howToFill(),
    left.node, right.node, words, line, actions(cancelButton(), make('button.main', null, 'Check …')));
  openDialog('New mapping', [form], {focus: name});
  return changed();
}
/** Whether a variable stands on both sides. */
function shared(left, right) {
  const known = variablesOf(left.patterns());
  return variablesOf(right.patterns()).some(v => known.includes(v));
}
