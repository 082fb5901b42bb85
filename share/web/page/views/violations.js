// The view of violations: what each proposed mapping lacks, with what repairs it, and rows that share a key.
import {propose} from '../changes.js';
import {attempt} from '../dialogs.js';
import {actions, badge, button, code, fill, make, showRow, showRows, soft} from '../elements.js';
import {mappingInWords} from '../lines.js';
import {link} from '../link.js';
import {columnsOf} from '../workspace.js';

const SHOWN = 20;  // violations of a mapping that are shown

export function open() {
  const place = make('div');
  const update = async () => {
    const found = (await link.ask(`violations --limit ${SHOWN}`)).filter(v => v.count > 0);
    const none = make('p.soft.empty', null, 'None: every mapping holds, and no key stands twice.');
    fill(place, found.length ? found.map(v => v.mapping ? mappingCard(v) : keyCard(v)) : none);
  };
  return {node: make('section', null, make('h2', null, 'Violations'), place), update};
}

function mappingCard({mapping, rule, count, violations}) {
  return make('article.card', null,
    make('h3', null, mapping, ' ', badge('proposed', 'waits')),
    make('p', null, mappingInWords(rule, columnsOf)),
    make('ul.plain', null, violations.slice(0, SHOWN).map(violation)),
    more(count), actions(adoptButton(mapping)));
}
function violation({since, lacks}) {
  const options = {title: 'Add what is lacking', verb: 'Add'};
  const add = () => attempt(() => propose('insert ' + lacks.join(', '), options));
  return make('li', null, since.map(r => showRow(r)), soft(' lacks '), showRows(lacks, true), ' ',
    button('Add it …', add, 'add ' + lacks, 'link'));
}

function keyCard({key, count, violations}) {
  const clash = ({since}) => make('li', null, since.map(r => [showRow(r), ' ']));
  return make('article.card', null,
    make('h3', null, 'One key, several rows: ', code(key)),
    make('ul.plain', null, violations.slice(0, SHOWN).map(clash)), more(count));
}

const more = count => count > SHOWN ? make('p', null, soft(`and ${(count - SHOWN).toLocaleString('en')} more`)) : null;

/** A button that repairs the violations of a mapping and puts it in force, with a preview. */
export function adoptButton(mapping) {
  const options = {title: `Repair all and put ${mapping} in force`, verb: 'Repair'};
  const adopt = () => attempt(() => propose('adopt ' + mapping, options));
  return button('Repair all and put it in force …', adopt, 'adopt ' + mapping);
}
