// Who works here: the name that is kept in this browser, or the name of a login, which comes first and cannot be changed here.
import {openDialog} from './dialogs.js';
import {actions, make} from './elements.js';
import {link} from './link.js';
import {me} from './workspace.js';

const NAMELESS = 'someone';  // the name that is written if none was given
const HELP = 'Letters, digits and _. It is written beside each change that you make, and kept in this browser. ' +
  'It is a label and proves nothing.';
const place = document.getElementById('me');

/** The name that was given in this browser, or nothing. */
export const saidName = () => localStorage.getItem('yt-name') ?? '';

/** Shows the name, and asks for one if none is known. */
export function showWho() {
  const login = me() !== '' && me() !== (saidName() || NAMELESS);
  place.textContent = me() || saidName();
  place.disabled = login;
  place.title = login ? 'The name of your login' : 'Change the name under which you work';
  if (!saidName() && !login) askName();
}

function askName() {
  const field = make('input', {
    id: 'name', type: 'text', value: saidName(), required: true, autocomplete: 'username', maxlength: 40,
    pattern: '[A-Za-z][A-Za-z0-9_]*', 'aria-describedby': 'name-help',
  });
  const submit = event => {
    event.preventDefault();
    localStorage.setItem('yt-name', field.value);
    document.getElementById('dialog').close();
    link.open(field.value);
  };
  const label = make('label', {for: 'name'}, 'Your name');
  const help = make('p.soft', {id: 'name-help'}, HELP);
  const go = actions(make('button.main', null, 'Work under this name'));
  const form = make('form', {onsubmit: submit}, make('p', null, label), field, help, go);
  openDialog('Who are you?', [form], {focus: field, closed: () => saidName() || askName()});
}
place.onclick = askName;
