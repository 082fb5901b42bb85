// Saving what yt sends as a file on this computer.
import {attempt} from './dialogs.js';
import {button, make} from './elements.js';
import {askOne} from './link.js';

/** A button that saves the text of a reply under a name. */
export function saveButton(words, line, name, key) {
  return button(words, () => attempt(async () => save((await askOne(line)).text, name)), key);
}
function save(text, name) {
  const href = URL.createObjectURL(new Blob([text], {type: 'text/plain;charset=utf-8'}));
  const link = make('a', {href, download: name});
  link.click();
  setTimeout(() => URL.revokeObjectURL(href), 1000);
}
