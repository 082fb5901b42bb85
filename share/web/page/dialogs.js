// The dialog, the messages at the edge of the page, and how faults are shown.
import {button, fill, focusOn, make, showText} from './elements.js';

const dialog = document.getElementById('dialog');
const messages = document.getElementById('messages');
let opener;      // the key of the element that had the focus before the dialog
let whenClosed;

/** Shows a dialog, or puts another content into the one that is open. `closed` is called when it closes. */
export function openDialog(title, body, {focus, closed} = {}) {
  if (!dialog.open) opener = document.activeElement?.dataset.key;
  whenClosed = closed;
  dialog.replaceChildren(make('h2', {id: 'dialog-title'}, title), ...body.flat(9).filter(Boolean));
  if (!dialog.open) dialog.showModal();
  focus?.focus();
}
export const closeDialog = () => dialog.close();
export const cancelButton = (words = 'Cancel') => button(words, closeDialog, 'cancel');
dialog.addEventListener('close', () => {
  if (opener) focusOn(opener);
  const f = whenClosed;
  whenClosed = undefined;
  f?.();
});

/** A fault of yt: what is wrong, where, and what to do. */
export function faultBox({words, faults = [], hint, line}) {
  const more = faults.length > 20 ? make('li', null, `and ${faults.length - 20} more`) : null;
  return make('div.fault', {role: 'alert'}, make('b', null, showText(words)),
    faults.length ? make('ul', null, faults.slice(0, 20).map(f => make('li', null, showText(f))), more) : null,
    hint ? make('div', null, showText(hint)) : null);
}

/** Shows what went wrong in this place, instead of what went wrong there before. */
export function showFault(error, place) {
  if (!error.reply) console.error(error);
  place.querySelector(':scope > .fault')?.remove();
  place.append(faultBox(error.reply ?? {words: 'The page has a fault: ' + error.message}));
}

/** Runs the action of a button. If it is refused, the fault is shown: in the dialog if one is open, else in this place. */
export async function attempt(work, place = document.getElementById('main')) {
  try {
    await work();
  } catch (error) {
    if (!error.reply?.lost) showFault(error, dialog.open ? dialog : place);
  }
}

/**
 * A message at the edge of the page, which goes by itself, but not while it has the focus or the pointer. A new one takes
 * the place of the last one of its kind.
 */
export function message(kind, words, action) {
  messages.querySelector(`.message.${kind}`)?.remove();
  const box = make('div.message.' + kind, null, make('div', null, words), action,
    button('×', () => box.remove(), undefined, 'close', {'aria-label': 'Close this message'}));
  const end = () => box.matches(':hover, :focus-within') ? setTimeout(end, 3000) : box.remove();
  messages.append(box);
  setTimeout(end, action ? 20000 : 8000);
}

/** Shows a line across the page that says what is wrong with all of it; without words there is no line. */
export function banner(...words) {
  const place = document.getElementById('banner');
  place.hidden = !words.length;
  fill(place, words);
}
