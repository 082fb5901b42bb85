// The inbox: a card for each update that waits.
import {attempt} from '../dialogs.js';
import {button, fill, make, plural} from '../elements.js';
import {QuestionCard} from '../question-card.js';
import {workspace} from '../workspace.js';

const CARDS = 10;  // that are shown at first

const cards = new Map();  // by the number of the update; they are kept while another view is shown
let most = CARDS;

export function open(argument) {
  const place = make('div');
  const update = () => draw(place, Number(argument), update);
  return {node: make('section', null, make('h2', null, 'Inbox'), place), update};
}

/** Draws the cards. `wanted` is the number of the one that stands first. */
async function draw(place, wanted, redraw) {
  const numbers = (workspace.status?.waits ?? []).map(w => w.number);
  const order = numbers.includes(wanted) ? [wanted, ...numbers.filter(n => n !== wanted)] : numbers;
  const shown = order.slice(0, most);
  for (const n of shown) {
    if (!cards.has(n)) cards.set(n, new QuestionCard(n, () => cards.delete(n), redraw));
    await cards.get(n).update();
  }
  for (const [n, card] of cards) if (!numbers.includes(n) && !card.gone()) cards.delete(n);
  const gone = [...cards].filter(([n]) => !numbers.includes(n)).map(([, card]) => card.node);
  const more = () => {
    most += CARDS;
    attempt(redraw);
  };
  fill(place, headline(numbers.length, gone.length), gone, shown.map(n => cards.get(n)?.node),
    order.length > most ? button(`Show more: ${order.length - most} not shown`, more, 'more-cards', 'link') : null);
}

function headline(waiting, gone) {
  const some = `${plural(waiting, 'change waits', 'changes wait')} for an answer. Nothing of a change is done before.`;
  const none = gone ? '' : 'No questions: nothing waits for an answer.';
  return make('p.soft', null, waiting ? some : none);
}
