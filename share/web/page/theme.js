// Light, dark, or as the system has it; the choice is kept in the browser.
import {fill, make} from './elements.js';

const NEXT = new Map([['auto', 'dark'], ['dark', 'light'], ['light', 'auto']]);
const SIGNS = {auto: '◐ ', dark: '● ', light: '○ '};
const place = document.getElementById('theme');

const theme = () => localStorage.getItem('yt-theme') ?? 'auto';

function draw() {
  const root = document.documentElement;
  if (theme() === 'auto') delete root.dataset.theme;
  else root.dataset.theme = theme();
  fill(place, make('span', {'aria-hidden': 'true'}, SIGNS[theme()]), theme());
  place.title = `Light or dark: ${theme()}`;
}

place.onclick = () => {
  localStorage.setItem('yt-theme', NEXT.get(theme()));
  draw();
};
draw();
