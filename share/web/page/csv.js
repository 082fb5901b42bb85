// Comma-separated values, as far as the page looks at them before yt reads them: the separator, and the first rows.

const SEPARATORS = [',', ';', '\t'];

/** The text of a file, and how it was read: UTF-8, or Windows-1252 if it is not UTF-8. */
export function textOf(bytes) {
  try {
    return {text: new TextDecoder('utf-8', {fatal: true}).decode(bytes), encoding: 'UTF-8'};
  } catch {
    return {text: new TextDecoder('windows-1252').decode(bytes), encoding: 'Windows-1252'};
  }
}

/** The first rows of a file, as lists of cells. */
export function readCsv(text, separator, most) {
  const rows = [];
  let cells = [], cell = '', inside = false;
  const endRow = () => {
    cells.push(cell.replace(/\r$/, ''));
    if (cells.length > 1 || cells[0] !== '') rows.push(cells);
    cells = [];
    cell = '';
  };
  for (let i = 0; i < text.length && rows.length < most; i++) {
    const c = text[i];
    if (inside && c === '"' && text[i + 1] === '"') { cell += '"'; i++; }
    else if (c === '"' && (inside || cell === '')) inside = !inside;
    else if (inside) cell += c;
    else if (c === separator) { cells.push(cell); cell = ''; }
    else if (c === '\n') endRow();
    else cell += c;
  }
  if (rows.length < most && (cell || cells.length)) endRow();
  return rows;
}

/** The separator that is most frequent in the first line. */
export function separatorOf(text) {
  const line = text.split('\n', 1)[0].replace(/"[^"]*"/g, '');
  const count = s => line.split(s).length;
  return SEPARATORS.reduce((best, s) => count(s) > count(best) ? s : best);
}

/** The number of lines for `load --lines`, and the text without the line feed at its end. */
export function linesOf(text) {
  const rows = text.replace(/\n$/, '');
  return {rows, count: rows.split('\n').length};
}
