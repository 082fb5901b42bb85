// The picture of the mappings: tables are boxes, mappings are rounded. An arrow goes from each table of the left side to
// the mapping, and on to each table of its right side.
import {make, soft} from './elements.js';
import {readMapping} from './values.js';

const LETTER = 8.4, HIGH = 30, GAP = 46, BETWEEN = 60, BEND = 34;  // in pixels

function svg(tag, attributes, ...kids) {
  const element = document.createElementNS('http://www.w3.org/2000/svg', tag);
  for (const [key, value] of Object.entries(attributes)) element.setAttribute(key, value);
  element.append(...kids);
  return element;
}

/** The picture of these tables and mappings, and the tables that no mapping mentions. */
export function picture(tables, mappings) {
  const {nodes, edges} = graphOf(tables, mappings);
  const used = new Set(edges.flatMap(e => [e.from, e.to]));
  const alone = [...nodes.values()].filter(n => !used.has(n));
  const drawn = [...nodes.values()].filter(n => used.has(n));
  rank(drawn, edges);
  const {wide, high} = place(drawn);
  const properties = {
    width: wide, height: high, viewBox: `0 0 ${wide} ${high}`, role: 'group',
    'aria-label': 'Tables and the mappings between them',
  };
  const names = alone.map(n => n.name).join(', ');
  return [
    svg('svg', properties, arrowhead(), ...edges.map(e => arrow(e, high)), ...drawn.map(box)),
    alone.length ? make('p', null, soft(`No mapping speaks of ${names}.`)) : null,
  ];
}

/** Nodes by key, and edges {from, to, proposed}. */
function graphOf(tables, mappings) {
  const nodes = new Map();
  const edges = [];
  const add = (key, node) => nodes.set(key, {out: [], into: 0, rank: 0, ...node}).get(key);
  for (const {name} of tables) add('table ' + name, {name});
  for (const {mapping, rule, in_force: inForce} of mappings.toSorted((a, b) => b.in_force - a.in_force)) {
    const proposed = !inForce;
    const node = add('mapping ' + mapping, {name: mapping, mapping: true, proposed});
    const {left, right} = readMapping(rule);
    for (const t of new Set(left.map(a => a.table))) edges.push({from: nodes.get('table ' + t), to: node, proposed});
    for (const t of new Set(right.map(a => a.table))) edges.push({from: node, to: nodes.get('table ' + t), proposed});
  }
  return {nodes, edges};
}

// ---- where the nodes stand ----

/** Whether a path leads from one node to another. */
function leads(from, to, seen = new Set()) {
  if (from === to) return true;
  if (seen.has(from)) return false;
  seen.add(from);
  return from.out.some(n => leads(n, to, seen));
}

/** Gives each node the length of the longest path to it. An edge that would close a cycle runs back, and is left out. */
function rank(nodes, edges) {
  for (const {from, to} of edges) {
    if (leads(to, from)) continue;
    from.out.push(to);
    to.into++;
  }
  const push = (node, least) => {
    if (least < node.rank) return;
    node.rank = least;
    for (const next of node.out) push(next, least + 1);
  };
  const first = nodes.filter(n => !n.into);
  for (const n of first) push(n, 0);
  for (const n of first) if (n.out.length) n.rank = Math.min(...n.out.map(next => next.rank)) - 1;
}

/** Places the nodes in columns, by rank; returns the width and the height. */
function place(nodes) {
  const ranks = [...new Set(nodes.map(n => n.rank))].sort((a, b) => a - b);
  const columns = ranks.map(r => nodes.filter(n => n.rank === r));
  let x = BETWEEN / 2;
  let high = 0;
  for (const column of columns) {
    column.forEach((n, i) => Object.assign(n, {x, y: 10 + GAP * i, width: 24 + LETTER * n.name.length}));
    high = Math.max(high, 10 + GAP * column.length);
    x += Math.max(...column.map(n => n.width)) + BETWEEN;
  }
  return {wide: x - BETWEEN / 2, high: high + 20};
}

// ---- how they look ----

function arrowhead() {
  const size = {viewBox: '0 0 8 8', refX: 8, refY: 4, markerWidth: 7, markerHeight: 7, orient: 'auto'};
  return svg('marker', {id: 'tip', ...size}, svg('path', {d: 'M0 0L8 4L0 8z', class: 'tip'}));
}
function arrow({from, to, proposed}, high) {
  const d = to.x > from.x ? ahead(from, to) : back(from, to, high - 8);
  return svg('path', {class: 'edge' + (proposed ? ' proposed' : ''), 'marker-end': 'url(#tip)', d});
}
function ahead(from, to) {
  const [x, y, end] = [from.x + from.width, from.y + HIGH / 2, to.y + HIGH / 2];
  return `M${x} ${y}C${x + BEND} ${y} ${to.x - BEND} ${end} ${to.x} ${end}`;
}
// Below all boxes.
function back(from, to, low) {
  const [x, end] = [from.x + from.width / 2, to.y + HIGH / 2];
  const [left, bend] = [to.x + 10, to.x - 40];
  return `M${x} ${from.y + HIGH}Q${x} ${low} ${from.x - 20} ${low}L${left} ${low}C${bend} ${low} ${bend} ${end} ${to.x} ${end}`;
}

function box({name, x, y, width, mapping, proposed}) {
  const kind = mapping ? 'mapping' + (proposed ? ' proposed' : '') : 'table';
  const shape = svg('rect', {x, y, width, height: HIGH, rx: mapping ? HIGH / 2 : 3, class: kind});
  const words = svg('text', {x: x + width / 2, y: y + 20, 'text-anchor': 'middle'}, name);
  const link = {href: '#tables/' + name, 'aria-label': 'Table ' + name};
  return mapping ? svg('g', {}, shape, words) : svg('a', link, shape, words);
}
