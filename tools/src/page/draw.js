'use strict';
// Requests and constraints as a picture: a column for each loader, a row for each name. What is drawn was handed over; nothing is decided.

const BOX = [160, 40], STEP = [236, 76], EDGE = 52, LANE = 20;

function el(tag, attributes, ...children) {
  return filled(document.createElement(tag), attributes, children);
}

function svg(tag, attributes, ...children) {
  return filled(document.createElementNS('http://www.w3.org/2000/svg', tag), attributes, children);
}

function filled(node, attributes, children) {
  for (const [name, value] of Object.entries(attributes || {})) node.setAttribute(name, value);
  for (const child of children.flat()) if (child !== null && child !== undefined) node.append(child);
  return node;
}

function once(all) {
  return [...new Set(all)];
}

// The rows of a picture: [cells, age, label] of entries (loader, name, class, definer), ties and subtype constraints.
function drawn(rows) {
  const key = (loader, name) => loader * 65536 + name;
  const requests = once([...rows.entries.map(row => key(row.cells[0], row.cells[1])),
    ...rows.ties.flatMap(({ cells: [one, other, name] }) => [key(one, name), key(other, name)]),
    ...rows.subtypes.flatMap(({ cells: [loader, low, high] }) => [key(loader, high), key(loader, low)])]);
  const loaders = once(requests.map(request => Math.floor(request / 65536))).sort((a, b) => a - b);
  const grid = { loaders, names: stacked(once(requests.map(request => request % 65536)), rows.subtypes), arcs: [] };
  lanes(grid, rows.ties);
  const width = EDGE * 2 + STEP[0] * loaders.length - (STEP[0] - BOX[0]);
  const height = topOf(grid, grid.names[grid.names.length - 1]) + BOX[1] + 16;
  const picture = svg('svg', { viewBox: `0 0 ${width} ${height}`, width, role: 'img', 'aria-label': 'Requests and constraints' }, patterns());
  picture.style.minWidth = `${Math.round(width * 0.66)}px`;
  for (const loader of loaders) picture.append(text(leftOf(grid, loader) + BOX[0] / 2, 16, 'loader', L.loaders[loader] || `loader ${loader}`));
  rows.ties.forEach(row => tie(picture, grid, row));
  rows.subtypes.forEach((row, place) => subtype(picture, grid, row, place));
  for (const request of requests) box(picture, grid, Math.floor(request / 65536), request % 65536, rows.entries);
  return el('div', { class: 'picture' }, picture);
}

function patterns() {
  const one = (path, place) => svg('pattern', { id: `p${place}`, width: 12, height: 12, patternUnits: 'userSpaceOnUse' },
    svg('path', { d: path, stroke: '#000', 'stroke-opacity': 0.3, 'stroke-width': 1.4, fill: 'none' }));
  return svg('defs', {}, L.patterns.map(one));
}

// Names from the top: what a subtype constraint puts above stands above.
function stacked(names, subtypes) {
  for (let round = 0; round < names.length; round++) {
    for (const { cells: [, low, high] } of subtypes) {
      const [a, b] = [names.indexOf(low), names.indexOf(high)];
      if (a >= 0 && a < b) names.splice(a, 0, ...names.splice(b, 1));
    }
  }
  return names;
}

function columns(grid, [one, other]) {
  return [grid.loaders.indexOf(one), grid.loaders.indexOf(other)].sort((a, b) => a - b);
}

// A tie between columns that aren't neighbours goes above its row, in a lane of its own.
function lanes(grid, ties) {
  const far = ties.map(row => ({ cells: row.cells, columns: columns(grid, row.cells), name: row.cells[2] })).filter(row => row.columns[1] - row.columns[0] > 1);
  far.sort((a, b) => a.columns[1] - a.columns[0] - (b.columns[1] - b.columns[0]));
  for (const row of far) {
    let lane = 0;
    while (grid.arcs.some(arc => arc.lane === lane && arc.name === row.name && row.columns[0] <= arc.columns[1] && arc.columns[0] <= row.columns[1])) lane++;
    grid.arcs.push({ ...row, lane });
  }
}

function lanesOf(grid, name) {
  return Math.max(0, ...grid.arcs.filter(arc => arc.name === name).map(arc => arc.lane + 1));
}

function leftOf(grid, loader) {
  return EDGE + STEP[0] * grid.loaders.indexOf(loader);
}

function topOf(grid, name) {
  const place = grid.names.indexOf(name);
  return 30 + STEP[1] * place + grid.names.slice(0, place + 1).reduce((sum, above) => sum + LANE * lanesOf(grid, above), 0);
}

function text(x, y, kind, said, anchor = 'middle') {
  return svg('text', { x, y, class: kind, 'text-anchor': anchor }, said);
}

function tie(picture, grid, { cells, age, label }) {
  const [from, to] = columns(grid, cells), y = topOf(grid, cells[2]), arc = grid.arcs.find(arc => arc.cells === cells);
  const [begin, end] = [EDGE + STEP[0] * from, EDGE + STEP[0] * to];
  let path = `M${begin + BOX[0]} ${y + 20}H${end}`, at = [(begin + BOX[0] + end) / 2, y + 15];
  if (arc) {
    const shift = 24 + 18 * arc.lane, high = y - 14 - LANE * arc.lane, [a, b] = [begin + BOX[0] - shift, end + shift];
    path = `M${a} ${y}V${high + 6}Q${a} ${high} ${a + 6} ${high}H${b - 6}Q${b} ${high} ${b} ${high + 6}V${y}`;
    at = [(a + b) / 2, high - 4];
  }
  picture.append(svg('path', { d: path, class: `row ${age}` }), text(at[0], at[1], `label ${age}`, label));
}

function subtype(picture, grid, { cells: [loader, low, high], age, label }, place) {
  const x = leftOf(grid, loader), [from, to] = [topOf(grid, low), topOf(grid, high)], middle = x + BOX[0] / 2;
  const beside = grid.names.indexOf(low) - grid.names.indexOf(high) !== 1, shift = 4 * (place % 4);
  const [y1, y2, out] = [from + 20 + shift, to + 20 - shift, x - 26 - 10 * (place % 4)];
  const path = beside ? `M${x} ${y1}C${out} ${y1} ${out} ${y2} ${x - 8} ${y2}` : `M${middle} ${from}L${middle} ${to + BOX[1] + 8}`;
  const head = beside ? `M${x} ${y2}l-10 -5v10z` : `M${middle} ${to + BOX[1]}l-5 10h10z`;
  const at = beside ? [x - 12, (y1 + y2) / 2 + 4 - 13 * (place % 4), 'end'] : [middle + 8, to + BOX[1] + 22, 'start'];
  picture.append(svg('path', { d: path, class: `row ${age}` }), svg('path', { d: head, class: `head ${age}` }), text(at[0], at[1], `label ${age}`, label, at[2]));
}

// A request: dashed if nothing is loaded for it. Boxes of one colour and pattern mean one class.
function box(picture, grid, loader, name, entries) {
  const [x, y] = [leftOf(grid, loader), topOf(grid, name)], entry = entries.find(row => row.cells[0] === loader && row.cells[1] === name);
  const shape = { x, y, width: BOX[0], height: BOX[1], rx: 7 };
  const age = entry ? entry.age : 'unloaded', isFilled = entry && age !== 'refused';
  const said = entry ? `class ${entry.cells[2]} of ${L.loaders[entry.cells[3]]}${entry.label}` : 'not loaded';
  const called = L.names[name] || String(name), group = svg('g', {}, svg('title', {}, `${called} under ${L.loaders[loader]}: ${said}`));
  if (isFilled) {
    const place = entry.cells[2] - 1, colour = place < 0 ? '#e8e8e8' : L.colours[place % L.colours.length],
      pattern = place < 0 ? 0 : Math.floor(place / L.colours.length) % L.patterns.length;
    group.append(svg('rect', { ...shape, class: 'fill', fill: colour }));
    if (pattern) group.append(svg('rect', { ...shape, class: 'fill', fill: `url(#p${pattern})` }));
  }
  const outline = svg('rect', { ...shape, class: `box ${age}` });
  if (isFilled) outline.style.fill = 'none';
  const on = isFilled ? 'on' : '', short = called.length > 19 ? called.slice(0, 17) + '..' : called, name2 = text(x + BOX[0] / 2, y + 17, on, short);
  name2.setAttribute('font-weight', 'bold');
  group.append(outline, name2, text(x + BOX[0] / 2, y + 33, `small ${on}`, said));
  picture.append(group);
}
