// The page: one slot of calls at a time. What it shows is a function of where it is, what was picked and what was seen.

const L = JSON.parse(document.getElementById('lesson').textContent);
const id = name => document.getElementById(name);
const END = L.slots.length + 1;
const KINDS = [['request', 'Requests'], ['tie', 'Ties'], ['subtype', 'Subtype constraints'], ['class', 'Classes'], ['object', 'Objects']];
const state = { at: 0, picks: {}, seen: {}, before: false };

// ---- the store at a call: the changes from the boot on, one after another

function storeAt(step) {
  const path = [];
  for (let at = step; at >= 0; at = L.steps[at].parent) path.push(at);
  const store = new Map();
  for (const at of path.reverse()) {
    for (const [kind, number, value] of L.steps[at].delta) {
      if (!store.has(kind)) store.set(kind, new Map());
      if (value === null) store.get(kind).delete(number);
      else store.get(kind).set(number, value);
    }
  }
  return store;
}

function rowsOf(store, kind) {
  return [...(store.get(kind) || new Map())].sort((a, b) => a[0] - b[0]);
}

function same(a, b) {
  return JSON.stringify(a) === JSON.stringify(b);
}

function said(kind, number, value) {
  const loader = L.loaders;
  if (kind === 'request') return `${loader[value[0]]}: ${L.names[value[1]] || value[1]} is class ${value[2]}, defined by ${loader[value[3]]}`;
  if (kind === 'tie' || kind === 'subtype') return `row ${number}: ${value.t}`;
  return `${kind} ${number}: ${value}`;
}

// The requests that constraints name and nobody has loaded.
function unloaded(store) {
  const loaded = store.get('request') || new Map(), all = [];
  for (const [, { v: [one, other, name] }] of rowsOf(store, 'tie')) all.push([one, name], [other, name]);
  for (const [, { v: [loader, low, high] }] of rowsOf(store, 'subtype')) all.push([loader, low], [loader, high]);
  const numbers = once(all.map(([loader, name]) => loader * 65536 + name)).filter(number => !loaded.has(number)).sort((a, b) => a - b);
  return numbers.map(number => `${L.loaders[Math.floor(number / 65536)]}: ${L.names[number % 65536] || number % 65536} isn't loaded`);
}

// ---- a call: asked, or shown

function isAsked(step) {
  return id('ask').checked && Array.isArray(L.steps[step].choices);
}

function isOpen(step) {
  return isAsked(step) && !state.seen[step];
}

function question(step) {
  const isFirst = opened()[0] === step;
  const asked = el('div', { class: 'card ask' }, el('p', {}, el('b', {}, 'What will the machine say?')));
  const choices = el('div', { class: 'choices' });
  L.steps[step].choices.forEach(([text], place) => {
    const button = el('button', { type: 'button', class: 'choice' }, isFirst ? el('kbd', {}, String(place + 1)) : null, text);
    button.addEventListener('click', () => pick(step, place));
    choices.append(button);
  });
  asked.append(choices);
  return asked;
}

function answered(step) {
  const { answer, mark, refused, rule, choices, right, reason, advice } = L.steps[step], picked = state.picks[step];
  const card = el('div', { class: `card ${refused ? 'no' : 'yes'}`, 'aria-live': 'polite' }, el('p', { class: 'answer' }, answer));
  if (mark === 'NO') card.append(el('p', { class: 'pick' }, 'The lesson expected another answer.'));
  if (picked !== undefined && isAsked(step)) {
    const isRight = picked === right, [text, other] = choices[picked];
    card.append(el('p', { class: 'pick' }, isRight ? 'You said so.' : `You said: ${text}.`));
    if (!isRight) card.append(el('p', {}, `It would mean: ${other}`));
  }
  if (rule && (refused || picked !== undefined)) card.append(el('p', { class: 'rule' }, capital(rule)));
  card.append(...chain(step));
  if (reason) card.append(el('pre', {}, reason));
  if (advice) card.append(el('p', { class: 'advice' }, `${capital(advice)}.`));
  return card;
}

function capital(words) {
  return words.charAt(0).toUpperCase() + words.slice(1);
}

// Lines of words as paragraphs: an empty line ends one.
function words(lines) {
  const all = lines.join('\n').split(/\n\s*\n/).filter(part => part.trim());
  return all.map(part => el('p', { class: 'say' }, part.replaceAll('\n', ' ')));
}

function chain(step) {
  const lines = L.steps[step].chain || [];
  const kind = (line, place) => place === 0 ? 'head' : line.startsWith('    ') ? 'from' : line.startsWith('  row') ? 'row' : 'end';
  const shown = line => line.trim().replace(/^why: /, 'Why: ');
  return lines.length ? [el('ul', { class: 'chain' }, lines.map((line, place) => el('li', { class: kind(line, place) }, shown(line))))] : [];
}

// What machines with a mistake say, those of the second implementation, named as such.
function mistakes(step) {
  const { wrong = [], answer } = L.steps[step];
  if (!wrong.length) return [];
  const row = ([fault, said]) => el('tr', { class: said === answer ? 'alike' : 'other' },
    el('td', {}, `A machine with the mistake '${fault.replaceAll('-', ' ')}'`), el('td', { class: 'mistaken' }, said === answer ? 'says the same' : said));
  return [el('table', { class: 'wrong' }, el('tbody', {}, el('tr', {}, el('th', {}, 'The proved machine'), el('th', {}, answer)), wrong.map(row))),
    el('p', { class: 'rule' }, "The mistaken machine is a faulty copy of the second implementation, and goes on from its own answers.")];
}

// ---- the picture of a store, with what a call added, or would have

function picture(step, isAfter) {
  const { parent, tried = [[], [], []], rows = [], stored = 0 } = L.steps[step];
  const now = storeAt(isAfter ? step : parent), then = storeAt(parent);
  const isNew = (kind, number, value) => isAfter && !same((then.get(kind) || new Map()).get(number), value);
  const constraint = (kind, word) => rowsOf(now, kind).map(([number, value]) => {
    const isReason = isAfter && rows.includes(number), age = isReason ? 'reason' : isNew(kind, number, value) ? 'new' : 'old';
    return { cells: value.v, age, label: isReason ? `${word}, row ${number}` : age === 'new' ? `${word}, new` : word };
  });
  const entries = rowsOf(now, 'request').map(([number, cells]) => {
    const fresh = isNew('request', number, cells);
    return { cells, age: fresh ? 'new' : 'old', label: fresh ? ', new' : '' };
  });
  const ties = constraint('tie', 'tie'), subtypes = constraint('subtype', 'below');
  if (isAfter) {
    // its own rows are numbered as they would be posted: subtype constraints first
    const own = (cells, word, place) => rows.includes(stored + place)
      ? { cells, age: 'own', label: `row ${stored + place}, its own` } : { cells, age: 'refused', label: `${word}? refused` };
    tried[2].forEach((cells, place) => subtypes.push(own(cells, 'below', place)));
    tried[1].forEach((cells, place) => ties.push(own(cells, 'tie', tried[2].length + place)));
    tried[0].forEach(([loader, name, number]) => entries.push({ cells: [loader, name, number, loaderOf(now, number, loader)], age: 'refused', label: '? refused' }));
  }
  const isNamed = loader => ties.some(({ cells }) => cells.slice(0, 2).includes(loader)) || subtypes.some(({ cells }) => cells[0] === loader);
  // the Object of the boot says nothing, unless something joins it
  const shown = entries.filter(({ cells }) => cells[0] !== 0 || cells[1] !== 2 || isNamed(0));
  return shown.length + ties.length + subtypes.length ? drawn({ entries: shown, ties, subtypes }) : null;
}

// Who defined a class; one that isn't there would be the asking loader's.
function loaderOf(store, number, asking) {
  const entry = rowsOf(store, 'request').find(([, cells]) => cells[2] === number);
  return entry ? entry[1][3] : asking;
}

// ---- the tables of a store

function tables(step, isAfter, isPrinted) {
  const { parent } = L.steps[step], now = storeAt(isAfter ? step : parent), then = storeAt(parent), store = el('div', { class: 'store' });
  if (now.get('broken') && now.get('broken').size) {
    store.append(el('section', {}, el('h2', {}, 'The tables'), el('ul', {}, el('li', { class: 'plus' }, '~ the tables are no store: broken'))));
  }
  for (const [kind, title] of KINDS) {
    const [old, rows] = [then.get(kind) || new Map(), now.get(kind) || new Map()], list = el('ul', {});
    for (const [number, value] of rowsOf(now, kind)) {
      const sign = !isAfter || same(old.get(number), value) ? '' : old.has(number) ? '~ ' : '+ ';
      list.append(el('li', { class: sign === '+ ' ? 'plus' : sign === '~ ' ? 'tilde' : 'same' }, sign, said(kind, number, value)));
    }
    if (isAfter) for (const [number, value] of rowsOf(then, kind)) if (!rows.has(number)) list.append(el('li', { class: 'minus' }, said(kind, number, value)));
    if (kind === 'request') unloaded(now).forEach(line => list.append(el('li', { class: 'none' }, line)));
    if (isPrinted) slimmed(list);
    if (list.childElementCount) store.append(el('section', {}, el('h2', {}, title), list));
  }
  return store;
}

// On a slide stands what changed, and of much that changed the first.
function slimmed(list) {
  const changed = [...list.children].filter(item => ['plus', 'tilde', 'minus'].includes(item.className));
  list.replaceChildren(...changed.slice(0, 8));
  if (changed.length > 8) list.append(el('li', {}, `and ${changed.length - 8} more`));
}

// The frames of both tasks, the topmost first, with the instruction that is next in its method's text.
function running(step, isAfter) {
  const now = storeAt(isAfter ? step : L.steps[step].parent), all = el('div', { class: 'frames' });
  const cells = (word, values) => el('div', { class: 'cells' }, word, values.length ? values.map(value => el('span', {}, value)) : '\u2013');
  for (const task of ['quote', 'report']) {
    rowsOf(now, `${task} frame`).reverse().forEach(([depth, { m, p, o, l }], place) => {
      const { title, lines } = L.methods[m];
      const line = ([point, instruction, label]) => `${label ? label + '\n' : ''}${String(point).padStart(3)}  ${instruction}`;
      const code = lines.map(all => el('li', { class: all[0] === p ? 'here' : '' }, line(all)));
      all.append(el('div', { class: place ? 'frame waits' : 'frame' }, el('h3', {}, `${task}, frame ${depth}: ${title}`),
        el('ul', { class: lines.length > 24 ? 'code long' : 'code' }, code), cells('operands ', o), cells('locals ', l)));
    });
  }
  return all.childElementCount ? [el('div', { class: 'tasks' }, el('h2', {}, 'Frames'), all)] : [];
}

// ---- a slot: a call, or one of each order beside each other

function lane(step, isPrinted) {
  const { call, number, say = [], order, parts } = L.steps[step], open = !isPrinted && isOpen(step), isAfter = !open && (isPrinted || !state.before);
  const part = el('section', { class: 'lane', 'data-step': step });
  if (order) part.append(el('div', { class: 'order' }, `Order ${order}`));
  // words before a call often say what it answers: they come with the answer
  if (!open) part.append(...words(say));
  part.append(el('div', { class: 'call' }, number ? el('span', { class: 'number' }, `${number}`) : null, el('span', { class: 'words' }, call)));
  if (open) part.append(question(step));
  else if (!L.steps[step].rounds) part.append(answered(step), ...mistakes(step));
  if (!open && parts) part.append(el('div', { class: 'parts' }, `${capital(parts)}.`));
  if (!isPrinted && !open) {
    const turn = el('button', { type: 'button', class: 'turn' }, state.before ? 'Show the store after' : 'Show the store before');
    turn.addEventListener('click', () => { state.before = !state.before; render(); });
    part.append(el('div', { class: 'when' }, el('h2', {}, isAfter ? 'The store after the call' : 'The store before the call'), turn));
  } else part.append(el('h2', {}, isAfter ? 'The store after the call' : 'The store before the call'));
  const shown = picture(step, isAfter);
  if (shown) part.append(shown);
  part.append(...running(step, isAfter), tables(step, isAfter, isPrinted));
  return part;
}

function slotAt(at, isPrinted) {
  if (at === 0) return [el('div', { class: 'intro' }, words(L.intro.slice(1))), ...(isPrinted ? [] : reading()),
    el('p', {}, `${L.slots.length} steps follow. Go on with Next, or the right arrow.`)];
  if (at === END) return ending(isPrinted);
  const steps = L.slots[at - 1];
  return [el('div', { class: steps.length > 1 ? 'lanes two' : 'lanes' }, steps.map(step => lane(step, isPrinted)))];
}

// For who has read nothing.
function reading() {
  return [el('h2', {}, 'How to read it'), el('ul', { class: 'reading' }, [
    "Each insurer's classes come through a loader of its own. A request is a loader and a name: what that loader means by that name.",
    "'defines' hands the machine a class file. 'records' says that a loader means by a name a class that is there already, as another loader does.",
    'A tie says that a name means one class under two loaders. A subtype constraint says that under a loader one name lies below another.',
    'In the picture a box is a request, a column a loader. A dashed box isn\'t loaded: nobody has a class for it yet. Boxes of one colour mean one class.',
    'A line is a tie, an arrow a subtype constraint. Orange is new, red dashes were refused, purple is the chain by which a call clashed.',
  ].map(line => el('li', {}, line)))];
}

function ending(isPrinted) {
  const { right, asked, missed } = score(), all = words(L.ending);
  if (L.leftOut) all.push(el('p', { class: 'say' }, `${L.leftOut} more calls were made, and are left out here.`));
  all.push(el('h2', {}, 'The end'));
  if (asked && !isPrinted) {
    all.push(el('p', { id: 'final' }, `You were right ${right} times of ${asked}.`));
    if (missed.length) all.push(el('ul', { class: 'missed' }, missed.map(step => el('li', {}, `${L.steps[step].call}: ${L.steps[step].answer}`))));
  }
  return all;
}

function score() {
  const picked = Object.keys(state.picks).map(Number).sort((a, b) => a - b), missed = picked.filter(step => state.picks[step] !== L.steps[step].right);
  return { right: picked.length - missed.length, asked: picked.length, missed };
}

function render() {
  // who went by the keyboard stays in the slot when its buttons go
  const isWithin = id('slot').contains(document.activeElement);
  id('slot').replaceChildren(...slotAt(state.at, false));
  if (isWithin) id('slot').focus({ preventScroll: true });
  id('slider').value = state.at;
  const where = state.at === 0 ? 'Begin' : state.at === END ? 'End' : `${state.at} of ${L.slots.length}`;
  id('where').textContent = where;
  id('slider').setAttribute('aria-valuetext', where);
  const { right, asked } = score();
  id('score').textContent = asked ? `${right} right of ${asked}` : '';
  id('back').disabled = state.at === 0;
  id('next').disabled = state.at === END;
  [...id('list').children].forEach((item, place) => {
    item.className = place + 1 === state.at ? 'now' : '';
    const isTold = L.slots[place].every(step => !isOpen(step) && place + 1 <= state.at);
    item.lastChild.textContent = isTold ? ` \u2013 ${L.slots[place].map(step => L.steps[step].answer).join(' | ')}` : '';
  });
}

// ---- moving

function opened() {
  return state.at > 0 && state.at < END ? L.slots[state.at - 1].filter(isOpen) : [];
}

function go(at) {
  state.at = Math.max(0, Math.min(END, at));
  state.before = false;
  render();
}

function next() {
  const open = opened();
  if (!open.length) return go(state.at + 1);
  open.forEach(step => { state.seen[step] = true; });
  render();
}

function pick(step, place) {
  if (!isOpen(step) || !L.steps[step].choices[place]) return;
  state.picks[step] = place;
  state.seen[step] = true;
  render();
}

function theme() {
  const root = document.documentElement, order = ['', 'light', 'dark'], now = order.indexOf(root.dataset.theme || '');
  const chosen = order[(now + 1) % 3];
  if (chosen) root.dataset.theme = chosen;
  else delete root.dataset.theme;
  id('theme').textContent = chosen ? `Theme: ${chosen}` : 'Theme';
}

function turn() {
  if (opened().length) return;
  state.before = !state.before;
  render();
}

const back = () => go(state.at - 1);
const KEYS = { ArrowRight: next, ' ': next, PageDown: next, n: next, ArrowLeft: back, PageUp: back, Home: () => go(0), End: () => go(END), b: turn, t: theme };

function pressed(event) {
  if (event.ctrlKey || event.metaKey || event.altKey || event.target.id === 'slider' && event.key.startsWith('Arrow')) return;
  const isButton = event.target.tagName === 'BUTTON' || event.target.tagName === 'SUMMARY';
  if (event.key === ' ' && isButton || event.target.id === 'ask') return;
  const number = Number(event.key), open = opened()[0];
  if (KEYS[event.key]) KEYS[event.key]();
  else if (number >= 1 && open !== undefined) pick(open, number - 1);
  else return;
  event.preventDefault();
}

// ---- one step a page

function slides() {
  id('slides').replaceChildren(...Array.from({ length: END + 1 }, (_, at) => el('div', { class: 'slide' }, el('h2', {}, L.title), slotAt(at, true))));
}

function begin() {
  id('slider').max = END;
  id('text').textContent = L.text;
  id('shipped').textContent = L.classes.join('\n');
  id('made').textContent = `${L.file}. Every answer here was given by the proved machine when the page was made: ${L.machine}.`;
  if (L.home) { id('home').href = L.home; id('home').hidden = false; }
  L.slots.forEach((steps, place) => {
    const item = el('li', {}, el('span', {}, steps.map(step => L.steps[step].call).join(' | ')), el('span', { class: 'said' }));
    item.addEventListener('click', () => go(place + 1));
    id('list').append(item);
  });
  id('next').addEventListener('click', next);
  id('back').addEventListener('click', back);
  id('slider').addEventListener('input', event => go(Number(event.target.value)));
  id('ask').addEventListener('change', render);
  id('theme').addEventListener('click', theme);
  id('print').addEventListener('click', () => window.print());
  document.addEventListener('keydown', pressed);
  window.addEventListener('beforeprint', slides);
  window.addEventListener('afterprint', () => id('slides').replaceChildren());
  if (!L.steps.some(step => step.choices)) { id('ask').checked = false; id('ask').parentElement.hidden = true; }
  render();
}

begin();
