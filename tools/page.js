// Shows the witnesses of a figure when they are opened, some rows at a time; filters them, sums them up and hands them out as CSV; and marks
// a source row that is chosen wherever it stands in the answer, and the rows that stand beside it in its witnesses.
'use strict';
// So many rows are put into the document at once.
const STEP = 200;
const UNSHOWN = /[\x00-\x08\x0b\x0c\x0e-\x1f\x7f-\x9f\u202a-\u202e\u2066-\u2069]/g;
const told = document.getElementById('told');
const views = new Map();
let chosen = null;

function made(name, given, ...inside) {
  const it = document.createElement(name);
  for (const key in given) it.setAttribute(key, given[key]);
  it.append(...inside);
  return it;
}

function shown(text) {
  return text.replace(UNSHOWN, it => '\\u' + it.charCodeAt(0).toString(16).padStart(4, '0'));
}

function count(number, one, many) {
  return number.toLocaleString('en') + ' ' + (number === 1 ? one : many);
}

function button(text, press) {
  const it = made('button', {type: 'button'}, text);
  it.addEventListener('click', press);
  return it;
}

// An answer: its data, which of its figures are to be seen, in their order, and how many of these are in the document.
function viewOf(table) {
  if (!views.has(table)) {
    const data = JSON.parse(table.closest('article').querySelector('script.data').textContent);
    views.set(table, {table, data, order: data.figures.map((_, at) => at), seen: table.tBodies[0].querySelectorAll('tr.row').length});
  }
  return views.get(table);
}

function parts(text) {
  return text.split(' ').map(it => it.split('-').map(Number)).map(it => [it[0], it[it.length - 1]]);
}

function ranges(numbers) {
  const found = [];
  for (const it of numbers) {
    const last = found[found.length - 1];
    if (last && last[1] === it - 1) last[1] = it;
    else found.push([it, it]);
  }
  return found;
}

function written(found, dash, comma) {
  return found.map(it => it[0] === it[1] ? it[0] : it[0] + dash + it[1]).join(comma);
}

function meet(some, others) {
  return some.some(a => others.some(b => a[0] <= b[1] && b[0] <= a[1]));
}

function cell(value, kind) {
  if (value === null) return made('td', {class: 'null'}, 'NULL');
  if (kind !== 't') return made('td', kind === 'n' ? {class: 'n'} : {}, value);
  return value === '' ? made('td', {class: 'null'}, "''") : made('td', {}, shown(value));
}

function heads(names, kinds) {
  return names.map((it, at) => made('th', {scope: 'col', ...(kinds[at] === 'n' ? {class: 'n'} : {})}, shown(it)));
}

// The figures.

function figureRows(view, at) {
  const figure = view.data.figures[at], [before, strong, behind] = figure[3];
  const summary = made('summary', {}, before, made('b', {}, strong), behind);
  const details = made('details', {'data-i': at}, summary, made('div', {class: 'sources'}));
  if (chosen && chosen.view === view && chosen.figures.has(at)) summary.classList.add('holds');
  const own = figure[0].map((it, column) => cell(it, view.data.kinds[column]));
  return [
    made('tr', {class: 'row', id: name(view, at)}, ...own, made('td', {class: 'fill'})),
    made('tr', {class: 'from'}, made('td', {colspan: own.length + 1}, details)),
  ];
}

function name(view, at) {
  return 's' + view.table.dataset.at + 'r' + (at + 1);
}

function showRows(view, wanted) {
  const until = Math.min(wanted, view.order.length);
  const rows = view.order.slice(view.seen, until).flatMap(at => figureRows(view, at));
  view.table.tBodies[0].append(...rows);
  view.seen = Math.max(view.seen, until);
  const more = view.table.parentElement.querySelector(':scope > .more') || made('p', {class: 'more'});
  view.table.after(more);
  more.replaceChildren(...moreOf(view.seen, view.order.length, number => showRows(view, view.seen + number)));
}

function moreOf(seen, all, show) {
  if (seen >= all) return [];
  const next = Math.min(STEP, all - seen);
  return [button('Show ' + count(next, 'more row', 'more rows'), () => { show(next); told.textContent = 'Shown are '
    + count(Math.min(seen + next, all), 'row', 'rows') + ' of ' + all.toLocaleString('en') + '.'; }), ' ' + seen.toLocaleString('en') + ' of ' + all.toLocaleString('en') + ' are shown'];
}

function filterRows(view, test, output) {
  view.order = view.data.figures.map((_, at) => at).filter(at => !test || test(view.data.figures[at][0]));
  view.table.tBodies[0].replaceChildren();
  view.seen = 0;
  showRows(view, STEP);
  output.textContent = test ? view.order.length.toLocaleString('en') + ' of ' + count(view.data.figures.length, 'row', 'rows') : '';
}

// A filter: columns to choose from, and a value; `use` is told the number of the column and a test of values, or null.
function filter(columns, use) {
  const column = made('select', {'aria-label': 'column'}, ...columns.map((it, at) => made('option', {value: at}, shown(it))));
  const how = made('select', {'aria-label': 'how'}, made('option', {value: 'is'}, 'is'), made('option', {value: 'has'}, 'contains'));
  const value = made('input', {type: 'search', 'aria-label': 'value', placeholder: 'value'}), output = made('output', {});
  const apply = () => {
    const text = value.value, low = text.toLowerCase();
    const test = how.value === 'is' ? it => (it === null ? 'NULL' : it) === text : it => it !== null && it.toLowerCase().includes(low);
    use(Number(column.value), text === '' ? null : test, output);
  };
  for (const it of [column, how]) it.addEventListener('change', apply);
  value.addEventListener('input', apply);
  return made('span', {class: 'filter', role: 'search'}, 'Only where ', column, ' ', how, ' ', value, ' ', output);
}

// The witnesses of a figure.

function isEmpty(row) {
  return row[3].every(it => it === null);
}

// The rows of a source that stand in witnesses that are to be seen, each with the numbers of these.
function rowsOf(state, at) {
  const rows = state.figure[4][at];
  if (!state.only) return rows.map(row => [row, parts(row[1])]);
  const found = [];
  for (const row of rows) {
    const numbers = [];
    for (const [first, last] of parts(row[1])) for (let it = first; it <= last; it++) if (state.only[it]) numbers.push(it);
    if (numbers.length) found.push([row, ranges(numbers)]);
  }
  return found;
}

function sourceRow(state, at, [row, standing], wide, repeated) {
  const source = state.view.data.sources[at], where = [];
  if (repeated) where.push(made('td', {class: 'w t'}, row[2] > 1 ? row[2] + ' times' : ''));
  if (state.figure[2] > 1) where.push(made('td', {class: 'w'}, written(standing, '–', ', ')));
  if (isEmpty(row)) return made('tr', {class: 'none'}, made('td', {colspan: wide}, 'empty'), ...where);
  const it = made('tr', {tabindex: 0, 'data-k': row[0], 'data-w': written(standing, '-', ' ')},
    ...row[3].map((value, column) => cell(value, source.kinds[column])), ...where);
  if (chosen && chosen.view === state.view) mark(it, state.details);
  return it;
}

function sums(source, rows) {
  return source.kinds.map((kind, column) => {
    if (kind !== 'n') return null;
    let once = 0n, each = 0n;
    for (const [row, standing] of rows) {
      if (row[3][column] === null) continue;
      const value = BigInt(row[3][column]);
      once += value * BigInt(row[2]);
      each += value * BigInt(standing.reduce((sum, it) => sum + it[1] - it[0] + 1, 0));
    }
    return [once, each];
  });
}

function footOf(source, rows, places) {
  const cells = sums(source, rows).map(it => it === null ? made('td') : made('td', {class: 'n',
    title: 'each row as often as it stands in its table; over the witnesses ' + it[1]}, made('span', {class: 'word'}, 'sum '), String(it[0])));
  return made('tfoot', {}, made('tr', {}, ...cells, ...places));
}

function sourceTable(state, at) {
  const source = state.view.data.sources[at], rows = rowsOf(state, at), all = rows.filter(it => !isEmpty(it[0]));
  const several = state.figure[2] > 1, repeated = all.some(it => it[0][2] > 1), body = made('tbody');
  const further = [...(repeated ? [['w t', 'equal rows']] : []), ...(several ? [['w', 'in witness']] : [])];
  const head = [...heads(source.columns, source.kinds), ...further.map(it => made('th', {scope: 'col', class: it[0]}, it[1]))];
  const more = made('p', {class: 'more'});
  let seen = 0;
  const show = number => {
    body.append(...rows.slice(seen, seen + number).map(it => sourceRow(state, at, it, source.columns.length, repeated)));
    seen = Math.min(rows.length, seen + number);
    more.replaceChildren(...moreOf(seen, rows.length, show));
  };
  show(STEP);
  const title = made('caption', {}, source.title + ' ', made('small', {}, all.length ? count(all.length, 'row', 'rows') : 'empty'));
  const table = made('table', {class: 'source'}, title, made('thead', {}, made('tr', {}, ...head)), body);
  if (all.length && source.kinds.includes('n')) table.append(footOf(source, all, further.map(() => made('td', {class: 'w'}))));
  return made('div', {class: 'one'}, table, more);
}

function stateOf(details) {
  if (!details.state) {
    const view = viewOf(details.closest('table.why'));
    details.state = {details, view, figure: view.data.figures[Number(details.dataset.i)], only: null};
  }
  return details.state;
}

function showSources(state) {
  state.details.querySelector('.sources').replaceChildren(...state.view.data.sources.map((_, at) => sourceTable(state, at)));
}

function filterWitnesses(state, place, test, output) {
  state.only = null;
  if (test) {
    const [at, column] = place;
    state.only = new Uint8Array(state.figure[2] + 1);
    for (const row of state.figure[4][at])
      if (test(row[3][column])) for (const [first, last] of parts(row[1])) state.only.fill(1, first, last + 1);
  }
  showSources(state);
  const left = test ? state.only.reduce((sum, it) => sum + it, 0) : 0;
  output.textContent = test ? left.toLocaleString('en') + ' of ' + count(state.figure[2], 'witness', 'witnesses') : '';
}

function bar(state) {
  const places = state.view.data.sources.flatMap((it, at) => it.columns.map((_, column) => [at, column]));
  const names = places.map(([at, column]) => state.view.data.sources[at].title + ': ' + state.view.data.sources[at].columns[column]);
  const link = made('a', {href: '#' + name(state.view, Number(state.details.dataset.i))}, 'Link to this figure');
  const found = [link, ' ', button('Witnesses as CSV', () => download(state))];
  if (state.figure[2] > 1 && places.length)
    found.unshift(filter(names, (at, test, output) => filterWitnesses(state, places[at], test, output)), ' ');
  return made('div', {class: 'bar'}, ...found);
}

function fill(details) {
  const state = stateOf(details);
  if (state.filled) return;
  state.filled = true;
  details.querySelector('summary').after(bar(state));
  if (!details.querySelector('.sources').children.length) showSources(state);
}

// One figure's witnesses as CSV: those that are to be seen, a record each.

function csvField(value, kind) {
  if (value === null) return '';
  return kind === 't' && (value === '' || /[",\r\n]|^\s|\s$/.test(value)) ? '"' + value.replaceAll('"', '""') + '"' : value;
}

function csv(state) {
  const {data} = state.view, places = state.figure[4].map(rows => {
    const found = new Int32Array(state.figure[2] + 1);
    rows.forEach((row, at) => { for (const [first, last] of parts(row[1])) found.fill(at, first, last + 1); });
    return found;
  });
  const own = state.figure[0].map((it, at) => csvField(it, data.kinds[at]));
  const lines = [[...data.names, ...data.sources.flatMap(it => it.names)].map(it => csvField(it, 't'))];
  for (let number = 1; number <= state.figure[2]; number++) {
    if (state.only && !state.only[number]) continue;
    const cells = data.sources.flatMap((source, at) => state.figure[4][at][places[at][number]][3].map((it, column) => csvField(it, source.kinds[column])));
    lines.push([...own, ...cells]);
  }
  return '\ufeff' + lines.map(it => it.join(',') + '\r\n').join('');
}

function download(state) {
  const address = URL.createObjectURL(new Blob([csv(state)], {type: 'text/csv'}));
  const it = made('a', {href: address, download: name(state.view, Number(state.details.dataset.i)) + '.csv'});
  it.click();
  setTimeout(() => URL.revokeObjectURL(address), 60000);
}

// A row that is chosen.

function mark(row, details) {
  if (row.dataset.k === chosen.k) row.classList.add('same');
  else if (details === chosen.details && meet(parts(row.dataset.w), chosen.witnesses)) row.classList.add('with');
}

function clear() {
  for (const it of ['same', 'with', 'chosen', 'holds'])
    for (const one of document.querySelectorAll('.' + it)) one.classList.remove(it);
  chosen = null;
  told.textContent = '';
}

function choose(row) {
  const again = row.classList.contains('chosen');
  clear();
  if (again) return;
  const details = row.closest('details'), {view} = stateOf(details), k = Number(row.dataset.k);
  const figures = new Set(view.data.figures.flatMap((it, at) => it[4].some(rows => rows.some(one => one[0] === k)) ? [at] : []));
  chosen = {view, k: row.dataset.k, details, witnesses: parts(row.dataset.w), figures};
  for (const it of view.table.querySelectorAll('tr[data-k]')) mark(it, it.closest('details'));
  for (const it of view.table.querySelectorAll('details'))
    if (figures.has(Number(it.dataset.i))) it.firstElementChild.classList.add('holds');
  row.classList.add('chosen');
  const number = chosen.witnesses.reduce((sum, it) => sum + it[1] - it[0] + 1, 0);
  told.textContent = 'This row stands in ' + count(number, 'witness', 'witnesses') + ' here, and in those of '
    + count(figures.size - 1, 'other row', 'other rows') + ' of the answer.';
}

// Goes to the figure that the address names.
function go() {
  const found = /^#s(\d+)r(\d+)$/.exec(location.hash);
  const table = found && document.querySelector('table.why[data-at="' + found[1] + '"]');
  if (!table) return;
  const view = viewOf(table), place = view.order.indexOf(Number(found[2]) - 1);
  if (place < 0) return;
  showRows(view, Math.max(view.seen, place + 1));
  const row = document.getElementById(location.hash.slice(1)), details = row.nextElementSibling.querySelector('details');
  details.open = true;
  row.scrollIntoView({block: 'center'});
  details.firstElementChild.focus({preventScroll: true});
}

for (const table of document.querySelectorAll('table.why')) {
  const tools = table.closest('article').querySelector('.tools');
  if (tools) {
    const names = [...table.tHead.rows[0].cells].slice(0, -1).map(it => it.textContent.trim());
    tools.append(filter(names, (at, test, output) => filterRows(viewOf(table), test && (own => test(own[at])), output)));
  }
  if (table.dataset.large !== undefined) showRows(viewOf(table), STEP);
}
document.addEventListener('toggle', event => {
  if (event.target.matches && event.target.matches('table.why details') && event.target.open) fill(event.target);
}, true);
document.addEventListener('click', event => {
  const open = event.target.closest('button[data-open]');
  if (open) {
    for (const it of open.closest('article').querySelectorAll('details')) it.open = open.dataset.open === 'yes';
    return;
  }
  const row = event.target.closest('tr[data-k]');
  if (row && String(getSelection()) === '') choose(row);
});
document.addEventListener('keydown', event => {
  if (event.key === 'Escape') clear();
  const row = event.target.closest && event.target.closest('tr[data-k]');
  if (!row) return;
  if (event.key === 'Enter' || event.key === ' ') {
    event.preventDefault();
    choose(row);
  }
});
let opened = [];
addEventListener('beforeprint', () => {
  opened = [...document.querySelectorAll('details:not([open])')];
  for (const it of opened) {
    it.open = true;
    if (it.closest('table.why')) fill(it);
  }
});
addEventListener('afterprint', () => {
  for (const it of opened) it.open = false;
});
addEventListener('hashchange', go);
go();
