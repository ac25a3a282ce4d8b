/* Keys, buttons, links, the search, and the other run. */
function compare(isOn) {
  if (!runs.other) return;
  if (isOn) {
    for (const row of rows) {
      if (row.second === undefined || row.querySelector('s')) continue;
      const text = document.createElement('s');
      text.textContent = own(row).textContent;
      row.append(text);
    }
  } else if (side === 'other') {
    const same = rowAt('other', now).step;
    show(same === undefined ? startOf() : same, 'run');
  }
  document.body.classList.toggle('both', isOn);
  at('compare').setAttribute('aria-pressed', isOn);
  reveal(rowAt(side, now), true);
}

/** Shows where a frame was: each step that changed its place. */
function trail(name) {
  const links = all.run.changes.flatMap((change, step) => change[name] === undefined ? []
    : [`<a href=#${step}>#${step}</a> ${escaped(change[name])}`]);
  at('trail').innerHTML = links.length ? `<b>${escaped(name)}</b>: ${links.join(' \u2192 ')}` : '';
  return links.length ? +/#(\d+)/.exec(links[0])[1] : null;
}

function find(text) {
  rows.forEach(row => row.classList.remove('hit'));
  const query = text.trim().toLowerCase();
  hits = query ? rowsOf.run.filter(row => `${row.firstElementChild.textContent} ${own(row).textContent}`.toLowerCase()
    .includes(query)) : [];
  hits.forEach(row => row.classList.add('hit'));
  at('count').textContent = query ? `${hits.length} found` : '';
  if (FRAME.test(query)) trail(query.replace(/[rt]\d/, one => one.toUpperCase()));
}

function nextHit(by) {
  const number = /^#?(\d+)$/.exec(at('search').value.trim());
  if (number && !hits.length) return show(+number[1], 'run');
  const steps = hits.map(row => row.step);
  const next = by > 0 ? steps.find(step => step > now) : steps.reverse().find(step => step < now);
  if (steps.length) show(next === undefined ? (by > 0 ? Math.min(...steps) : Math.max(...steps)) : next, 'run');
}

function nextOf(rowClass) {
  const steps = rowsOf.run.filter(row => row.classList.contains(rowClass)).map(row => row.step);
  if (steps.length) show(steps.find(step => step > now && side === 'run') ?? steps[0], 'run');
}

/** Moves the focus to the list, so that the arrow keys step. */
const toList = () => document.querySelector('.list').focus({ preventScroll: true });

const keys = {
  ArrowRight: () => show(now + 1), ArrowDown: () => show(now + 1), ArrowLeft: () => show(now - 1),
  ArrowUp: () => show(now - 1), ' ': event => show(now + (event.shiftKey ? -1 : 1)), PageDown: () => show(now + 10),
  PageUp: () => show(now - 10), Home: () => show(0), End: () => show(Infinity),
  c: () => compare(!document.body.classList.contains('both')), d: () => nextOf('dev'), w: () => nextOf('why'),
  o: () => swap(), n: () => nextHit(1), N: () => nextHit(-1), f: () => at('frame').focus(),
  '/': () => { at('search').focus(); at('search').select() }, '?': () => { at('help').hidden = !at('help').hidden },
};
// What keys do in the box of the search: all others are letters, or move the cursor.
const searchKeys = {
  Enter: event => { nextHit(event.shiftKey ? -1 : 1); toList() }, Escape: toList,
  ArrowDown: () => show(now + 1), ArrowUp: () => show(now - 1), PageDown: keys.PageDown, PageUp: keys.PageUp,
};

/** Shows the step of the other run that is in the same row, or the nearest one before. */
function swap() {
  if (!runs.other) return;
  const key = side === 'run' ? 'second' : 'step';
  for (let n = rows.indexOf(rowAt(side, now)); n >= 0; n--)
    if (rows[n][key] !== undefined) return show(rows[n][key], side === 'run' ? 'other' : 'run');
}

function startOf() {
  if (found.length) return found[0].step;
  return stars.length ? stars[0] : differsAt ?? Math.max(0, runs.run.steps.length - 1);
}

function follow() {
  const its = /^#(other)?(\d+)$/.exec(location.hash);
  if (its && (!its[1] || runs.other)) show(+its[2], its[1] ? 'other' : 'run', true);
  return its;
}

function onKey(event) {
  if (event.ctrlKey || event.altKey || event.metaKey) return;
  const tag = event.target.tagName;
  const isInput = tag === 'INPUT' || tag === 'SELECT';
  const its = event.target.id === 'search' ? searchKeys : isInput ? { Escape: toList } : keys;
  if (event.key === ' ' && /^(BUTTON|A|SUMMARY)$/.test(tag) || !its[event.key]) return;
  event.preventDefault();
  its[event.key](event);
}

function onRow(event) {
  const row = event.target.closest('li');
  if (!row || event.target.closest('a')) return;
  if (row.classList.contains('fold')) return unfold(rows.find(one => one.fold?.head === row).fold, isFolded(row));
  if (row.classList.contains('end')) return show(Infinity, 'run');
  const isRight = row.step === undefined || row.second !== undefined && event.target.closest('s');
  show(isRight ? row.second : row.step, isRight ? 'other' : 'run');
}

const isFolded = head => head.firstChild.getAttribute('aria-expanded') === 'false';

function onSlot(event) {
  const slot = event.target.closest('[data-slot]');
  if (!slot) return;
  chosen = chosen === slot.dataset.slot ? null : slot.dataset.slot;
  showState();
}

fill();
addEventListener('keydown', onKey);
at('steps').addEventListener('click', onRow);
at('state').addEventListener('click', onSlot);
at('state').addEventListener('toggle', event => { buffersAreOpen = event.target.open }, true);
at('back').onclick = () => show(now - 1);
at('next').onclick = () => show(now + 1);
at('wrong').onclick = () => nextOf('why');
at('deviation').onclick = () => nextOf('dev');
at('compare').onclick = keys.c;
at('keys').onclick = keys['?'];
at('search').oninput = event => find(event.target.value);
at('number').onchange = event => { show(+event.target.value, 'run'); toList() };
at('frame').onchange = event => {
  const step = trail(event.target.value);
  if (step !== null) show(step, 'run');
  toList();
};
addEventListener('hashchange', follow);
if (!runs.other) at('compare').hidden = true;
if (!stars.length) at('deviation').hidden = true;
if (!found.length) at('wrong').hidden = true;
if (!runs.run.steps.length) at('state').textContent = 'The log has no steps.';
else if (!follow()) {
  show(startOf(), 'run', true);
  reveal(rowAt('run', now), true);
}
