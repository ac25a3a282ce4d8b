/* The page: the list of steps, and the state after the step that is shown. */
const MOST_STEPS = 4000, BEFORE = 500, MOST_REASONS = 4, MOST_LINES = 20, MOST_BUFFERS = 256, SHOWN_BYTES = 24;
const HELP = [['\u2192 \u2193 Space', 'the next step'], ['\u2190 \u2191 Shift+Space', 'the step before'],
  ['PageUp PageDown', 'ten steps'], ['Home End', 'the first step, the last step'], ['w', 'where it goes wrong'],
  ['d', 'the next deviation'], ['c', 'compare with the run without deviations'], ['o', 'the same step in the other'
    + ' run'],
  ['/', 'search: Enter shows the next hit; n and N, too'], ['f', 'where was a frame?'], ['?', 'this list']];
const FRAME = /^frame [RT]?\d+$/i;
const at = id => document.getElementById(id);
const escaped = text => text.replace(/[&<>"]/g, one => `&#${one.charCodeAt(0)};`);
const LOGS = runsIn(at('data').textContent), PLACES = LOGS[0].places;
const runs = { run: LOGS[0], other: LOGS[1] };
const all = { run: shownOf(runs.run), other: runs.other && shownOf(runs.other) };
const lanes = PLACES ? PLACES.lanes : lanesOf(LOGS);
const found = PLACES ? [] : reasons(runs.run, runs.other), differs = runs.other && difference(runs.run, runs.other);
const differsAt = differs && runs.run.steps.length ? differs.step ?? runs.run.steps.length - 1 : null;
const stars = runs.run.steps.flatMap((step, n) => step.is_deviation ? [n] : []);
// Of a long run, the page has MOST_STEPS steps, from BEFORE steps before the first deviation or finding on.
const first = beginOf(), isInside = step => step !== null && step >= first && step < first + MOST_STEPS;
const rows = [], rowsOf = { run: [], other: [] };
const RING = PLACES ? 'rx' : firstRing();
let side = 'run', now = 0, chosen = null, hits = [], buffersAreOpen = true;

function beginOf() {
  const lengths = LOGS.map(run => run.steps.length), { length } = runs.run.steps;
  if (Math.max(...lengths) <= MOST_STEPS) return 0;
  const begin = Math.min(length, ...stars, ...found.map(one => one.step));
  return Math.max(0, Math.min(begin - BEFORE, length - MOST_STEPS));
}

function fill() {
  at('top').innerHTML = headOf();
  fillList();
  at('chips').innerHTML = chips();
  at('what').hidden = !!PLACES;
  at('help').innerHTML = `<table>${HELP.map(([keys, what]) => `<tr><th scope=row>${keys.split(' ').map(key =>
    `<kbd>${key}</kbd> `).join('')}</th><td>${what}</td></tr>`).join('')}</table>`;
  at('frame').innerHTML = '<option value="">where was frame ..</option>'
    + [...new Set(all.run.changes.flatMap(Object.keys))].filter(name => FRAME.test(name))
      .map(name => `<option>${name}</option>`).join('');
}

const rowAt = (which, step) => rowsOf[which][step - first];
const own = row => row.querySelector('b');
const actor = row => own(row)?.dataset.lane || '';
const textIn = (which, row) => (which === 'other' && row.querySelector('s') || own(row)).textContent;

/** The cells after a step, and what the step changed. */
function cellsAt(which, step) {
  const cells = {}, buffers = new Set();
  for (const change of all[which].changes.slice(0, step + 1)) {
    Object.assign(cells, change);
    for (const [name, text] of Object.entries(change))
      if (/^[rt]x\[\d+\]$/.test(name) && !(name[0] === 't' && text[0] === 'd'))
        for (const one of text.split('/').slice(2)) buffers.add(one);
  }
  buffers.delete('');
  buffers.delete('?');
  return { cells, changed: new Set(Object.keys(all[which].changes[step])), buffers };
}

// The state

function slotOf(cells, name) {
  const [state, frame, buffer, fetched] = (cells[name] || 'd///').split('/');
  return { state, frame, buffer, fetched };
}
const frameName = (ring, number) => number === '' ? '' : nameOf(ring, number);

const table = (title, lines) => lines.length ? `<h2>${title}</h2><table>${lines.join('')}</table>` : '';
const line = (changed, ...texts) => `<tr${changed ? ' class="changed"' : ''}>${texts.map((text, n) =>
  `<t${n ? 'd' : 'h scope="row"'}>${escaped(text)}</t${n ? 'd' : 'h'}>`).join('')}</tr>`;

function registers(cells, changed) {
  return table('Registers', SHOWN.filter(name => cells[name] !== undefined).map(name => {
    const more = name === 'ICR' && cells['ICR?'] ? ` (perhaps also ${cells['ICR?']}: the log doesn't show what the PHY`
      + ' has recorded)' : '';
    return line(changed.has(name), name, `${valueIn(name, +cells[name])}${more}`);
  }));
}

function descriptor(label, cells) {
  const digits = cells[label + '='], ring = label.slice(0, 2);
  return !digits ? '' : table(`Descriptor ${label}, ${SLOTS[slotOf(cells, label).state]}`,
    NAMES.fields[ring].map(([begin, size, name]) => {
      const bytes = digits.slice(2 * begin, 2 * begin + 2 * size);
      const text = bytes.includes('.') ? 'not in the'
        + ' log' : fieldText(ring, name, numberIn(bytes)).slice(name.length + 1);
      return line(false, `+${begin}`, name, text);
    }));
}

/** What a slot's buffers are, as pairs of an address and a text. The descriptor in memory may name another buffer than
 * the one that the adapter has fetched.
 */
function buffersOf(name, { state, frame, buffer, fetched }) {
  const ring = name.slice(0, 2), who = state === 'o' || state === 'p' ? 'the adapter' : 'the driver';
  const isUnknown = buffer === '?' || fetched === '?';
  const text = `${who}: ${name}, ${SLOTS[state]}${frame === '' ? '' : `, ${frameName(ring, frame)}`}`;
  if (state === 'd') return buffer && buffer !== '?' && ring === 'rx' ? [[buffer, text]] : [];
  if (!fetched) return isUnknown && state === 's' ? [] : [[buffer, text]];
  const later = `the driver: in the descriptor of ${name}, but the adapter has fetched `
    + `${fetched === '?' ? 'what was there before' : fetched}`;
  return [[fetched, text], ...(buffer === '?' ? [] : [[buffer, later]])];
}

function ownersOf(cells, changed, buffers) {
  const owners = new Map(), slots = ring => Array.from({ length: +cells[ring] || 0 }, (_, n) => `${ring}[${n}]`);
  for (const one of [...buffers].sort((a, b) => a - b)) owners.set(one, []);
  for (const name of [...slots('rx'), ...slots('tx')])
    for (const [buffer, text] of buffersOf(name, slotOf(cells, name)))
      owners.set(buffer, [...owners.get(buffer) || [], { text, changed: changed.has(name) }]);
  const lines = [...owners].slice(0, MOST_BUFFERS).map(([buffer, its]) => line(its.some(one => one.changed),
    buffer === '?' ? 'not in the log' : buffer, its.map(one => one.text).join('; and ') || 'the driver'));
  return lines.length ? `<details${buffersAreOpen ? ' open' : ''} id="buffers"><summary>Buffers and their`
    + ` owners</summary>`
    + `<table>${lines.join('')}</table></details>` : '';
}

const placesOf = (cells, changed) => PLACES.hosts.map(host => table(`Host ${escaped(host)}: where its frames are`,
  PLACES.stages.map(stage => line(changed.has(`${host} ${stage}`), stage, cells[`${host} ${stage}`] || '')))).join('');

/** The slots that a step names, or changes. */
function hotSlots(which, step) {
  const change = Object.keys(all[which].changes[step]), names = all[which].texts[step].match(/\b[rt]x\[\d+\]/g) || [];
  if (change.includes('rx') || change.includes('tx')) return new Set();
  return new Set([...change.filter(name => /^[rt]x\[\d+\]$/.test(name)), ...names]);
}

/** The slot whose descriptor is shown: the chosen one, or that of the last step with a slot. */
function slotShown() {
  if (chosen) return chosen;
  for (let step = now; step >= first; step--) {
    const [slot] = hotSlots(side, step);
    if (slot) return slot;
  }
  return 'rx[0]';
}

/** The ring that has to do with the failure: it is shown first. */
function firstRing() {
  const words = [...found.map(one => one.text), ...stars.map(star => runs.run.steps[star].action), 'rx'].join(' ');
  return /\b[rt]x/.exec(words)[0];
}

/** The bytes that a step moves, as a table. Bytes that differ from those in the line before are marked. */
function bytesTable(lists) {
  const lines = lists.map(([name, bytes], n) => {
    const before = n ? lists[n - 1][1] : [], digits = bytes.slice(0, SHOWN_BYTES).map((byte, place) => {
      const isOther = isKnown(byte) && isKnown(before[place]) && byte !== before[place];
      return isOther ? `<mark>${byteText(byte)}</mark>` : byteText(byte);
    });
    return `<tr><th scope="row">${escaped(name)}</th><td class=bytes>${digits.join(' ')}</td></tr>`;
  });
  return lines.length ? `<table class=moved>${lines.join('')}</table>` : '';
}

function showState() {
  const row = rowAt(side, now), { cells, changed, buffers } = cellsAt(side, now), text = textIn(side, row);
  const hot = hotSlots(side, now), which = side === 'run' ? '' : ' (without deviations)';
  const notes = side === 'run' ? notesOf(now, true) : '';
  let out = `<p><b>Step ${now}${which}</b> <span class="who">${escaped(actor(row))}:`
    + ` ${escaped(text)}</span></p>${notes}`;
  if (PLACES) {
    out += placesOf(cells, changed);
  } else {
    const frames = [['rx', 'Receive'], ['tx', 'Transmit']].map(([ring, name]) => line(changed.has(`${ring} frames`),
      `${name} packet buffer`, (cells[`${ring} frames`] || '').split(' ').filter(Boolean)
        .map(one => frameName(ring, one)).join(', ') || 'empty'));
    out += `<p><span class="line${cells.line ? ' up' : ''}">the interrupt line is ${cells.line ? 'asserted' : 'low'}`
      + `</span></p>${bytesTable(all[side].bytes[now])}<div class="rings">`
      + `${[RING, RING === 'rx' ? 'tx' : 'rx'].map(ring => ringOf(ring, cells, hot)).join('')}</div>` + legend()
      + registers(cells, changed) + table('Packet buffers', frames) + descriptor(slotShown(), cells)
      + ownersOf(cells, changed, buffers);
  }
  at('state').innerHTML = out;
  const told = [...changed].filter(name => !/=$/.test(name)).map(name => `${name} ${cells[name]}`).join(', ');
  at('told').textContent = `Step ${now}${which}, ${actor(row)}: ${text}. Changed: ${told || 'nothing'}.`;
}

/** Scrolls the list, and nothing around it, until a row is visible, or in the middle. */
function reveal(row, isCentered) {
  const list = document.querySelector('.list'), box = list.getBoundingClientRect(), its = row.getBoundingClientRect();
  const head = document.querySelector('.head').offsetHeight;
  if (isCentered) list.scrollTop += its.top - box.top - (box.height - its.height) / 2;
  else if (its.top < box.top + head) list.scrollTop += its.top - box.top - head;
  else if (its.bottom > box.bottom) list.scrollTop += its.bottom - box.bottom;
}

function show(step, which = side, keepsHash = false) {
  side = which;
  now = Math.max(first, Math.min(first + rowsOf[side].length - 1, step));
  document.querySelectorAll('.now').forEach(row => {
    row.classList.remove('now', 'right');
    row.removeAttribute('aria-current');
  });
  const row = rowAt(side, now);
  if (row.classList.contains('folded')) unfold(row.fold, true);
  if (side === 'other' && !document.body.classList.contains('both')) compare(true);
  row.classList.add('now');
  row.classList.toggle('right', side === 'other');
  row.setAttribute('aria-current', 'step');
  reveal(row, false);
  at('number').value = now;
  if (!keepsHash) history.replaceState(null, '', side === 'run' ? `#${now}` : `#other${now}`);
  showState();
}
