/* The drawing of a ring: slots as circles, with the head and the tail. */
const short = { d: '', s: 'staged', o: 'offer', p: 'busy', f: 'DD', F: 'DD\u2713' };
const MOST_DRAWN = 64, NEAR_HEAD = 16, DRAWN_OF_MORE = 48;  // slots
const FEW_SLOTS = 12;  // a larger ring also has a list of its slots
const RADIUS = 102, MIDDLE = 170;
const SIDE = 0.3;  // of a slot farther from the middle than this, the marks are beside it

/** The slots that are drawn: of a large ring, those near the head. */
function drawnSlots(size, head) {
  if (size <= MOST_DRAWN) return [...Array(size).keys()];
  return [...Array(DRAWN_OF_MORE).keys()].map(n => (head - NEAR_HEAD + n + size) % size);
}

/** Slots with the same state, as a list: `4 to 6 offered`. A slot with a frame is alone. */
function rangesOf(name, cells, size) {
  const found = [];
  for (let slot = 0; slot < size; slot++) {
    const { state, frame } = slotOf(cells, `${name}[${slot}]`), last = found[found.length - 1];
    if (last && last.state === state && frame === '' && last.frame === '') last.end = slot;
    else found.push({ state, frame, begin: slot, end: slot });
  }
  return found.map(({ state, frame, begin, end }) => `${begin === end ? begin : `${begin} to ${end}`} ${SLOTS[state]}`
    + `${frame === '' ? '' : `, ${frameName(name, frame)}`}`).join('; ');
}

const textAt = (x, y, text, more = '', anchor = 'middle') =>
  `<text x="${x.toFixed(1)}" y="${y.toFixed(1)}" text-anchor="${anchor}"${more}>${text}</text>`;

/** A slot: its circle, its number, its state, its frame, and the head and the tail if they are there. */
function drawnSlot(label, slot, n, count, it, marks, isHot) {
  const angle = 2 * Math.PI * n / count - Math.PI / 2, r = Math.min(25, 2.5 * RADIUS / count);
  const x = by => MIDDLE + by * Math.cos(angle), y = by => MIDDLE + by * Math.sin(angle);
  const ring = label.slice(0, 2), about = aboutSlot(label, it), every = count > 32 ? 8 : count > 16 ? 4 : 1;
  let out = `<circle data-slot="${label}" class="${isHot ? 'hot' : ''}${chosen === label ? ' chosen' : ''}"`
    + ` cx="${x(RADIUS)}"`
    + ` cy="${y(RADIUS)}" r="${r}" fill="var(--${it.state})"><title>${about}</title></circle>`;
  const still = ' pointer-events="none"', inside = RADIUS - r - 12;
  if (r >= 20) {
    out += textAt(x(RADIUS), y(RADIUS) - 1, slot, still)
      + textAt(x(RADIUS), y(RADIUS) + 12, short[it.state], `${still} class="small"`);
    if (it.frame !== '') out += textAt(x(inside), y(inside) + 4, nameOf(ring, it.frame));
  } else if (r >= 12) {
    out += textAt(x(RADIUS), y(RADIUS) + 5, slot, still);
    if (it.frame !== '') out += textAt(x(inside), y(inside) + 4, nameOf(ring, it.frame));
  } else if (slot % every === 0)
    out += textAt(x(inside), y(inside) + 4, slot);
  const side = Math.cos(angle) > SIDE ? 'start' : Math.cos(angle) < -SIDE ? 'end' : 'middle';
  marks.forEach((mark, m) => {
    const far = RADIUS + r + (side === 'middle' ? 17 : 10) + (every > 1 && mark.endsWith('T') ? 13 : 0);
    out += textAt(x(far), y(far) + 4 - 6 * (marks.length - 1) + 12 * m, mark, ' font-weight="bold"', side);
  });
  return out;
}

const aboutSlot = (label, it) =>
  `${label}: ${SLOTS[it.state]}${it.frame === '' ? '' : `, ${frameName(label.slice(0, 2), it.frame)}`}`;

function ringOf(name, cells, hot) {
  const size = +cells[name] || 0, letter = name[0].toUpperCase();
  if (!size) return '';
  const head = +(cells[letter + 'DH'] || 0), tail = +(cells[letter + 'DT'] || 0), slots = drawnSlots(size, head);
  const title = name === 'rx' ? 'Receive ring' : 'Transmit ring';
  const few = slots.length < size ? `, ${slots.length} shown` : '';
  let out = textAt(MIDDLE, 160, title, ' font-weight="bold"') + textAt(MIDDLE, 190, `${size} slots${few}`);
  let spoken = `${title}, ${size} slots.`;
  slots.forEach((slot, n) => {
    const label = `${name}[${slot}]`, it = slotOf(cells, label);
    const marks = [slot === head && letter + 'DH', slot === tail && letter + 'DT'].filter(Boolean);
    if (it.state !== 'd' || marks.length)
      spoken += ` ${aboutSlot(label, it)}${marks.length ? `, ${marks.join(' and ')}` : ''}.`;
    out += drawnSlot(label, slot, n, slots.length, it, marks, hot.has(label));
  });
  const list = size > FEW_SLOTS ? `<p class="ranges">${name}: ${rangesOf(name, cells, size)}</p>` : '';
  return `<div class="ring"><svg viewBox="0 6 340 328" role="img"`
    + ` aria-label="${escaped(spoken)}">${out}</svg>${list}</div>`;
}
