/* The text of each step on the page. */
// Calls of the test. All other requests are calls of the driver.
const OF_TEST = /^(settle|step|line|offer|choose|clock_step|clock_set|arrive)\b/;
const FEW = 8;  // digits of a frame's first bytes
const SHORT = 24;  // the most digits of a value in memory that is shown completely

/** A register's value, and the names of bits that are set in it, such as `0x80 RXT0`. */
const valueIn = (register, value) => [hex(value), ...namesIn(value, NAMES.bits[register.split('[')[0]])].join(' ');

const shortHex = digits => digits.length <= SHORT ? digits : `${digits.slice(0, SHORT - 8)}..`;

/** The number in some bytes in hexadecimal digits, in the order of memory. */
const numberIn = digits => BigInt(`0x${digits.match(/../g).reverse().join('')}`);

/** A field of a descriptor: its name, its value, and the names of bits that are set in it. */
function fieldText(ring, name, value) {
  const bits = namesIn(Number(value), NAMES.fieldBits[`${ring} ${name}`]);
  return [name, name === 'length' ? `${value}` : `0x${value.toString(16)}`, ...bits].join(' ');
}

/** The fields in some bytes of a descriptor, such as `length 60, status 0x3 DD EOP`. Fields with value 0 are left out,
 * except for the length and the status in a part of a descriptor. If nothing would remain, all fields are shown.
 * Returns '' if the bytes aren't complete fields of one descriptor.
 */
function fieldsOf(name, size, digits) {
  const found = SLOT.exec(name), begin = +(found?.[3] || 0);
  if (!found || digits.length !== 2 * size) return '';
  const all = NAMES.fields[found[1]];
  const fields = all.filter(([at, bytes]) => begin <= at && at + bytes <= begin + size);
  if (!fields.length || fields.reduce((sum, one) => sum + one[1], 0) !== size) return '';
  const values = fields.map(([at, bytes, field]) =>
    [field, numberIn(digits.slice(2 * (at - begin), 2 * (at - begin + bytes)))]);
  const isPart = size < all.reduce((sum, one) => sum + one[1], 0);
  const shown = values.filter(([field, value]) => value || isPart && (field === 'length' || field === 'status'));
  return (shown.length ? shown : values).map(([field, value]) => fieldText(found[1], field, value)).join(', ');
}

/** The text of the memory that an access reads or writes. */
function memoryOf({ name, size = 0, data }) {
  if (data === undefined) return size ? `${name}, ${size} bytes` : name;
  if (!size) return `${name}, with these bytes from there on: ${data}`;
  if (data.length < 2 * size) return `${name}, ${size} bytes: ${data.slice(0, SHORT - 8)}..`;
  const fields = fieldsOf(name, size, data);
  return fields ? `${name} ${fields}` : `${name}, ${size} bytes: ${shortHex(data)}`;
}

/** The size, the first and the last bytes of a frame, as far as the log has them. */
function frameText({ size, data }) {
  if (!size || !data) return size ? ` ${size} bytes` : '';
  const begin = data.length > 4 ? data.slice(0, FEW) : '';
  return ` ${size} bytes, ${data.length <= SHORT && data.length === 2 * size ? data : `${begin}..${data.slice(-4)}`}`;
}

/** The text of a step. `told` is what a step of the adapter has done, and `frame` the frame's name, if known. */
function textOf(step, told = '', frame = '') {
  const { action, name = '', outcome = '', value } = step;
  if (step.text !== undefined) return step.text;
  if (isAccess(step)) {
    if (!isRegister(name)) return `${action} ${memoryOf(step)}`;
    return `${action} ${name}${value === undefined ? '' : ` ${valueIn(name, value)}`}`;
  }
  if (action === 'arrive') return `${frame || 'a frame'} arrives:${frameText(step)} ${outcome}`;
  if (action === 'frame') return `${frame || 'a frame'} is on the wire:${frameText(step)}`;
  if (action === 'raise' || action === 'lower') return `${action}s the interrupt line`;
  if (action === 'mark' || action === 'request') return OF_TEST.test(outcome) ? `test: ${outcome}` : outcome;
  if (action === 'choose') return `test: choose ${outcome}: ${value}`;
  if (action === 'hold') return `the step of ${outcome} is left out`;
  if (action === 'fault') return `fault ${name} ${outcome}`;
  return `${action} ${outcome}${told ? `: ${told}` : ''}`;
}

/** A run as the page shows it: the text of each step, the cells that it changes, the bytes that it moves, and whether
 * the line is asserted after it. The steps of a scenario have texts and changes of their own.
 */
function shownOf(run) {
  const state = new State(), found = { texts: [], changes: [], bytes: [], lines: [] };
  let sent = '';
  run.steps.forEach((step, at) => {
    const changes = step.changes || state.play(step), cells = Object.keys(changes);
    const own = isAccess(step) ? '' : cells.find(cell => cell.startsWith('frame ')) || '';
    const frame = step.action === 'frame' ? sent : own;
    if (step.action === 'txput') sent = frame;
    found.texts.push(textOf(step, state.told || step.name, frame.replace('frame ', '')));
    found.changes.push(changes);
    found.bytes.push(state.bytes.filter(([, bytes]) => bytes.length));
    found.lines.push(state.line);
    if (/^(raise|lower)$/.test(step.action) && at) moveLine(run.steps, found, at);
  });
  return found;
}

/** The line is raised or lowered by the step before: the state after that step has the line, too. */
function moveLine(steps, found, at) {
  let to = at - 1;
  for (; to > 0 && steps[to].action === 'frame'; to--) found.lines[to] = found.lines[at];
  found.lines[to] = found.lines[at];
  found.changes[to] = { ...found.changes[to], ...found.changes[at] };
  found.changes[at] = {};
}

/** The actors of some runs: the driver (or others, such as its processors), its handler, the adapter, the wire. */
function lanesOf(runs) {
  const found = new Set(runs.flatMap(run => run.steps.map(step => step.actor)));
  const others = [...found].filter(actor => ![DRIVER, HANDLER, ADAPTER, WIRE].includes(actor));
  return [...(others.length && !found.has(DRIVER) ? [] : [DRIVER]), ...others, ...(found.has(HANDLER) ? [HANDLER] : []),
    ADAPTER, WIRE];
}

/** The text of the first difference in what the driver saw. */
function firstText(found, mine, others) {
  if (found.step === null)
    return 'Up to here, driver and test have seen the same as without deviations. There, the next step is:'
      + ` ${others.texts[found.other]}.`;
  const its = found.other === null ? 'the run has ended before' : others.texts[found.other];
  return `The first difference in what driver and test see: ${mine.texts[found.step]}. Without deviations: ${its}.`;
}
