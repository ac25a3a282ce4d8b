/* Aligns a run with the run without deviations, and finds the first difference in what the driver saw.
 *
 * A pair has the index of a step in each run; null if a run has no such step here.
 */
const MOST_CELLS = 4e6;  // of a table for the alignment of two parts; longer parts are aligned piece by piece
const PIECE = 1500;  // steps of such a piece
const ACCESS_WEIGHT = 64;  // accesses are aligned first, and then the steps of the adapter

const LINE = /^line(: |$)/;
const isLook = step => step.action === 'request' && LINE.test(step.outcome || '');  // the test looks at the line
const isSeen = step => isAccess(step) || isLook(step);
const accessesOf = run => run.steps.flatMap((step, at) => isSeen(step) ? [at] : []);
const isSameAccess = (one, two) => one.action === two.action && one.name === two.name
  && (one.size || 0) === (two.size || 0);
const isSameAnswer = (one, two) => one.value === two.value && one.data === two.data
  && (isAccess(one) || one.outcome === two.outcome);
const roundOf = step => /^\d+/.test(step.place || '') ? parseInt(step.place, 10) : null;

/** What steps in one pair have in common. */
function keyOf(step) {
  const what = isAccess(step) ? `= ${step.name}` : isLook(step) ? 'line' : `${step.name || ''} ${step.outcome || ''}`;
  return [step.actor, step.action, what].join();
}

/** The first access, or look at the interrupt line, that has another value, or isn't the same: its index in each run,
 * or null if the run has ended before. `isSame` is whether only the value differs, and both are in the same round.
 * Returns null if both runs make the same accesses, with the same values.
 */
function difference(run, other) {
  const mine = accessesOf(run), others = accessesOf(other);
  for (let n = 0; n < Math.min(mine.length, others.length); n++) {
    const one = run.steps[mine[n]], two = other.steps[others[n]], isSame = isSameAccess(one, two);
    if (!isSame || !isSameAnswer(one, two))
      return { step: mine[n], other: others[n], isSame: isSame && roundOf(one) === roundOf(two) };
  }
  const n = Math.min(mine.length, others.length);
  return mine.length === others.length ? null : { step: mine[n] ?? null, other: others[n] ?? null, isSame: false };
}

/** The longest common subsequence of two lists of keys, as pairs of indices. `weights` are those of the keys of the
 * first list: the sum of the weights is greatest. Of several such sequences, it is one with early pairs.
 */
function common(keys, others, weights) {
  const wide = others.length + 1, table = new Float64Array((keys.length + 1) * wide), pairs = [];
  for (let at = keys.length - 1; at >= 0; at--)
    for (let its = others.length - 1; its >= 0; its--) {
      const here = at * wide + its;
      table[here] = keys[at] === others[its] ? table[here + wide + 1] + weights[at]
        : Math.max(table[here + wide], table[here + 1]);
    }
  for (let at = 0, its = 0; at < keys.length && its < others.length;) {
    if (keys[at] === others[its]) pairs.push([at++, its++]);
    else if (table[(at + 1) * wide + its] >= table[at * wide + its + 1]) at++;
    else its++;
  }
  return pairs;
}

/** Aligns two lists of steps: pairs of indices. */
function alignSteps(steps, others) {
  const keys = steps.map(keyOf), second = others.map(keyOf), pairs = [];
  if (keys.length * second.length > MOST_CELLS) {
    for (let at = 0; at < Math.max(keys.length, second.length); at += PIECE)
      for (const pair of alignSteps(steps.slice(at, at + PIECE), others.slice(at, at + PIECE)))
        pairs.push(pair.map(one => one === null ? null : one + at));
    return pairs;
  }
  let at = 0, its = 0;
  const found = common(keys, second, steps.map(step => isAccess(step) || step.place ? ACCESS_WEIGHT : 1));
  for (const [one, two] of [...found, [keys.length, second.length]]) {
    while (at < one) pairs.push([at++, null]);
    while (its < two) pairs.push([null, its++]);
    if (one < keys.length) pairs.push([at++, its++]);
  }
  return pairs;
}

/** The parts of a list of steps by rounds: of each, the number of the round, and the indices of its first step and of
 * the step after its last one.
 */
function roundsOf(steps) {
  const found = [];
  steps.forEach((step, at) => {
    const round = roundOf(step), last = found[found.length - 1];
    if (!last || round !== null && round > last.round) found.push({ round: round ?? 0, begin: at, end: at + 1 });
    else last.end = at + 1;
  });
  return found;
}

/** Aligns the rest of both runs, round by round. */
function alignRounds(run, other, begin, second) {
  const [mine, others] = [roundsOf(run.steps.slice(begin)), roundsOf(other.steps.slice(second))], pairs = [];
  while (mine.length || others.length) {
    const round = Math.min(mine[0]?.round ?? Infinity, others[0]?.round ?? Infinity);
    const [one, two] = [mine, others].map(list => list[0]?.round === round ? list.shift() : { begin: 0, end: 0 });
    const steps = run.steps.slice(begin + one.begin, begin + one.end);
    const its = other.steps.slice(second + two.begin, second + two.end);
    for (const [at, place] of alignSteps(steps, its))
      pairs.push([at === null ? null : begin + one.begin + at, place === null ? null : second + two.begin + place]);
  }
  return pairs;
}

/** The steps of both runs in pairs. Accesses up to the first difference are in one pair. After it, accesses of the same
 * name in the same round are, as many as possible, and then steps of the adapter between them.
 */
function align(run, other) {
  const found = difference(run, other), pairs = [], mine = accessesOf(run), others = accessesOf(other);
  let at = 0, its = 0;
  for (let n = 0; n < Math.min(mine.length, others.length); n++) {
    const isFirst = found && mine[n] === found.step;
    if (isFirst && !found.isSame) break;
    const [one, two] = [at, its];
    for (const [step, second] of alignSteps(run.steps.slice(one, mine[n]), other.steps.slice(two, others[n])))
      pairs.push([step === null ? null : one + step, second === null ? null : two + second]);
    pairs.push([mine[n], others[n]]);
    [at, its] = [mine[n] + 1, others[n] + 1];
    if (isFirst) break;
  }
  return [...pairs, ...alignRounds(run, other, at, its)];
}
