/* The list of steps: a row for each step, with the aligned step of the other run, and rounds that are folded. */
const FEW_ROWS = 8;  // so few rows aren't folded

const linked = text => escaped(text).replace(/\bstep (\d+)/g, '<a href=#$1>step $1</a>');
const hintOf = one => one.isHint || one.isLater ? ' hint' : '';

const wholeText = one => one.rest ? `${one.text} ${one.rest}` : one.text;

/** The notes of a step, as HTML. */
function notesOf(step, isWhole) {
  const notes = found.filter(one => one.step === step)
    .map(one => `<em class="${hintOf(one)}">${linked(isWhole ? wholeText(one) : one.text)}</em>`);
  for (const one of found.slice(0, MOST_REASONS))
    for (const more of one.more || [])
      if (more.step === step) notes.push(`<em class=hint>${linked(more.text)}</em>`);
  if (step === differsAt) notes.push(`<em class=first>${escaped(firstText(differs, all.run, all.other))}</em>`);
  return notes.join('');
}

/** A row of the list: a step, the aligned step of the other run if its text differs, and notes. */
function rowOf([step, second]) {
  const row = document.createElement('li');
  if (step === null) {
    row.className = 'gap';
    row.innerHTML = `<i>${escaped(runs.other.steps[second].place || '')}</i><s>${escaped(all.other.texts[second])}</s>`;
  } else {
    const one = runs.run.steps[step], text = all.run.texts[step], lane = lanes.indexOf(one.actor);
    const classes = { dev: one.is_deviation, up: all.run.lines[step], only: runs.other && second === null,
      why: found.some(its => its.step === step), differs: step === differsAt, test: text.startsWith('test: ') };
    row.id = step;
    row.className = Object.keys(classes).filter(name => classes[name]).join(' ');
    const its = second === null ? text : all.other.texts[second], right = its === text ? '' : `<s>${escaped(its)}</s>`;
    row.innerHTML = `<i>${escaped(one.place || '')}</i><b class=l${lane} data-lane="${escaped(lanes[lane])}">`
      + `${escaped(text)}</b>${right}${notesOf(step)}`;
    rowsOf.run.push(row);
    row.step = step;
  }
  if (second !== null) {
    rowsOf.other.push(row);
    row.second = second;
  }
  rows.push(row);
  return row;
}

/** The last row: how the test ends. */
function endRow() {
  const row = document.createElement('li'), { fault } = runs.run, [why] = found;
  const link = why ? ` (${whyOf(why)})` : '';
  row.className = fault ? 'end' : 'end passes';
  row.innerHTML = `<b data-lane="the end">${fault ? `The test ends here, and fails: ${escaped(fault)}`
    : 'The test ends here, and passes'}${link}</b>`;
  return row;
}

/** The round of each row. A step of the adapter belongs to the round of the place before it. */
function roundsOfRows() {
  let round = 0;
  return rows.map(row => {
    const step = row.step === undefined ? runs.other.steps[row.second] : runs.run.steps[row.step];
    return round = Math.max(round, roundOf(step) ?? 0);
  });
}

/** Folds the rounds before the one in which something differs or goes wrong: round 0, and those after it. */
function fold() {
  const rounds = roundsOfRows(), marked = [...stars, ...found.map(one => one.step),
    ...found.slice(0, MOST_REASONS).flatMap(one => (one.more || []).map(more => more.step))];
  const begins = marked.filter(isInside).map(step => rounds[rows.indexOf(rowAt('run', step))]);
  const first = begins.length ? Math.min(...begins) : 0;
  for (const [from, to] of [[0, 0], [1, first - 1]]) {
    const its = rows.filter((_, n) => from <= rounds[n] && rounds[n] <= to && to < first);
    if (its.length >= FEW_ROWS) foldRows(its, from, to);
  }
}

function foldRows(its, from, to) {
  const head = document.createElement('li'), steps = its.flatMap(row => row.step === undefined ? [] : [row.step]);
  const text = !from ? "round 0, before the test's first arrive, step or settle"
    : `round${to > from ? `s ${from} to` : ''} ${to}`;
  head.className = 'fold';
  head.innerHTML = `<button aria-expanded=false>${text}, ${steps.length} steps</button>`;
  its[0].before(head);
  for (const row of its) {
    row.classList.add('folded');
    row.fold = { head, rows: its };
  }
}

/** Shows or hides the rows of a fold. */
function unfold({ head, rows: its }, isOpen) {
  for (const row of its) row.classList.toggle('folded', !isOpen);
  head.firstChild.setAttribute('aria-expanded', isOpen);
}

function fillList() {
  const pairs = runs.other ? align(runs.run, runs.other) : runs.run.steps.map((_, n) => [n, null]);
  at('lanes').innerHTML = '<span>step</span><span>place</span>' + lanes.map((lane, n) =>
    `<b style="grid-column:${3 + n}">${escaped(lane)}</b>`).join('') + '<s>without deviations</s>';
  at('columns').textContent = lanes.map((_, n) => n ? `.steps .l${n} { grid-column: ${3 + n} / span`
    + ` ${lanes.length - n} }` : '').join('\n');
  document.querySelector('main').style.setProperty('--lanes', lanes.length);
  at('steps').append(...pairs.map(pair => pair.map(step => isInside(step) ? step : null))
    .filter(([step, second]) => step !== null || second !== null).map(rowOf));
  if (!PLACES && rows.length) {
    if (first + MOST_STEPS >= runs.run.steps.length) at('steps').append(endRow());
    fold();
  }
}
