/* The head of the page: the fault, the schedule, the reasons. */
const OF_SLOTS = { d: 'free for the driver', s: 'the driver has stored a descriptor; the tail is not behind it yet',
  o: "from the head to the tail: the adapter's", p: "the adapter has begun, DD isn't set", f: 'DD is set',
  F: 'and the driver knows it' };

const linkTo = (step, text = `step ${step}`) => `<a href=#${step}>${text}</a>`;
const ruleOf = one => one.section ? ` Rule: ${escaped(RULES[one.section])} (docs/RACES.md, \u201C`
  + `${escaped(one.section)}\u201D).` : '';

/** Where the run goes wrong. */
const whyOf = one => `${one.isHint ? 'perhaps ' : ''}why: ${linkTo(one.step)}`;

/** The step of a line of the schedule: the first of its deviations; null if it can't be found. */
function stepOfLine(line, n) {
  const [place] = /^\d+\.\d+(\+\d+)?(?= )/.exec(line) || [], { steps } = runs.run;
  const end = place ? steps.findIndex(step => step.place === place && !step.is_deviation) : -1;
  const begin = steps.slice(0, Math.max(0, end)).findLastIndex(step => step.place && !step.is_deviation);
  const its = end < 0 ? [] : stars.filter(star => begin < star && star <= end);
  if (its.length) return its[0];
  return runs.run.schedule.length === stars.length ? stars[n] : end < 0 ? null : end;
}

function scheduleOf() {
  const { schedule } = runs.run, more = schedule.length > MOST_LINES ? ` and ${schedule.length - MOST_LINES} more` : '';
  return schedule.slice(0, MOST_LINES).map((line, n) => {
    const step = stepOfLine(line, n), code = `<code>${escaped(line)}</code>`;
    return step === null ? code : linkTo(step, code);
  }).join(', ') + more;
}

function headOf() {
  const { run } = runs, last = run.steps.length - 1, [why] = found;
  const lines = [`<h1>${escaped(run.command)}</h1>`];
  if (run.fault)
    lines.push(`<p class=fault>Fails: ${escaped(run.fault)}${why ? ` (${whyOf(why)})` : ''}</p>`);
  else lines.push(`<p>${PLACES ? `${run.steps.length} steps.` : 'The test passes.'}</p>`);
  if (first || last >= first + MOST_STEPS)
    lines.push(`<p>The page has the steps ${first} to ${Math.min(last, first + MOST_STEPS - 1)} of ${last + 1}.</p>`);
  if (run.schedule.length) lines.push(`<p>Schedule: ${scheduleOf()}</p>`);
  for (const [n, one] of found.slice(0, MOST_REASONS).entries())
    lines.push(`<p class="why${hintOf(one)}"><b>${one.isHint ? 'Perhaps ' : one.isLater ? 'Later, ' : ''}`
      + `${linkTo(one.step)}</b>: ${linked(wholeText(one))}${n ? '' : ruleOf(one)}</p>`);
  if (differsAt !== null)
    lines.push(`<p class=diff>${linkTo(differsAt)}: ${escaped(firstText(differs, all.run, all.other))}</p>`);
  return lines.join('\n');
}

const legend = () => `<p class="legend">${Object.entries(SLOTS).map(([letter, name]) =>
  `<span style="background:var(--${letter})">${['', name].includes(short[letter]) ? '' : `${short[letter]}: `}`
  + `${name}</span>`).join('')}</p>`;

/** The states of slots, with what they mean. */
const chips = () => Object.keys(SLOTS).map(letter => `<span class=chip style="background:var(--${letter})">`
  + `${short[letter] || '&nbsp;'}</span> ${SLOTS[letter]}: ${OF_SLOTS[letter]}.`).join(' ');
