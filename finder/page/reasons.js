/* Why a run fails. */
/** What goes wrong in a run, in the order of the steps; of each kind, the first. */
function findings(run) {
  const watch = new Watch(), kinds = new Set();
  run.steps.forEach(step => watch.play(step));
  watch.end();
  return watch.found.sort((one, two) => one.step - two.step)
    .filter(({ kind }) => !kinds.has(kind) && kinds.add(kind));
}

/** Where the handler cuts in for the nth time: the step, the place of its first access, and whether it is inside the
 * driver's calls of a round, and not where a round begins.
 */
function cutIn(run, n) {
  const marks = run.steps.flatMap((step, at) => step.outcome === CUTS_IN ? [at] : []), step = marks[n];
  const place = run.steps.slice(step).find(one => one.actor === HANDLER && one.place)?.place;
  const before = run.steps.slice(0, step).reverse().find(one => one.place && isAccess(one));
  if (step === undefined || !place) return null;
  return { step, place, isInside: !!before && parseInt(before.place, 10) === parseInt(place, 10) };
}

/** What is said of a cut-in besides: where it is in the other run. */
function moments(one, run, other) {
  if (one.cutIn === undefined) return one;
  const n = run.steps.slice(0, one.cutIn).filter(step => step.outcome === CUTS_IN).length;
  const [mine, its] = [cutIn(run, n), other && cutIn(other, n)];
  const where = ({ place, isInside }) => `${isInside ? 'inside' : 'after'} the driver's call (${place})`;
  if (!mine) return one;
  const text = `The handler runs ${where(mine)} here`
    + `${its && its.place !== mine.place ? `, and ${where(its)} in the run without deviations` : ''}.`;
  return { ...one, rest: `${one.rest} ${text.replace(' here', '')}`, more: [...one.more, { step: one.cutIn, text }] };
}

/** Why a run fails: what goes wrong in it, and not in the other run. After the first of these findings, those of other
 * sections may be its consequences: `isLater`. If nothing goes wrong only in this run, each finding is only a hint:
 * what goes wrong in both runs, although the other one passes, or QUIET, with which every test ends if it passes.
 * A run that passes has no reasons.
 */
function reasons(run, other) {
  if (run.fault === null || run.fault === undefined) return [];
  const passes = other && (other.fault === null || other.fault === undefined);
  const harmless = new Set(passes ? findings(other).map(one => one.kind) : []), found = findings(run);
  const wrong = found.filter(({ kind }) => kind !== QUIET && !harmless.has(kind));
  if (wrong.length)
    return wrong.map(one => one.section === wrong[0].section ? one : { ...one, isLater: true });
  const both = found.filter(({ kind }) => kind !== QUIET);
  return (both.length ? both : found).map(one => ({ ...moments(one, run, other), isHint: true }));
}
