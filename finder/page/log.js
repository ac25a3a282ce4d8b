/* The log of a page: lines of JSON. docs/RACES.md, "The log of a run", describes them. */
const OF_ADAPTER = ['rxdata', 'rxdone', 'txtake', 'txput', 'eeprom', 'phy', 'raise', 'lower', 'hold', 'fault'];
const OF_WIRE = ['arrive', 'frame'], REGISTER_SIZE = 4;

/** A step with what its action tells. */
function wholeStep(step) {
  const actor = OF_ADAPTER.includes(step.action) ? ADAPTER : OF_WIRE.includes(step.action) ? WIRE : DRIVER;
  return { actor, ...step.value !== undefined && step.name ? { size: REGISTER_SIZE } : {}, ...step };
}

/** The runs whose logs are in a text, line by line. The second one may begin with the steps of the first. */
function runsIn(text) {
  const logs = [];
  for (const line of text.split('\n').filter(one => one.trim())) {
    const one = JSON.parse(line), last = logs[logs.length - 1];
    if (one.format) logs.push({ ...one, fault: null, steps: [] });
    else if (one.same !== undefined) last.steps.push(...logs[0].steps.slice(0, one.same));
    else if (one.action) last.steps.push(wholeStep(one));
    else last.fault = one.fault;
  }
  return logs;
}
