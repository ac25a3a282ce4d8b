/* Finds where a run goes wrong, by rules for the races of docs/RACES.md. Each finding is a fact of the log.
 *
 * A finding has the index of its step, its kind, its text, and a heading in docs/RACES.md, if there is one. `more` has
 * what other steps have to do with it: the index of each, and a text. `rest` is what is said of it besides. The kinds
 * of mistakes without a consequence yet differ from those of consequences: reasons() needs this.
 */
const SECTIONS = {
  handlerRuns: 'A frame is finished while the handler runs',
  twoLoads: 'A descriptor is written back between two loads of it',
  headPassed: 'The head has passed a slot that is in progress',
  spans: 'A frame spans several descriptors',
  beforeStored: 'A slot is used before its descriptor is stored',
  doneBefore: 'A slot is done before it is offered',
  looksEmpty: 'A full ring looks empty',
  stillRead: 'A frame is written to a buffer that is still read',
  allHeld: 'All buffers are held',
  missed: 'A frame is missed while misses are counted',
  cleared: 'A word of the group table is cleared for a moment',
  lostMiss: 'A miss is lost in a reset',
  wakes: 'The handler wakes itself',
  takenBefore: 'A frame is taken before it is stored',
  notSent: "The head has passed a frame that isn't sent",
  beforeThere: 'A word is read before it is there',
  cutsIn: 'The handler cuts in on a send',
};
/* The rule of each section, in the words of docs/RACES.md */
const RULES = {
  [SECTIONS.handlerRuns]: 'Read ICR first, then take frames until no frame ends in finished slots',
  [SECTIONS.twoLoads]: 'Load DD and the length in one access',
  [SECTIONS.headPassed]: "Only DD in memory shows that a slot is finished; RDH doesn't",
  [SECTIONS.spans]: 'Only EOP shows that a frame is complete; take all slots of a frame, or no slot',
  [SECTIONS.beforeStored]: 'Store the descriptors first, then write RDT',
  [SECTIONS.doneBefore]: 'Store a complete descriptor, with DD clear and length 0, for each slot that you offer',
  [SECTIONS.looksEmpty]: 'Never offer all slots of a ring',
  [SECTIONS.stillRead]: 'Each buffer has one owner: the ring, the pool or a receiver',
  [SECTIONS.allHeld]: 'Refill the ring also in the call that takes a buffer back',
  [SECTIONS.missed]: 'Read MPC only once in each call to the handler, because a read clears MPC',
  [SECTIONS.cleared]: 'write a word of MTA once, with the bits of all joined groups in it',
  [SECTIONS.lostMiss]: 'Write 0 to RCTL, then read MPC, and then reset',
  [SECTIONS.wakes]: 'Never write an unmasked cause to ICS in the handler',
  [SECTIONS.takenBefore]: 'Store the data first, then the descriptor, then write TDT',
  [SECTIONS.notSent]: "Only DD in memory shows that a frame was sent; TDH doesn't",
  [SECTIONS.beforeThere]: 'Use a word from EERD only if DONE is set',
  [SECTIONS.cutsIn]: 'Keep the handler out of the call that sends a frame',
};
const UNSTORED = { rx: SECTIONS.beforeStored, tx: SECTIONS.takenBefore };
const BIT_EN = 2;  // of RCTL
const QUIET = 'quiet', CUTS_IN = 'the handler cuts in';
const whoOf = step => step.actor === HANDLER ? 'handler' : 'driver';
const whoStored = slot => slot.storedBy === HANDLER ? 'handler' : 'driver';

/** Watches a run step by step. Some findings wait until a later step, or the end of the run, decides on them. */
class Watch {
  state = new State();
  found = [];
  forgotten = new Map();  // by receive slots: a finding that a later load of DD would refute
  lengths = new Map();  // by receive slots: the step that loaded the length before DD was set
  looks = new Map();  // by receive slots: the last load of the buffer before DD was loaded
  takers = new Map();  // by receive slots: who has found DD first, and the step
  early = new Set();  // receive slots whose frame the driver has loaded before DD
  kept = new Map();  // by addresses of receive buffers that were offered again before they were loaded: what was there
  unread = new Map();  // by addresses of receive buffers: the frame that the driver hasn't loaded since it loaded DD
  fetches = new Map();  // by receive slots: the use of a descriptor whose store the log doesn't show
  missed = null;
  cleared = new Map();  // words of the receive filter: the step that cleared bits, and the word before
  filtered = [];  // filtered frames: the step and the number
  eerd = null;  // the step that read EERD without DONE
  stored = new Set();  // bytes of staged transmit descriptors that were stored
  frames = new Map();  // by addresses of transmit buffers that aren't offered yet: who has stored it, and the step
  freed = null;  // a load of DD of a sent frame, if it is the last access of the driver: the slot and the step
  full = new Map();  // by rings: a write of the tail that a later one would refute
  dry = null;  // the step after which no receive slot is offered
  masked = new Map();  // causes that were masked again: the step
  blind = new Map();  // by slots, such as rx[1]: the last load of the status without DD, since the slot was offered
  fills = [];  // stores into buffers of frames that the adapter has fetched
  cutIn = null;  // the step in which the handler has cut in
  clears = null;  // the last read of ICR that cleared a cause
  since = new Set();  // the actions of accesses since then

  get at() {
    return this.state.at;
  }

  get rx() {
    return this.state.rings.rx;
  }

  find(kind, text, section = '', step = this.at, more = []) {
    this.found.push({ step, kind, text, section, more });
  }

  /** Applies the rules before a step, plays the step, and applies the rules after it. */
  play(step) {
    const { state } = this, { rings } = state;
    if (isAccess(step)) this.beforeAccess(step);
    else if (step.action === 'rxdata' || step.action === 'txtake') this.beforeUse(step);
    else if (step.action === 'arrive' && step.outcome === 'filtered') this.filtered.push([this.at, state.arrived]);
    if (step.actor === DRIVER && !isAccess(step)) this.freed = null;
    if (step.action === 'mark' && step.outcome === CUTS_IN) this.cutIn = this.at;
    if (step.action === 'frame') this.judgeSent(step);
    const tails = { rx: rings.rx.tail, tx: rings.tx.tail }, heads = { rx: rings.rx.head, tx: rings.tx.head };
    const at = this.at;
    state.play(step);
    state.at = at;  // the rules after the step are at this step, too
    if (step.action === 'write' && (step.name === 'RDT' || step.name === 'TDT')) {
      const ring = state.rings[`${step.name[0].toLowerCase()}x`];
      this.afterTail(ring, tails[ring.name], heads[ring.name], step);
    }
    this.noteDry();
    state.at = at + 1;
  }

  // Accesses

  beforeAccess(step) {
    if (this.eerd !== null) this.judgeEerd(step);
    const address = isRegister(step.name) ? null : this.state.addressOf(step.name);
    if (isRegister(step.name)) this.beforeRegister(step);
    else if (address !== null)
      this[step.action === 'read' ? 'beforeLoad' : 'beforeStore'](step, address, step.size || 1);
    if (this.clears !== null && this.at > this.clears) this.since.add(step.action);
    if (step.actor !== HANDLER && this.freed?.step !== this.at) this.freed = null;
  }

  /** A word of EERD was read without DONE: the next access must read EERD again. */
  judgeEerd(step) {
    if (step.action === 'write' || step.name !== 'EERD')
      this.find('eerd', "The driver uses the word in EERD, but DONE is clear: the EEPROM hasn't read the word.",
        SECTIONS.beforeThere, this.eerd);
    this.eerd = null;
  }

  beforeRegister(step) {
    const { name, action, value = 0 } = step, { state } = this;
    if (name === 'ICR') this.clearCauses(step, value);
    else if (name === 'MPC' && action === 'read') this.missed = null;
    else if ((name === 'RDH' || name === 'TDH') && action === 'read') this.readHead(name);
    else if (name === 'EERD' && action === 'read' && !(value & 0x10)) this.eerd = this.at;
    else if ((name === 'IMS' || name === 'IMC') && action === 'write') {
      for (const cause of causesOf(value))
        if (name === 'IMS') this.masked.delete(cause);
        else if (state.mask & BIT[cause]) this.masked.set(cause, this.at);
    } else if (/^(MTA|VFTA|RAH)\[/.test(name) && action === 'write') this.writeFilter(name, value);
    else if (name === 'CTRL' && action === 'write' && value & RST) this.beforeReset();
    else if (name === 'ICS' && action === 'write' && value & state.mask)
      this.find('ics', `The write of ICS records ${causesOf(value & state.mask).join(' ')}, which is set in IMS: the`
        + ` line`
        + ' is asserted again.', SECTIONS.wakes);
  }

  beforeReset() {
    const count = this.state.registers.MPC || 0;
    if (count)
      this.find('mpc', `The reset clears MPC, which counts ${count} missed frame${count > 1 ? 's' : ''} that the driver`
        + " hasn't read.", SECTIONS.lostMiss);
    for (const one of [this.forgotten, this.masked, this.looks, this.unread, this.kept, this.fetches, this.frames,
      this.full, this.blind]) one.clear();
    this.fills = [];
  }

  /** A read of a head, which has passed the slots in progress. */
  readHead(name) {
    const { piece, taken: [sent] } = this.state;
    if (name === 'RDH' && piece)
      this.find('rdh', `The driver reads RDH, which has passed rx[${piece.slot}]. This slot is in progress: its`
        + ` descriptor`
        + " isn't written back yet.", SECTIONS.headPassed);
    else if (name === 'TDH' && sent)
      this.find('tdh', `The driver reads TDH, which has passed tx[${sent.slot}]. Frame T${sent.number} of this slot`
        + " isn't on the wire yet: it is in the transmit packet buffer.", SECTIONS.notSent);
  }

  /** A read of ICR, or a write that clears causes. */
  clearCauses(step, value) {
    const { state, rx } = this, cleared = step.action === 'read' ? value : value & state.causes;
    if (cleared & BIT.RXT0)
      rx.slots.forEach((slot, at) => {
        if (slot.state === 'f' && state.memory.get(rx.address(at) + STATUS) & EOP)
          this.forgotten.set(at, this.lateOf(step, at));
      });
    if (cleared & BIT.RXO)
      this.missed = { step: this.at, kind: 'rxo', section: SECTIONS.missed,
        text: `The ${step.action} of ICR clears RXO. MPC counts missed frames, and the driver doesn't read MPC`
          + ` later.` };
    if (cleared && step.action === 'read') [this.clears, this.since] = [this.at, new Set()];
  }

  /** What the driver forgets by clearing RXT0, unless it looks at this slot later. */
  lateOf(step, at) {
    const { frame } = this.rx.slots[at], look = this.blind.get(`rx[${at}]`), more = [];
    const by = (this.state.recorded.get('RXT0') || []), own = by.find(one => one.frame === frame);
    const others = by.filter(one => one.frame !== frame && (!own || one.step < own.step));
    const text = `The ${step.action} of ICR clears RXT0 of frame R${frame}, which is finished in rx[${at}]`
      + `${own ? ` since step ${own.step}` : ''}. The driver hasn't loaded this DD, and doesn't load it later.`;
    let rest = `No interrupt reports R${frame}.`;
    if (look) {
      rest += ` The last look at rx[${at}] was in step ${look.step}, too early.`;
      more.push({ step: look.step, text: `The last look at rx[${at}]: DD is clear.`
        + `${own ? ` The adapter sets it in step ${own.step}.` : ''}` });
    }
    if (others.length)
      rest += ` RXT0 is one bit: ${others.map(one => `R${one.frame}`).join(', ')} had set it before, in step`
        + ` ${others[others.length - 1].step}, and this ${step.action} clears it for all of them.`;
    return { step: this.at, kind: 'late', section: SECTIONS.handlerRuns, text, rest, more };
  }

  /** A write of a word of the receive filter. */
  writeFilter(name, value) {
    const before = this.state.registers[name] || 0, [step, word] = this.cleared.get(name) || [];
    if (word !== undefined && (value & word) >>> 0 === word)
      for (const [at, frame] of this.filtered)
        if (at > step)
          this.find(name.split('[')[0].toLowerCase(), `Frame R${frame} is filtered between two writes of ${name}: the`
            + ` first one`
            + ' clears bits, and the second one sets them again.', name[0] === 'M' ? SECTIONS.cleared : '', at);
    this.cleared.delete(name);
    if (before & ~value) this.cleared.set(name, [this.at, before]);
  }

  // Loads

  beforeLoad(step, address, size) {
    const ring = this.rx, slots = ring.slotsIn(address, size), bytes = bytesOf(step), { tx } = this.state.rings;
    for (const one of [ring, tx]) this.noteLook(one, step, address, size, bytes);
    for (const at of tx.slotsIn(address, size))
      if (bytes[tx.address(at) + STATUS - address] & DD) this.loadSent(step, at);
    for (const at of slots) {
      const first = address - ring.address(at), hasLength = first <= 8 && 8 < first + size;
      const hasStatus = first <= STATUS && STATUS < first + size, isDone = bytes[STATUS - first] & DD;
      const { state } = ring.slots[at];
      this.forgotten.delete(at);
      if (hasLength) this.lengths.delete(at);
      if (hasLength && !hasStatus && (state === 'o' || state === 'p')) this.lengths.set(at, this.at);
      if (hasStatus && !hasLength && this.lengths.has(at) && isDone) this.findLength(at);
      if (hasStatus && !isDone) this.looks.delete(at);  // a look at a buffer without a frame: the driver tries again
      if (hasStatus && isDone && state === 'F') this.loadTaken(step, at);
      if (hasStatus && isDone && state === 'f') {
        this.takers.set(at, { actor: step.actor, step: this.at });
        if (this.looks.has(at)) this.looks.get(at).done = this.at;
        else if (!this.early.has(at)) this.unread.set(ring.slots[at].fetched, ring.slots[at].frame);
      }
    }
    if (!slots.length) this.loadBuffer(step, address);
  }

  /** Notes loads of a status: those without DD, and who finds DD after one. */
  noteLook(ring, step, address, size, bytes) {
    for (const at of ring.slotsIn(address, size)) {
      const name = `${ring.name}[${at}]`, status = bytes[ring.address(at) + STATUS - address];
      if (status === undefined) continue;
      const before = this.blind.get(name);
      if (!(status & DD)) this.blind.set(name, { name, step: this.at, actor: step.actor, foundBy: null });
      else if (before && !before.foundBy) before.foundBy = { actor: step.actor, step: this.at };
    }
  }

  /** A load of DD of a sent frame. The handler may cut in on a send just after it. */
  loadSent(step, at) {
    const { freed } = this;
    if (freed && freed.slot === at && step.actor === HANDLER)
      this.find('cuts free', `The handler loads DD of tx[${at}]. The send in which the handler cut in has loaded it in`
        + ` step`
        + ` ${freed.step}, just before: both take this slot back.`, SECTIONS.cutsIn);
    else if (step.actor !== HANDLER && this.state.rings.tx.slots[at].state === 'f')
      this.freed = { slot: at, step: this.at };
  }

  /** A load of DD that was loaded before. The handler may cut in on a driver that takes frames, too. */
  loadTaken(step, at) {
    const taker = this.takers.get(at);
    if (step.actor === HANDLER && taker.actor !== HANDLER)
      this.find('taken twice', `The handler loads DD of rx[${at}], and finds it set. The driver has found it set in`
        + ` step`
        + ` ${taker.step}, and hasn't given the slot back yet. So both take frame R${this.rx.slots[at].frame}.`);
  }

  findLength(at) {
    const step = this.lengths.get(at);
    this.lengths.delete(at);
    this.find('length', `The driver loads the length of rx[${at}] here, before DD is set. It loads DD in step`
      + ` ${this.at},`
      + ' and finds it set. So it uses a length from before the write-back.', SECTIONS.twoLoads, step);
  }

  /** A load that isn't one of a descriptor: perhaps it is from the buffer of a slot. */
  loadBuffer(step, address) {
    const at = this.state.slotOfBuffer(address), slot = this.rx.slots[at];
    if (!slot) return;
    const before = this.kept.get(bufferOf(slot));
    if (before) {
      this.loadKept(slot, at, before);
      return;
    }
    this.unread.delete(bufferOf(slot));
    if ('op'.includes(slot.state)) this.looks.set(at, { step: this.at, state: slot.state, used: null, done: null });
    else if (slot.state === 'f' || slot.state === 'F') this.looks.delete(at);
    if (slot.state === 'f') this.early.add(at);
    if (slot.state === 'F' && !this.isWhole(at))
      this.find('part', `The driver loads the buffer of rx[${at}], which contains only a piece of frame R${slot.frame}.`
        + ` It`
        + " hasn't found EOP of this frame.", SECTIONS.spans);
  }

  /** A load of a buffer that was offered before the frame in it was loaded. */
  loadKept(slot, at, { frame, offer }) {
    const text = `The driver loads the buffer ${hex(bufferOf(slot))} of frame R${frame} here, but it has offered this`
      + ` buffer`
      + ` to the adapter again, with rx[${at}] in step ${offer}`;
    if (slot.state === 'o') this.find('kept', `${text}.`, SECTIONS.stillRead);
    else this.find('overwritten', `${text}. Frame R${slot.frame} is in the buffer now.`, SECTIONS.stillRead);
  }

  /** Whether the driver has loaded DD of the slot in which the frame of this slot ends. */
  isWhole(at) {
    const ring = this.rx, { frame } = ring.slots[at];
    for (let n = 0; n < ring.size; n++, at = (at + 1) % ring.size) {
      const slot = ring.slots[at], status = this.state.memory.get(ring.address(at) + STATUS) ?? null;
      if (slot.frame !== frame || slot.state !== 'F') return false;
      if (status === null || status & EOP) return true;
    }
    return false;
  }

  /** The driver takes back a slot whose buffer it has loaded before DD, or the run ends. */
  judgeLook(at) {
    const look = this.looks.get(at), slot = this.rx.slots[at];
    this.looks.delete(at);
    if (!look) return;
    if (look.done !== null && look.state === 'o')
      this.find('look', `The driver loads the buffer of rx[${at}] here, before it loads DD. Frame R${look.frame} is`
        + ` written`
        + ` to the buffer later, in step ${look.used}. In step ${look.done}, the driver finds DD set, and uses what it`
        + ` has`
        + ' loaded before.', SECTIONS.twoLoads, look.step);
    else if (look.done === null && look.state === 'p')
      this.find('head', `The driver loads the buffer of rx[${at}], which is in progress: DD isn't set yet, and the`
        + ` driver`
        + ' takes the slot without it.', SECTIONS.headPassed, look.step);
    else if (look.done === null && slot)
      this.find('early', `The driver loads the buffer of rx[${at}], which is offered to the`
        + ` adapter.`, SECTIONS.stillRead,
        look.step);
  }

  // Stores

  beforeStore(step, address, size) {
    const { rx, tx } = this.state.rings;
    for (const at of rx.slotsIn(address, size)) this.storeReceive(at, address, size);
    const slots = tx.slotsIn(address, size);
    for (const at of slots) this.storeTransmit(at, step, address, size);
    if (!slots.length && !rx.slotsIn(address, size).length) {
      const count = this.found.length;
      this.storeFrame(step, address);
      if (this.found.length === count) this.storeOwned(step, address, size);
    }
  }

  /** Whether a store replaces a status that the adapter has written back and the driver hasn't loaded. */
  erases(ring, at, address, size) {
    const status = ring.address(at) + STATUS;
    return ring.slots[at].state === 'f' && address <= status && status < address + size;
  }

  findErased(ring, at) {
    this.find('erased', `The driver stores the status of ${ring.name}[${at}], which the adapter has written back,`
      + ` before it`
      + ' has loaded DD from there.', UNSTORED[ring.name]);
  }

  storeReceive(at, address, size) {
    const slot = this.rx.slots[at], fetch = this.fetches.get(at);
    this.forgotten.delete(at);
    this.judgeLook(at);
    this.fetches.delete(at);
    if (fetch && (slot.state === 'p' || slot.state === 'f')) {
      this.find('rdt', fetch.text, SECTIONS.beforeStored, fetch.step);
      this.find('rdt late', `The driver stores the descriptor of rx[${at}] only now. The adapter has used this slot in`
        + ` step ${fetch.step} already, for frame R${slot.frame}.`, SECTIONS.beforeStored);
    } else if (slot.state === 'p') {
      this.find('head', `The driver stores a new descriptor in rx[${at}], which is in progress: the adapter hasn't`
        + ` written`
        + ' it back yet.', SECTIONS.headPassed);
    } else if (slot.state === 'o') {
      this.find('rdt store', `The driver stores the descriptor of rx[${at}] after it has offered this slot`
        + `${slot.offeredAt === null ? '' : ` in step ${slot.offeredAt}`}.`, SECTIONS.beforeStored);
    } else if (this.erases(this.rx, at, address, size)) this.findErased(this.rx, at);
  }

  /** A store outside of the rings: perhaps it is a frame to be sent. */
  storeFrame(step, address) {
    const before = this.frames.get(address);
    const slot = this.state.rings.tx.slots.findIndex(one => one.buffer === address && 'op'.includes(one.state));
    if (before && before.actor !== step.actor)
      this.find('cuts frame', `The ${whoOf(step)} stores a frame at ${hex(address)}. The ${whoOf(before)} has stored a`
        + ` frame`
        + ` there in step ${before.step}, and hasn't offered it yet.`, SECTIONS.cutsIn);
    else if (slot >= 0 && this.otherSender(slot, step))
      this.find('cuts frame', `The ${whoOf(step)} stores a frame at ${hex(address)}, the buffer of tx[${slot}]. The`
        + ` ${whoStored(this.state.rings.tx.slots[slot])} has offered this slot with its own frame, which isn't sent`
        + ` yet.`,
      SECTIONS.cutsIn);
    this.frames.set(address, { actor: step.actor, step: this.at });
  }

  /** A store into a buffer that the adapter owns: its slot is offered, or the adapter has used it, and the driver
   * hasn't loaded DD.
   */
  storeOwned(step, address, size) {
    const { tx } = this.state.rings, at = this.state.slotOfBuffer(address);
    const holds = (buffer, room) => buffer && buffer < address + size && address < buffer + Math.max(room || 0, 1);
    if (tx.slots.some(slot => slot.state === 's' && holds(slot.buffer, 1))) return;
    tx.slots.forEach((slot, n) => {
      const room = this.state.number(tx.address(n) + LENGTH, 2), name = `tx[${n}]`;
      if (slot.state === 'o' && holds(slot.buffer, room))
        this.find('fill early', `The driver writes the buffer of ${name}, at ${hex(address)}, after it has offered this`
          + ` slot${slot.offeredAt === null ? '' : ` in step ${slot.offeredAt}`}. From then on, the adapter may fetch`
          + ' the bytes that were there before.', SECTIONS.takenBefore);
      else if ('pf'.includes(slot.state) && slot.copy && holds(slot.copy.buffer, slot.copy.size))
        this.fills.push({ step: this.at, name, copy: slot.copy, address, bytes: bytesOf(step) });
    });
    const slot = this.rx.slots[at];
    if (!slot || !(this.state.registers.RCTL & BIT_EN)) return;
    if (slot.state === 'o')
      this.find('rx fill early', `The driver writes the buffer of rx[${at}], which is offered to the adapter.`,
        SECTIONS.stillRead);
    else if (slot.state === 'p' || slot.state === 'f' && !this.early.has(at))
      this.find('rx fill', `The driver writes the buffer of rx[${at}], in which frame R${slot.frame} is, before it has`
        + ' loaded DD.', SECTIONS.stillRead);
  }

  /** Where the bytes of a fetched frame differ from those that were stored later, such as `byte 14 is 0x0, not 0x2`. */
  otherByte({ copy, address, bytes }) {
    const begin = address - copy.buffer, sent = copy.bytes.slice(Math.max(0, begin));
    const at = firstOther(sent, bytes.slice(Math.max(0, -begin)));
    return at < 0 ? '' : `: byte ${at + Math.max(0, begin)} is ${hex(sent[at])}, not`
      + ` ${hex(bytes[at + Math.max(0, -begin)])}`;
  }

  /** A frame is on the wire: perhaps with other bytes than the driver has stored. */
  judgeSent(step) {
    const one = this.state.put, bytes = firstBytes(step);
    for (const fill of this.fills) {
      const other = fill.copy === one ? this.otherByte({ ...fill, copy: { ...one, bytes } }) : '';
      if (other)
        this.find('sent before', `T${one.number} is sent with other bytes than the driver has stored in step`
          + ` ${fill.step}${other}.`, SECTIONS.takenBefore);
    }
  }

  judgeFill(fill) {
    const { copy, name, step } = fill, sent = copy.putAt === null ? '' : `, and sent it in step ${copy.putAt}`;
    const is = copy.putAt === null ? 'has' : 'is sent with';
    this.find('fill', `The driver writes the buffer of ${name} here, but the adapter has fetched the frame in step`
      + ` ${copy.step}${copy.putAt !== null && copy.putAt < step ? sent : ''}. T${copy.number ?? '?'} ${is} the bytes`
      + ` from before${this.otherByte(fill)}.`, SECTIONS.takenBefore, step,
    [{ step: copy.step, text: `The adapter copies the frame here, before the driver has stored it in step ${step}.` }]);
  }

  /** Whether the other one of the driver and its handler has stored the descriptor of a transmit slot last. */
  otherSender(at, step) {
    const { storedBy } = this.state.rings.tx.slots[at];
    return !!storedBy && (storedBy === HANDLER) !== (step.actor === HANDLER);
  }

  storeTransmit(at, step, address, size) {
    const ring = this.state.rings.tx, slot = ring.slots[at], name = `tx[${at}]`;
    const isAgain = Array.from({ length: size }, (_, n) => address + n).some(byte => this.stored.has(byte));
    const isStaged = slot.state === 's' && this.state.memory.get(ring.address(at) + COMMAND) && isAgain;
    if ('opf'.includes(slot.state) && this.otherSender(at, step) && slot.storedAt !== null)
      this.find('cuts', `The ${whoOf(step)} stores the descriptor of ${name}, in which the ${whoStored(slot)} has`
        + ` stored its`
        + ` own frame in step ${slot.storedAt}: both sends use the same slot.`, SECTIONS.cutsIn);
    else if (slot.state === 'o')
      this.find('tdt store', `The driver stores the descriptor of ${name} after it has offered this slot.`,
        SECTIONS.takenBefore);
    else if (slot.state === 'p' && !slot.isStored)
      this.find('tdt', `The driver stores the descriptor of ${name} after the adapter has fetched it.`,
        SECTIONS.takenBefore);
    else if (slot.state === 'p')
      this.find('freed', `The driver stores a new descriptor in ${name}, but frame T${slot.frame} of this slot is`
        + ` still`
        + ' in the transmit packet buffer.', SECTIONS.notSent);
    else if (isStaged)
      this.find('cuts', `The ${whoOf(step)} stores ${name} again before it is offered: the frame that was stored there`
        + ` before`
        + " isn't sent.", SECTIONS.cutsIn);
    else if (this.erases(ring, at, address, size)) this.findErased(ring, at);
    for (let byte = Math.max(address, ring.address(at)); byte < Math.min(address + size, ring.address(at) + 16); byte++)
      this.stored.add(byte);
    this.reuse(step, ring.address(at) - address);
  }

  /** The driver stores a descriptor with the buffer of a fetched frame: the buffer has the next frame. */
  reuse(step, begin) {
    const bytes = bytesOf(step).slice(Math.max(0, begin), Math.max(0, begin) + 8).reverse();
    const buffer = begin >= 0 && bytes.length === 8 ? bytes.reduce((sum, byte) => 256 * sum + byte, 0) : null;
    this.fills = this.fills.filter(({ copy }) => buffer !== null
      && (buffer < copy.buffer || buffer >= copy.buffer + Math.max(1, copy.size || 0)));
  }

  // The adapter

  /** RxData or TxTake uses the slot at the head. */
  beforeUse(step) {
    const ring = this.state.rings[step.action.slice(0, 2)], at = ring.head, slot = ring.slots[at];
    if (!slot) return;
    const name = `${ring.name}[${at}]`, offer = slot.offeredAt === null ? '' : ` in step ${slot.offeredAt}`;
    if (ring.name === 'rx') this.noteUse(at, step);
    if (!slot.isStale) {
      if (step.outcome === 'fault')
        this.find('fault', `${step.action} can't use the descriptor in ${name}: this fault stops the`
          + ` ${ring.name === 'rx' ? 'receive' : 'transmit'} engine until a reset.`
          + (slot.isStored ? '' : ` The slot was offered${offer}, but the log has no store of its descriptor before.`),
        slot.isStored ? '' : UNSTORED[ring.name]);
      else if (ring.name === 'rx' && !slot.isStored && ring.isShown)
        this.fetches.set(at, { step: this.at, text: `rxdata uses rx[${at}], which was offered${offer}, but the driver`
          + ` hasn't`
          + ` stored its descriptor yet: frame R${this.state.waiting[0]?.number} goes to the address that is in memory`
          + ` there.`
        });
    } else if (ring.name === 'rx') {
      this.find('rdt', `rxdata uses rx[${at}], but the driver hasn't stored a descriptor there since the adapter used`
        + ` the`
        + ' slot: the frame goes to the old buffer.', SECTIONS.beforeStored);
    } else
      this.find('tdt', `txtake uses tx[${at}], but the driver hasn't stored the descriptor of this frame yet.`,
        SECTIONS.takenBefore);
  }

  /** Notes that a frame is written to a buffer that the driver has loaded before. */
  noteUse(at, step) {
    const look = this.looks.get(at);
    this.early.delete(at);
    if (look && look.used === null && step.outcome !== 'fault')
      [look.used, look.frame] = [this.at, this.state.waiting[0]?.number];
  }

  /** After a write of RDT or TDT. `tail` and `head` are those before it. */
  afterTail(ring, tail, head, step) {
    const register = step.name, offered = ring.offered();
    for (const at of offered) if (ring.slots[at].offeredAt === this.at) this.blind.delete(`${ring.name}[${at}]`);
    this.full.delete(ring.name);
    if (ring.tail === ring.head && ring.size) {
      const one = { step: this.at, kind: 'full', section: SECTIONS.looksEmpty,
        text: `The write makes ${register} equal to ${register.slice(0, 2)}H: all slots are offered, so the ring looks`
          + ` empty`
          + ' to the adapter.' };
      if (ring.tail !== tail) this.found.push(one);
      else if (ring.slots.every(slot => slot.isStored)) this.full.set(ring.name, one);
    }
    if (ring.name === 'rx') this.afterOffer(ring, offered);
    for (const at of ring.name === 'tx' ? offered : []) {
      for (let byte = 0; byte < DESCRIPTOR; byte++) this.stored.delete(ring.address(at) + byte);
      this.frames.delete(ring.slots[at].buffer);
    }
  }

  afterOffer(ring, offered) {
    const buffers = new Map();
    for (const at of offered) {
      const { buffer, offeredAt } = ring.slots[at];
      if (this.state.memory.get(ring.address(at) + STATUS) & DD)
        this.find('done', `The write of RDT offers rx[${at}], whose descriptor in memory still has DD.`,
          SECTIONS.doneBefore);
      if (!buffer) continue;
      if (buffers.has(buffer))
        this.find('twice', `The buffers of rx[${buffers.get(buffer)}] and rx[${at}] are the same, and both slots are`
          + ' offered.', SECTIONS.stillRead);
      else buffers.set(buffer, at);
      if (offeredAt === this.at) this.noteOffer(buffer);
    }
  }

  /** A slot is offered. Perhaps its buffer has a frame that the driver hasn't loaded. */
  noteOffer(buffer) {
    this.kept.delete(buffer);
    if (this.unread.has(buffer)) this.kept.set(buffer, { frame: this.unread.get(buffer), offer: this.at });
    this.unread.delete(buffer);
  }

  noteDry() {
    const isDry = this.rx.size && this.state.waiting.length && !this.rx.left();
    this.dry = isDry ? this.dry ?? this.at : null;
  }

  // The end of the run

  /** Adds the findings that no later step has refuted. */
  end() {
    const { state, rx } = this;
    for (const [at, finding] of this.forgotten) if (rx.slots[at]?.state === 'f') this.found.push(finding);
    for (const at of [...this.looks.keys()]) this.judgeLook(at);
    this.fills.forEach(fill => this.judgeFill(fill));
    this.found.push(...this.full.values());
    if (this.missed && state.registers.MPC) this.found.push(this.missed);
    for (const [cause, step] of this.masked)
      if (state.causes & BIT[cause])
        this.find('masked', `From this write of IMC on, ${cause} is masked. At the end of the run, ${cause} is`
          + ` recorded, but`
          + " doesn't assert the line.", '', step);
    if (this.dry !== null)
      this.find('dry', 'From this step on, no receive slot is offered. Waiting in the packet buffer: frame '
        + `${state.waiting.map(frame => `R${frame.number}`).join(', ')}.`, SECTIONS.allHeld, this.dry);
    if (this.clears !== null && this.isQuiet() && !this.since.has('write')) this.findQuiet();
  }

  /** All is done, and no interrupt follows: the driver has perhaps decided to wait by a look that was too early. */
  findQuiet() {
    const sent = this.state.sent ? ' all sent frames are on the wire, and' : '';
    const last = { step: this.clears, text: 'This read of ICR clears the last cause of the run.' };
    const look = [...this.blind.values()].filter(one => one.actor !== HANDLER && one.foundBy?.actor === HANDLER
      && one.step < this.cutIn && this.cutIn < one.foundBy.step).sort((one, two) => two.step - one.step)[0];
    if (look)
      this.found.push({ step: look.step, kind: QUIET, section: '', cutIn: this.cutIn, more: [last],
        text: `In this look, ${look.name} isn't finished. Before the driver goes on, the handler cuts in (step`
          + ` ${this.cutIn}), and finds ${look.name} finished (step ${look.foundBy.step}).`,
        rest: `The handler clears the last cause of the run (step ${this.clears}). The adapter has nothing left to do:`
          + `${sent} no interrupt follows. If the driver stops its queue because of this look, nothing wakes it: after`
          + ' stopping, it must check again for room.' });
    else
      this.find(QUIET, 'This read of ICR clears the last cause of the run, and the adapter has nothing left to do:'
        + `${sent} no interrupt follows. A driver that waits for one from here on must first look for finished slots`
        + ' once more.', '', this.clears);
  }

  /** Whether the adapter has nothing to do, and the line isn't asserted. */
  isQuiet() {
    const { piece, taken, rings, waiting, line, causes, mask } = this.state;
    return !(piece || taken.length || rings.tx.left() || waiting.length || line || causes & mask);
  }
}
