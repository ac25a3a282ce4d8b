'use strict';
/* The state of the adapter and of its memory in a run, as far as the log shows it, and what each step changes.
 *
 * The state is a set of named cells, each with a text. A step's changes are the cells that have another text after it.
 *
 * - A register, such as `RDH`: its value. A cause in `ICR?` may be recorded, too: the log doesn't show whether it is.
 * - `line`: 1 while the interrupt line is asserted.
 * - `rx`, `tx`: the number of slots of a ring.
 * - `rx[3]`: a letter of SLOTS, the slot's frame, the address of the buffer in the descriptor, and the address that the
 *   adapter has fetched, with `/` between them. An address that the log doesn't show is `?`. The last one is empty if
 *   the adapter hasn't fetched the descriptor, or if both are the same.
 * - `rx[3]=`: the descriptor's bytes as hexadecimal digits, and `..` for each byte that the log doesn't show.
 * - `rx frames`, `tx frames`: the frames in a packet buffer.
 * - `frame R3`, `frame T3`: where a frame is. Frames are numbered from 0: R in the order of their arrival, T in the
 *   order in which they are offered.
 */
const DESCRIPTOR = 16, LENGTH = 8, STATUS = 12, COMMAND = 11, DD = 1, EOP = 2, RS = 8, RST = 2 ** 26, MOST_SLOTS = 4096;
const DRIVER = 'driver', HANDLER = 'handler', ADAPTER = 'adapter', WIRE = 'wire';
/* An `F` is an `f` whose DD the driver has loaded. */
const SLOTS = { d: "the driver's", s: 'staged', o: 'offered', p: 'in progress', f: 'finished',
  F: 'finished, and the driver has loaded DD' };
const BIT = Object.fromEntries(Object.entries(NAMES.causes).map(([bit, name]) => [name, 2 ** bit]));
const ICR_BITS = Object.values(BIT).reduce((one, two) => one + two);
const SHOWN = ['ICR', 'IMS', 'RDH', 'RDT', 'TDH', 'TDT', 'MPC', 'RCTL', 'TCTL'];
const COUNTERS = ['MPC', 'GPRC', 'GPTC', 'RNBC'], KEPT = ['PBA'];  // a reset doesn't change KEPT
const WRITABLE = { RCTL: 0x0607B33A, TCTL: 0x003FFFFA };
const SIZES = [2048, 1024, 512, 256];  // of receive buffers, by RCTL.BSIZE
const SLOT = /^(rx|tx)\[(\d+)\](?:\+(\d+))?$/;

/** The name of a frame. */
const nameOf = (ring, number) => `${ring === 'rx' ? 'R' : 'T'}${number ?? '?'}`;
const hex = number => `0x${number.toString(16)}`;
const byteText = byte => byte === null || byte === undefined ? '..' : byte.toString(16).padStart(2, '0');
const namesIn = (value, names) => Object.entries(names || {}).filter(([bit]) => Math.floor(value / 2 ** bit) % 2)
  .map(([, name]) => name);
const causesOf = value => namesIn(value, NAMES.causes);
const isRegister = name => /^[A-Z]|^register\[/.test(name);
const isAccess = step => (step.action === 'read' || step.action === 'write') && !!step.name;
const LAST_BYTES = 2, MOST_COPIED = 64;  // the last bytes of a frame that is cut; bytes of a frame that are kept
const bytesOf = step => (step.data || '').match(/../g)?.map(two => parseInt(two, 16)) || [];

/** The first bytes of a frame, as far as the log has them: of a frame that is cut, the last ones come after them. */
function firstBytes(step) {
  const bytes = bytesOf(step);
  return (step.size || 0) > bytes.length ? bytes.slice(0, Math.max(0, bytes.length - LAST_BYTES)) : bytes;
}

const isKnown = byte => typeof byte === 'number';
/** The first byte in which two lists differ, of those that both have; -1 if there is none. */
const firstOther = (one, two) => one.findIndex((byte, at) => isKnown(byte) && isKnown(two[at]) && byte !== two[at]);

class State {
  cells = {};
  changed = {};
  registers = {};
  causes = 0;
  mask = 0;
  unsure = 0;  // causes that may be recorded, too
  memory = new Map();  // by address: a byte, or null if the log doesn't show it
  rings = { rx: new Ring('rx'), tx: new Ring('tx') };
  waiting = [];  // frames in the receive packet buffer, the oldest first: their numbers and sizes (0 if not known)
  moved = 0;  // bytes of the oldest frame that are in buffers
  piece = null;  // the piece in progress
  taken = [];  // frames in the transmit packet buffer, the oldest first
  put = null;  // the frame that was put on the wire last
  recorded = new Map();  // by causes that are recorded: the frames that have recorded them, and the steps
  told = '';  // what the last step of the adapter has done, in words
  bytes = [];  // what the last step has moved: pairs of a name and a list of bytes
  arrived = 0;
  sent = 0;
  at = 0;  // the number of the step
  line = false;
  wrong = [];  // what a read shows, although the steps before lead to another value

  /** Sets the text of a cell. A cell that isn't set yet has the text `before`. */
  set(cell, text, before) {
    if ((this.cells[cell] ?? before) !== text) this.cells[cell] = this.changed[cell] = text;
  }

  putNumber(register, value) {
    this.registers[register] = value;
    this.set(register, hex(value));
  }

  putCauses() {
    this.putNumber('ICR', this.causes);
    this.set('ICR?', causesOf(this.unsure & ~this.causes).join(' '), '');
  }

  putRing(ring) {
    const letter = ring.name[0].toUpperCase();
    this.set(ring.name, `${ring.size}`);
    this.putNumber(`${letter}DH`, ring.head);
    this.putNumber(`${letter}DT`, ring.tail);
    ring.slots.forEach((_, at) => this.putSlot(ring, at));
  }

  putSlot(ring, at) {
    const slot = ring.slots[at], begin = ring.address(at);
    const address = one => one === null || one === undefined ? '?' : hex(one);
    const buffer = slot.state === 'd' && slot.buffer === null ? '' : address(slot.buffer);
    const fetched = 'pfF'.includes(slot.state) && slot.fetched !== slot.buffer ? address(slot.fetched) : '';
    this.set(`${ring.name}[${at}]`, [slot.state, slot.frame ?? '', buffer, fetched].join('/'), 'd///');
    let text = '';
    for (let byte = 0; byte < DESCRIPTOR; byte++) text += byteText(this.memory.get(begin + byte));
    this.set(`${ring.name}[${at}]=`, /^\.+$/.test(text) ? '' : text, '');
  }

  putFrames() {
    this.set('rx frames', this.waiting.map(frame => frame.number).join(' '));
    this.set('tx frames', this.taken.map(frame => frame.number ?? '?').join(' '));
  }

  record(...causes) {
    for (const cause of causes) this.causes |= BIT[cause];
    this.putCauses();
  }

  /** Notes where a frame is. */
  follow(ring, frame, where) {
    if (frame !== null) this.set(`frame ${nameOf(ring.name, frame)}`, where);
  }

  // Memory

  /** Stores these bytes. Those after them, up to `size`, aren't known. */
  store(address, bytes, size) {
    for (let at = 0; at < Math.max(size, bytes.length, 1); at++) this.memory.set(address + at, bytes[at] ?? null);
  }

  /** The bytes in memory from an address on; null for each that isn't known. */
  bytesAt(address, size) {
    return Array.from({ length: Math.min(size || 0, MOST_COPIED) }, (_, at) => this.memory.get(address + at) ?? null);
  }

  /** The number in memory, or null if a byte of it isn't known. */
  number(address, size) {
    let value = 0;
    for (let at = size - 1; at >= 0; at--) {
      const byte = this.memory.get(address + at) ?? null;
      if (byte === null) return null;
      value = 256 * value + byte;
    }
    return value;
  }

  /** The address of a name of memory, such as `rx[1]+8` or `0x10000`; null if it has none. */
  addressOf(name) {
    const found = SLOT.exec(name);
    if (found) return this.rings[found[1]].address(+found[2]) + +(found[3] || 0);
    return /^0x[0-9a-f]+$/i.test(name) ? Number(name) : null;
  }

  placeSlot(ring, at) {
    ring.slots[at].buffer = this.number(ring.address(at), 8);
  }

  /** The slot whose receive buffer contains an address: if there are several, one that the driver hasn't taken yet.
   * -1 if there is none.
   */
  slotOfBuffer(address) {
    const room = SIZES[this.registers.RCTL >>> 16 & 3];
    let found = -1, best = -1;
    this.rings.rx.slots.forEach((slot, at) => {
      const begin = bufferOf(slot), order = 'sFfop'.indexOf(slot.state);
      if (begin && begin <= address && address < begin + room && begin + order / 8 > best)
        [found, best] = [at, begin + order / 8];
    });
    return found;
  }

  descriptorBytes(ring, at) {
    return Array.from({ length: DESCRIPTOR }, (_, byte) => this.memory.get(ring.address(at) + byte));
  }

  /** Whether the log shows that a descriptor is 0. */
  isEmpty(ring, at) {
    return this.descriptorBytes(ring, at).every(byte => byte === 0);
  }

  /** Whether the log shows a store of a descriptor that isn't 0, or may not be. */
  isStored(ring, at) {
    return this.descriptorBytes(ring, at).some(byte => byte || byte === null);
  }

  // The driver

  access(step) {
    if (!isRegister(step.name) && step.data && !SLOT.test(step.name))
      this.bytes = [[step.action === 'read' ? 'loaded' : 'stored', bytesOf(step)]];
    if (isRegister(step.name)) {
      const call = step.action === 'read' ? 'readRegister' : 'writeRegister';
      if (step.value !== undefined) this[call](step.name, step.value);
      return;
    }
    const address = this.addressOf(step.name);
    if (address !== null) this[step.action === 'read' ? 'load' : 'storeByDriver'](step, address);
  }

  load(step, address) {
    const bytes = bytesOf(step), all = Object.values(this.rings);
    for (const ring of all)
      for (const at of ring.slotsIn(address, step.size || 1)) {
        this.checkLoad(ring, at, address, bytes);
        const slot = ring.slots[at];
        if (bytes[ring.address(at) + STATUS - address] & DD && slot.state === 'f') {
          slot.state = 'F';
          this.follow(ring, slot.frame, `${ring.name}[${at}]: the driver has loaded DD`);
        }
      }
    bytes.forEach((byte, at) => this.memory.set(address + at, byte));
    for (const ring of all)
      for (const at of ring.slotsIn(address, bytes.length)) {
        if (bytes.length) this.placeSlot(ring, at);
        this.putSlot(ring, at);
      }
  }

  /** Compares what is loaded from a descriptor with what is known of it. */
  checkLoad(ring, at, address, bytes) {
    this.descriptorBytes(ring, at).forEach((known, byte) => {
      const got = bytes[ring.address(at) + byte - address];
      if (typeof known === 'number' && got !== undefined && got !== known)
        this.wrong.push(`${ring.name}[${at}]+${byte}: ${hex(got)} is loaded instead of ${hex(known)}`);
    });
  }

  storeByDriver(step, address) {
    this.store(address, bytesOf(step), step.size || 0);
    for (const one of this.taken)
      if (step.data && address < one.buffer + Math.max(1, one.size) && one.buffer < address + (step.size || 1))
        one.isStoredLater = true;
    for (const ring of Object.values(this.rings))
      for (const at of ring.slotsIn(address, step.size || 1)) {
        const slot = ring.slots[at];
        if (slot.state === 'f')
          this.follow(ring, slot.frame, `${ring.name}[${at}]: the driver stores a descriptor before it loads DD`);
        if ('dsfF'.includes(slot.state)) {
          if (slot.state !== 's') slot.frame = null;
          slot.state = this.isStored(ring, at) ? 's' : 'd';
        }
        slot.isStale = ring.name === 'tx' && this.isEmpty(ring, at);
        slot.isStored = !slot.isStale;
        ring.isShown ||= slot.isStored;
        [slot.storedBy, slot.storedAt] = [step.actor, this.at];
        this.placeSlot(ring, at);
        this.putSlot(ring, at);
      }
  }

  readRegister(name, value) {
    if (name === 'ICR') {
      if ((value ^ this.causes) & ~this.unsure & ICR_BITS)
        this.wrong.push(`ICR is ${hex(value)} instead of ${hex(this.causes)}`);
      this.causes = this.unsure = 0;
      this.recorded.clear();
      this.putCauses();
      return;
    }
    const known = this.registers[name];
    const isFollowed = COUNTERS.includes(name) || known !== undefined
      && ['RDH', 'RDT', 'TDH', 'TDT', 'IMS', 'RCTL', 'TCTL'].includes(name);
    if (isFollowed && (known || 0) !== value) this.wrong.push(`${name} is ${hex(value)} instead of ${hex(known || 0)}`);
    this.putNumber(name, COUNTERS.includes(name) ? 0 : value);
  }

  writeRegister(name, value) {
    if (name === 'CTRL' && value & RST) {
      this.reset();
    } else if (name === 'ICR') {
      this.causes &= ~value;
      this.unsure &= ~value;
      causesOf(value).forEach(cause => this.recorded.delete(cause));
      this.putCauses();
    } else if (name === 'ICS') {
      this.causes |= value & ICR_BITS;
      this.putCauses();
    } else if (name === 'IMS' || name === 'IMC') {
      this.mask = name === 'IMS' ? this.mask | value & ICR_BITS : this.mask & ~value;
      this.putNumber('IMS', this.mask);
    } else if (/^[RT]D(BA[LH]|LEN|H|T)$/.test(name)) {
      this.writeRing(name, value);
    } else if (![...COUNTERS, 'STATUS', 'EERD', 'MDIC'].includes(name)) {
      this.putNumber(name, (value & (WRITABLE[name] ?? -1)) >>> 0);
    }
  }

  writeRing(name, value) {
    const ring = this.rings[name[0] === 'R' ? 'rx' : 'tx'], part = name.slice(1), low = ring.base % 2 ** 32;
    if (part === 'DBAL') ring.base = ring.base - low + ((value & 0xFFFFFFF0) >>> 0);
    else if (part === 'DBAH') ring.base = low + value * 2 ** 32;
    else if (part === 'DLEN')
      ring.slots = Array.from({ length: Math.min((value & 0x000FFF80) / DESCRIPTOR, MOST_SLOTS) }, () => new Slot());
    else ring[part === 'DH' ? 'head' : 'tail'] = value & 0xFFFF;
    const isMoved = part !== 'DH' && part !== 'DT';
    if (isMoved) {
      ring.slots.forEach((slot, at) => {
        this.placeSlot(ring, at);
        slot.isStale = this.isEmpty(ring, at);
        slot.isStored = this.isStored(ring, at);
        ring.isShown ||= slot.isStored;
        slot.state = slot.isStored ? 's' : 'd';
      });
      this.set(ring.name, '0');  // so that no cell of an earlier ring is shown
    }
    const changed = this.offer(ring);
    if (isMoved) {
      this.putRing(ring);
    } else {
      this.putNumber(name, part === 'DH' ? ring.head : ring.tail);
      for (const at of changed) this.putSlot(ring, at);
    }
  }

  /** Sets the states of slots by the head and the tail. Returns the slots that have changed. */
  offer(ring) {
    const offered = new Set(ring.offered()), changed = [];
    for (const at of offered) {
      const slot = ring.slots[at];
      if (slot.state === 'o' || slot.state === 'p') continue;
      [slot.state, slot.frame, slot.fetched, slot.offeredAt] = ['o', null, null, this.at];
      changed.push(at);
      if (ring.name === 'tx') {
        slot.frame = this.sent++;
        this.follow(ring, slot.frame, `tx[${at}]: offered`);
      }
    }
    ring.slots.forEach((slot, at) => {
      if (slot.state === 'o' && !offered.has(at)) {
        slot.state = 's';
        changed.push(at);
      }
    });
    return changed;
  }

  reset() {
    for (const frame of this.waiting) this.follow(this.rings.rx, frame.number, 'dropped by a reset');
    for (const ring of Object.values(this.rings))
      for (const slot of ring.slots)
        if (slot.state === 'p' || slot.state === 'o' && ring.name === 'tx')
          this.follow(ring, slot.frame, 'dropped by a reset');
    this.rings = { rx: new Ring('rx'), tx: new Ring('tx') };
    this.causes = this.unsure = this.mask = this.moved = 0;
    [this.waiting, this.taken, this.piece] = [[], [], null];
    this.recorded.clear();
    for (const name of Object.keys(this.registers)) if (!KEPT.includes(name)) this.putNumber(name, 0);
    this.putCauses();
    this.putNumber('IMS', 0);
    Object.values(this.rings).forEach(ring => this.putRing(ring));
    this.putFrames();
  }

  // The adapter and the wire

  arrive(step) {
    const number = this.arrived++, ring = this.rings.rx, fate = step.outcome || '';
    this.follow(ring, number, fate === 'stored' ? 'in the receive packet buffer' : fate);
    if (fate === 'missed') {
      this.putNumber('MPC', (this.registers.MPC || 0) + 1);
      this.record('RXO');
    }
    if ((fate === 'missed' || fate === 'stored') && ring.head === ring.tail)
      this.putNumber('RNBC', (this.registers.RNBC || 0) + 1);
    if (fate === 'stored') this.waiting.push({ number, size: step.size || 0, bytes: firstBytes(step) });
    this.bytes = [['the frame', firstBytes(step)]];
    this.putFrames();
  }

  /** RxData: a piece of the oldest frame goes to the buffer of the slot at the head. */
  move(isLast) {
    const ring = this.rings.rx, at = ring.head, frame = this.waiting[0];
    if (at >= ring.size || !frame) {
      this.wrong.push('rxdata without a slot or without a frame');
      return;
    }
    const rest = frame.size - this.moved, room = SIZES[this.registers.RCTL >>> 16 & 3], size = Math.min(rest, room);
    if (frame.size && isLast !== rest <= room)
      this.wrong.push(`a piece of frame ${frame.number} is the last: ${isLast}`);
    this.placeSlot(ring, at);
    const slot = ring.slots[at];
    [slot.state, slot.frame, slot.fetched] = ['p', frame.number, slot.buffer ?? undefined];
    [slot.isStale, slot.isStored] = [true, false];
    const bytes = frame.bytes.slice(this.moved, this.moved + size);
    for (let byte = 0; slot.buffer !== null && byte < size; byte++)
      this.memory.set(slot.buffer + byte, bytes[byte] ?? null);
    this.bytes = [['copied', bytes]];
    const part = isLast && !this.moved ? '' : isLast ? 'the last piece of ' : 'a piece of ';
    this.told = `${part}${nameOf('rx', frame.number)}${frame.size ? `, ${size} bytes,` : ''} goes to`
      + ` ${slot.buffer === null ? '' : `${hex(slot.buffer)}, `}the buffer of rx[${at}]`;
    this.piece = { slot: at, address: ring.address(at), frame, size: frame.size ? size : 0, isLast };
    this.moved = isLast ? 0 : this.moved + size;
    ring.head = (at + 1) % ring.size;
    this.follow(ring, frame.number, `rx[${at}]: in progress`);
    if (isLast) this.waiting.shift();
    if (ring.left() * 2 === ring.size) this.record('RXDMT0');
    this.putNumber('RDH', ring.head);
    this.putSlot(ring, at);
    this.putFrames();
  }

  /** RxDone: the descriptor of the piece in progress is written back. */
  finish() {
    const ring = this.rings.rx, piece = this.piece;
    if (!piece) {
      this.wrong.push('rxdone without a piece');
      return;
    }
    this.piece = null;
    this.store(piece.address + 8, piece.size ? [piece.size & 255, piece.size >> 8] : [], 2);
    this.store(piece.address + 10, [0, 0, piece.isLast ? DD | EOP : DD, 0, 0, 0], 6);
    this.follow(ring, piece.frame.number, `rx[${piece.slot}]: finished`);
    this.told = `rx[${piece.slot}] is written back with ${piece.isLast ? 'DD EOP' : 'DD, without EOP'}:`
      + ` ${nameOf('rx', piece.frame.number)}`;
    if (piece.isLast) {
      this.record('RXT0');
      this.recorded.set('RXT0', [...this.recorded.get('RXT0') || [], { frame: piece.frame.number, step: this.at }]);
      this.putNumber('GPRC', (this.registers.GPRC || 0) + 1);
    }
    if (piece.slot < ring.size) {
      ring.slots[piece.slot].state = 'f';
      this.putSlot(ring, piece.slot);
    }
  }

  /** TxTake: the frame of the slot at the head goes to the packet buffer. */
  take() {
    const ring = this.rings.tx, at = ring.head;
    if (at >= ring.size) {
      this.wrong.push('txtake without a slot');
      return;
    }
    this.placeSlot(ring, at);
    const slot = ring.slots[at], command = this.memory.get(ring.address(at) + COMMAND) ?? null;
    [slot.state, slot.fetched] = ['p', slot.buffer ?? undefined];
    ring.head = (at + 1) % ring.size;
    const size = this.number(ring.address(at) + LENGTH, 2), bytes = this.bytesAt(slot.buffer ?? NaN, size);
    slot.copy = { slot: at, address: ring.address(at), number: slot.frame, buffer: slot.buffer, size, bytes,
      step: this.at, putAt: null, hasRs: command === null ? null : !!(command & RS) };
    this.taken.push(slot.copy);
    this.bytes = [['copied', bytes]];
    this.told = `descriptor tx[${at}] and ${size === null ? 'the bytes' : `${size} bytes`} from`
      + ` ${slot.buffer === null ? 'its buffer' : hex(slot.buffer)} are copied: ${nameOf('tx', slot.frame)}`;
    this.follow(ring, slot.frame, `tx[${at}]: in the transmit packet buffer`);
    if (ring.head === ring.tail) this.record('TXQE');
    this.putNumber('TDH', ring.head);
    this.putSlot(ring, at);
    this.putFrames();
  }

  /** TxPut: the oldest frame of the packet buffer goes to the wire, and its descriptor is written back. */
  putOnWire() {
    const ring = this.rings.tx, one = this.taken.shift();
    if (!one) {
      this.wrong.push('txput without a frame');
      return;
    }
    [this.put, one.putAt, this.bytes] = [one, this.at, [['put on the wire', one.bytes]]];
    const without = one.hasRs === false ? ', without DD: RS is clear' : '';
    const done = one.hasRs ? `, and DD is set in tx[${one.slot}]` : without;
    this.told = `${nameOf('tx', one.number)} of tx[${one.slot}] goes to the wire${done}`;
    if (one.hasRs === null) {
      this.store(one.address + STATUS, [], 1);
      this.unsure |= BIT.TXDW;
      this.putCauses();
    } else if (one.hasRs) {
      this.store(one.address + STATUS, [DD], 1);
      this.record('TXDW');
    }
    this.putNumber('GPTC', (this.registers.GPTC || 0) + 1);
    this.follow(ring, one.number, `tx[${one.slot}]: on the wire`);
    const slot = ring.slots[one.slot];
    if (slot) {
      [slot.state, slot.isStale, slot.isStored] = ['f', true, false];
      this.putSlot(ring, one.slot);
    }
    this.putFrames();
  }

  /** The bytes of the frame that is on the wire now. */
  seeFrame(step) {
    const one = this.put, bytes = firstBytes(step);
    this.bytes = [['on the wire', bytes]];
    if (!one || !bytes.length) return;
    bytes.forEach((byte, at) => {  // what is on the wire is what was copied
      if (!isKnown(one.bytes[at])) one.bytes[at] = byte;
    });
    const now = one.isStoredLater ? this.bytesAt(one.buffer, bytes.length) : [];
    if (firstOther(bytes, now) >= 0) this.bytes.push([`now at ${hex(one.buffer)}`, now]);
  }

  setLine(isAsserted) {
    this.line = isAsserted;
    this.set('line', isAsserted ? '1' : '', '');
  }

  /** Plays a step. Returns the cells that it changes, with their new texts. */
  play(step) {
    [this.changed, this.told, this.bytes] = [{}, '', []];
    const { action, outcome } = step;
    if (isAccess(step)) this.access(step);
    else if (action === 'arrive') this.arrive(step);
    else if (action === 'frame') this.seeFrame(step);
    else if (action === 'raise' || action === 'lower') this.setLine(action === 'raise');
    else if (action === 'rxdata' && (outcome === 'moved' || outcome === 'part')) this.move(outcome === 'moved');
    else if (action === 'rxdone') this.finish();
    else if (action === 'txtake' && outcome === 'took') this.take();
    else if (action === 'txput' && outcome === 'put') this.putOnWire();
    else if (action === 'phy') {
      this.unsure |= BIT.LSC | BIT.MDAC;
      this.putCauses();
    }
    this.at++;
    return this.changed;
  }
}
