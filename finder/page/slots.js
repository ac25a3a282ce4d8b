/* The slots of a ring, and their registers. */
class Slot {
  state = 'd';
  frame = null;
  buffer = null;  // in the descriptor in memory; null if the log doesn't show it
  fetched = null;  // the address that the adapter has fetched; undefined if the log doesn't show it
  isStale = false;  // the descriptor is one that the adapter has used, or 0
  isStored = false;  // the driver has stored the descriptor since the adapter used it
  storedBy = '';  // the actor that has stored it last
  storedAt = null;  // the step of this store
  offeredAt = null;  // the step of the write of the tail that has offered it
  copy = null;  // the frame that the adapter has fetched from a transmit slot
}

/** The address of the buffer in which a slot's frame is, or will be; 0 if the log doesn't show it. */
const bufferOf = slot => ('pfF'.includes(slot.state) ? slot.fetched : slot.buffer) || 0;

class Ring {
  base = 0;
  head = 0;
  tail = 0;
  slots = [];
  isShown = false;  // the log shows a store of a descriptor of this ring

  constructor(name) {
    this.name = name;
  }

  get size() {
    return this.slots.length;
  }

  /** The number of slots that are offered: from the head up to, but not including, the tail. */
  left() {
    return Math.max(this.head, this.tail) < this.size ? (this.tail - this.head + this.size) % this.size : 0;
  }

  offered() {
    return Array.from({ length: this.left() }, (_, n) => (this.head + n) % this.size);
  }

  /** The slots of which an access of memory contains bytes. */
  slotsIn(address, size) {
    const first = Math.max(0, Math.floor((address - this.base) / DESCRIPTOR)), found = [];
    const last = Math.floor((address + Math.max(1, size) - 1 - this.base) / DESCRIPTOR);
    for (let at = first; at <= Math.min(last, this.size - 1); at++) found.push(at);
    return found;
  }

  address(slot) {
    return this.base + DESCRIPTOR * slot;
  }
}
