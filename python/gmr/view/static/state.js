// The map that is shown: packed scenes are read, changes are applied in place, and orbits are found. A dart has a slot
// in all arrays as long as it is there; a slot that is free has the name -1, and is given to a dart that comes.
(function (gmr) {
  'use strict';

  const ARRAYS = {Uint8: Uint8Array, Int8: Int8Array, Uint16: Uint16Array, Int16: Int16Array, Uint32: Uint32Array,
    Int32: Int32Array, Int64: BigInt64Array};
  const WIDTHS = {int: 1, vec2: 2, vec3: 3, rgb: 3};

  // The numbers of a packed column, as gmr.view.scene packs them; an array is one that was read already.
  function unpack(packed) {
    if (packed.length !== undefined) return packed;
    if (packed.from !== undefined) {
      const made = new Int32Array(packed.count);
      for (let at = 0; at < made.length; at += 1) made[at] = packed.from + at;
      return made;
    }
    const letters = atob(packed.data);
    const bytes = new Uint8Array(letters.length);
    for (let at = 0; at < letters.length; at += 1) bytes[at] = letters.charCodeAt(at);
    return new ARRAYS[packed.type](bytes.buffer);
  }

  // An array with room for so many numbers that begins as another one does.
  function grown(array, length) {
    if (array.length >= length) return array;
    const made = new array.constructor(length);
    made.set(array);
    return made;
  }

  // Numbers as they can be written in place: as 64-bit floats, or as BigInts where one wouldn't be held exactly.
  function widened(numbers) {
    const made = new Float64Array(numbers.length);
    if (!(numbers instanceof BigInt64Array)) {
      made.set(numbers);
      return made;
    }
    for (let at = 0; at < made.length; at += 1) {
      made[at] = Number(numbers[at]);
      if (!Number.isSafeInteger(made[at])) return numbers.slice();
    }
    return made;
  }

  // The orbits over steps of all darts among so many slots: for each slot the number of its orbit, or -1 where it is free.
  function orbitsOver(names, count, steps) {
    const of = new Int32Array(count).fill(-1);
    const waiting = new Int32Array(count);
    let found = 0;
    for (let first = 0; first < count; first += 1) {
      if (of[first] >= 0 || names[first] < 0) continue;
      let top = 0;
      waiting[top++] = first;
      of[first] = found;
      while (top > 0) {
        const dart = waiting[--top];
        for (let place = 0; place < steps.length; place += 1) {
          const near = steps[place][dart];
          if (of[near] < 0) {
            of[near] = found;
            waiting[top++] = near;
          }
        }
      }
      found += 1;
    }
    return {of, count: found};
  }

  class State {
    constructor(scene) {
      this.dimension = scene.dimension;
      this.roles = scene.labels;
      this.names = new Int32Array(unpack(scene.names));
      this.count = this.names.length;
      this.top = this.count;      // slots that are or were taken
      this.free = [];
      this.alpha = scene.alpha.map((column) => new Int32Array(unpack(column)));
      this.embeds = scene.embeds.map((embed) => ({...embed, width: WIDTHS[embed.kind], values: widened(unpack(embed.values))}));
      this.points = scene.points;
      this.places = scene.places;
      this.next = scene.next;
      this.slots = new Int32Array(this.next);     // by name: 1 more than the slot, or 0
      for (let at = 0; at < this.top; at += 1) this.slots[this.names[at]] = at + 1;
      this.found = new Map();
      this.seen = new Int32Array(this.top);
      this.stamp = 0;
    }

    // The slot of a dart, or -1.
    indexOf(name) { return (this.slots[name] || 0) - 1; }

    embed(name) { return this.embeds.find((embed) => embed.name === name); }

    // The slots of all darts, by ascending names.
    inOrder() {
      const found = this.taken();
      return this.isInOrder ? found : found.sort((one, two) => this.names[one] - this.names[two]);
    }

    // The slots of all darts.
    taken() {
      const found = new Int32Array(this.count);
      let [to, last] = [0, -1];
      this.isInOrder = true;
      for (let at = 0; at < this.top; at += 1) {
        if (this.names[at] < 0) continue;
        if (this.names[at] < last) this.isInOrder = false;
        last = this.names[at];
        found[to++] = at;
      }
      return found;
    }

    // The name of the next dart after one, round all of them.
    nameBehind(name) {
      for (let at = name + 1; at < this.next; at += 1) if (this.slots[at]) return at;
      return this.slots.findIndex((slot) => slot > 0);
    }

    // The orbits over labels, found once a state.
    orbits(labels) {
      const key = labels.join(' ');
      if (!this.found.has(key)) {
        this.found.set(key, orbitsOver(this.names, this.top, labels.map((label) => this.alpha[label])));
      }
      return this.found.get(key);
    }

    labelsBut(dimension) {
      return this.alpha.map((_, label) => label).filter((label) => label !== dimension);
    }

    // A number that no slot was marked with, for marks in `seen`.
    newStamp() {
      if (this.seen.length < this.names.length) this.seen = new Int32Array(this.names.length);
      this.stamp += 1;
      return this.stamp;
    }

    // The slots of an orbit, in the order of a walk from one of them; where it has more than `most`, about so many.
    walk(labels, first, most = Infinity) {
      const [found, stamp, {seen}] = [[first], this.newStamp(), this];
      seen[first] = stamp;
      for (let at = 0; at < found.length && found.length <= most; at += 1) {
        for (const label of labels) {
          const near = this.alpha[label][found[at]];
          if (seen[near] !== stamp) {
            seen[near] = stamp;
            found.push(near);
          }
        }
      }
      return found;
    }

    // The value of a dart: a number, an array of numbers, or a BigInt where a number wouldn't hold it.
    value(embed, dart) {
      const held = Array.from({length: embed.width}, (_, part) => embed.values[dart * embed.width + part])
        .map((part) => (typeof part === 'bigint' && Number.isSafeInteger(Number(part)) ? Number(part) : part));
      return embed.width === 1 ? held[0] : held;
    }

    // Rows of darts by names, as changes hold them: of all columns, or of those that other rows have.
    rowsOf(slots, like) {
      const values = {};
      for (const embed of this.embeds) {
        values[embed.name] = !like || like.values[embed.name] ? this.valuesOf(embed, slots) : null;
      }
      const alpha = this.alpha.map((step, label) => (!like || like.alpha[label] ? this.namesOf(slots, step) : null));
      return {names: this.namesOf(slots, null), values, alpha};
    }

    valuesOf({values, width}, slots) {
      const made = new values.constructor(slots.length * width);
      for (let at = 0; at < slots.length; at += 1) {
        for (let part = 0; part < width; part += 1) made[at * width + part] = values[slots[at] * width + part];
      }
      return made;
    }

    // The names of darts, or of those to which a step leads from them.
    namesOf(slots, step) {
      const made = new Int32Array(slots.length);
      for (let at = 0; at < made.length; at += 1) made[at] = this.names[step ? step[slots[at]] : slots[at]];
      return made;
    }

    // The slots of darts by their names.
    slotsOf(names) {
      const made = new Int32Array(names.length);
      for (let at = 0; at < made.length; at += 1) made[at] = this.slots[names[at]] - 1;
      return made;
    }

    // Applies changes. Gives the names that are new, gone and changed, and where that is wanted the changes that lead
    // back; `slots` has those of the darts that went, and of the new and changed ones. `isSewn` tells whether a
    // neighbour is another one, and `isMoved` whether a point is.
    apply(changes, isWayBack) {
      const [gone, fresh, changed] = [changes.gone, changes.fresh.names, changes.rows.names].map(unpack);
      const [left, held] = [this.slotsOf(gone), this.slotsOf(changed)];
      const undo = isWayBack ? {gone: fresh, fresh: this.rowsOf(left), rows: this.rowsOf(held, changes.rows), places: this.places, next: this.next} : null;
      for (const slot of left) this.release(slot);
      this.next = changes.next;
      const added = this.takeAll(fresh);
      this.writeRows(added, changes.fresh);
      this.writeRows(held, changes.rows);
      this.places = changes.places || (this.points ? null : this.places);
      const isOther = gone.length > 0 || fresh.length > 0;
      const isSewn = isOther || changes.rows.alpha.some(Boolean);
      if (isSewn) this.found.clear();
      const rows = new Int32Array(added.length + held.length);
      rows.set(added);
      rows.set(held, added.length);
      const isMoved = isOther || Boolean(changes.places || changes.rows.values[this.points]);
      return {fresh, gone, changed, undo, isSewn, isMoved, slots: {gone: left, rows}};
    }

    // Gives darts slots.
    takeAll(names) {
      const made = new Int32Array(names.length);
      const room = this.top + names.length - this.free.length;
      if (room > this.names.length) this.makeRoom(Math.ceil(1.25 * room) + 64);
      for (let at = 0; at < made.length; at += 1) made[at] = this.take(names[at]);
      return made;
    }

    release(slot) {
      this.slots[this.names[slot]] = 0;
      this.names[slot] = -1;
      this.free.push(slot);
      this.count -= 1;
    }

    // Gives a dart a slot.
    take(name) {
      const slot = this.free.length ? this.free.pop() : this.top++;
      if (slot >= this.names.length) this.makeRoom(Math.ceil(1.5 * slot) + 64);
      if (name >= this.slots.length) this.slots = grown(this.slots, Math.ceil(1.5 * name) + 64);
      this.names[slot] = name;
      this.slots[name] = slot + 1;
      this.count += 1;
      return slot;
    }

    makeRoom(room) {
      this.names = grown(this.names, room);
      this.alpha = this.alpha.map((step) => grown(step, room));
      for (const embed of this.embeds) embed.values = grown(embed.values, room * embed.width);
    }

    // Writes rows at slots: the columns that they have.
    writeRows(slots, {alpha, values}) {
      if (!slots.length) return;
      alpha.forEach((column, label) => {
        if (column) this.writeStep(this.alpha[label], slots, unpack(column));
      });
      for (const embed of this.embeds) if (values[embed.name]) this.writeValues(embed, slots, unpack(values[embed.name]));
    }

    writeStep(step, rows, column) {
      const {slots} = this;
      for (let at = 0; at < rows.length; at += 1) step[rows[at]] = slots[column[at]] - 1;
    }

    writeValues(embed, rows, column) {
      const {width} = embed;
      let wide = widened(column);
      if (wide instanceof BigInt64Array && !(embed.values instanceof BigInt64Array)) embed.values = BigInt64Array.from(embed.values, BigInt);
      if (embed.values instanceof BigInt64Array && !(wide instanceof BigInt64Array)) wide = BigInt64Array.from(wide, BigInt);
      const {values} = embed;
      for (let at = 0; at < rows.length; at += 1) {
        for (let part = 0; part < width; part += 1) values[rows[at] * width + part] = wide[at * width + part];
      }
    }
  }

  Object.assign(gmr, {State, unpack, grown, orbitsOver, ARRAYS});
}(window.gmr = window.gmr || {}));
