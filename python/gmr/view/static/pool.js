// Buffers of the graphics card in which each thing that is drawn has a block of its own: blocks are written and given
// free one by one, and of a buffer only what was written is sent. Things that have corners are written once each, and
// repeated for each corner as they are sent: instances of so few triangles would be drawn slower.
(function (gmr) {
  'use strict';

  const NEAR = 512;       // items between two ranges that are sent as one
  const MOST_RANGES = 200;

  class Pool {
    // `layout` has for each attribute its width, its type, whether it is a colour, and whether it is kept here and not
    // sent; where there are `corners`, an item is drawn at each of them: {at: three numbers each, index: the corners of
    // its triangles}.
    constructor(layout, corners, room = 256) {
      this.layout = Object.entries(layout);
      this.drawn = this.layout.filter(([, [, , , isKept]]) => !isKept);
      this.corners = corners;
      this.many = corners ? corners.at.length / 3 : 1;
      this.room = 0;
      this.empty();
      this.makeRoom(room);
    }

    // Takes all blocks away.
    empty() {
      this.top = 0;               // items up to here are drawn
      this.used = 0;
      this.begins = new Int32Array(0);    // by key: 1 more than where its block begins, or 0
      this.sizes = new Int32Array(0);
      this.free = new Map();      // by size: where blocks begin that are free
      this.ranges = [];           // that were written since they were sent last,
      this.paints = [];           // and those of which the colours alone were
    }

    // Gives a key a block of so many items, and answers where it begins.
    put(key, size) {
      const stack = this.free.get(size);
      const begin = stack && stack.length ? stack.pop() : this.top;
      if (begin === this.top) {
        this.top += size;
        if (this.top > this.room) this.makeRoom(Math.ceil(1.5 * this.top));
      }
      if (key >= this.begins.length) {
        const room = Math.ceil(1.5 * key) + 256;
        this.begins = gmr.grown(this.begins, room);
        this.sizes = gmr.grown(this.sizes, room);
      }
      this.begins[key] = begin + 1;
      this.sizes[key] = size;
      this.used += size;
      this.touch(begin, begin + size);
      return begin;
    }

    // Takes a key's block away, if it has one: nothing is drawn there until another one takes its place.
    drop(key) {
      if (key >= this.begins.length || !this.begins[key]) return;
      const [begin, size] = [this.begins[key] - 1, this.sizes[key]];
      for (const [name, [width]] of this.layout) {
        this[name].fill(name === 'id' ? -1 : 0, begin * width, (begin + size) * width);
      }
      if (!this.free.has(size)) this.free.set(size, []);
      this.free.get(size).push(begin);
      this.begins[key] = 0;
      this.used -= size;
      this.touch(begin, begin + size);
    }

    // Whether so much is free that all is better written anew.
    get isLoose() { return this.top > 2 * this.used + 4096; }

    touch(begin, end) { this.note(this.ranges, begin, end); }

    paint(begin, end) { this.note(this.paints, begin, end); }

    note(ranges, begin, end) {
      const last = ranges[ranges.length - 1];
      const near = NEAR / this.many;
      if (last && begin <= last[1] + near && end >= last[0] - near) {
        last[0] = Math.min(begin, last[0]);
        last[1] = Math.max(end, last[1]);
      } else ranges.push([begin, end]);
    }

    // Makes room for so many items more than are drawn.
    reserve(count) { if (this.top + count > this.room) this.makeRoom(Math.ceil(1.1 * (this.top + count))); }

    makeRoom(room) {
      this.room = room;
      for (const [name, [width, Type]] of this.layout) {
        this[name] = this[name] ? gmr.grown(this[name], room * width) : new Type(room * width);
      }
      this.isOld = true;
    }

    // The geometry that draws the blocks; another one where the buffers grew. Without `gl` it is never sent in parts.
    geometry(gl) {
      const {corners, many} = this;
      if (!this.made || this.isOld) {
        if (this.made) this.made.dispose();
        this.made = new THREE.BufferGeometry();
        this.sent = {};
        for (const [name, [width, Type, isColour]] of this.drawn) {
          this.sent[name] = corners ? new Type(this.room * many * width) : this[name];
          this.made.addAttribute(name, this.attribute(gl, name, width, isColour));
        }
        if (corners) this.addCorners();
        this.repeat(0, this.top);
        this.isOld = false;
        [this.ranges, this.paints] = [[], []];
      }
      this.made.setDrawRange(0, this.top * (corners ? corners.index.length : 1));
      return this.made;
    }

    // The corners of all items, and those of their triangles.
    addCorners() {
      const {room, many, corners: {at, index}} = this;
      const places = new Float32Array(3 * many * room);
      const triangles = new Uint32Array(index.length * room);
      for (let item = 0; item < room; item += 1) {
        places.set(at, 3 * many * item);
        for (let place = 0; place < index.length; place += 1) triangles[item * index.length + place] = item * many + index[place];
      }
      this.made.addAttribute('position', new THREE.BufferAttribute(places, 3));
      this.made.setIndex(new THREE.BufferAttribute(triangles, 1));
    }

    // Writes items as they are sent, once for each corner.
    repeat(begin, end) {
      if (!this.corners) return;
      for (const [name, [width]] of this.drawn) gmr.repeat(this[name], width, this.many, this.sent[name], begin, end);
    }

    // An attribute that keeps the buffer into which it is sent, which three.js tells nobody.
    attribute(gl, name, width, isColour) {
      const made = new THREE.BufferAttribute(this.sent[name], width, Boolean(isColour));
      made.setUsage(THREE.DynamicDrawUsage);
      if (gl) made.onUpload(() => { made.sentTo = gl.getParameter(gl.ARRAY_BUFFER_BINDING); });
      return made;
    }

    // Sends what was written since it was sent last; what is drawn for the first time is sent whole by three.js.
    send(gl) {
      const all = this.merged(this.ranges);
      const coloured = this.merged([...all, ...this.paints]);
      [this.ranges, this.paints] = [[], []];
      let sent = 0;
      for (const [begin, end] of coloured) this.repeat(begin, end);
      for (const [name, [width, , isColour]] of this.drawn) {
        const {array, sentTo} = this.made.attributes[name];
        if (sentTo) sent += this.sendRanges(gl, sentTo, array, width * this.many, isColour ? coloured : all);
      }
      return sent;
    }

    // Sends ranges of items, each of so many numbers, to a buffer of the card; gives how many bytes they have.
    sendRanges(gl, buffer, array, size, ranges) {
      const bytes = size * array.BYTES_PER_ELEMENT;
      gl.bindBuffer(gl.ARRAY_BUFFER, buffer);
      for (const [begin, end] of ranges) gl.bufferSubData(gl.ARRAY_BUFFER, begin * bytes, array.subarray(begin * size, end * size));
      return ranges.reduce((sum, [begin, end]) => sum + (end - begin) * bytes, 0);
    }

    // Ranges in order, near ones as one.
    merged(ranges) {
      const found = [];
      for (const [begin, end] of ranges.sort((one, two) => one[0] - two[0])) {
        const last = found[found.length - 1];
        if (last && begin <= last[1] + NEAR / this.many) last[1] = Math.max(last[1], end); else found.push([begin, end]);
      }
      return found.length > MOST_RANGES ? [[found[0][0], found[found.length - 1][1]]] : found;
    }

    dispose() { if (this.made) this.made.dispose(); }
  }

  // Writes so many numbers of each item so many times over, one after another.
  function repeat(from, width, many, into, begin, end) {
    for (let item = begin, to = begin * width * many; item < end; item += 1) {
      for (let corner = 0; corner < many; corner += 1) {
        for (let at = item * width; at < (item + 1) * width; at += 1, to += 1) into[to] = from[at];
      }
    }
  }

  Object.assign(gmr, {Pool, repeat});
}(window.gmr = window.gmr || {}));
