// Where everything of a map is: the places of its darts by their slots, in units in which the whole map is about 2 wide.
(function (gmr) {
  'use strict';

  // The frame in which a map is drawn: what is subtracted from places, and by what they are divided.
  function frameOf(places, slots) {
    const low = [Infinity, Infinity, Infinity];
    const high = [-Infinity, -Infinity, -Infinity];
    for (let at = 0; at < slots.length; at += 1) {
      for (let axis = 0; axis < 3; axis += 1) {
        const place = places[3 * slots[at] + axis];
        if (place < low[axis]) low[axis] = place;
        if (place > high[axis]) high[axis] = place;
      }
    }
    if (!slots.length) return {middle: [0, 0, 0], radius: 1};
    const reach = Math.hypot(...high.map((top, axis) => top - low[axis])) / 2;
    return {middle: high.map((top, axis) => (top + low[axis]) / 2), radius: reach || 1};
  }

  // The places of darts in the numbers of the map: of each its vertex.
  function writePoints(state, slots, into) {
    const {width, values} = state.embed(state.points);
    for (let at = 0; at < slots.length; at += 1) {
      const slot = slots[at];
      for (let part = 0; part < width; part += 1) into[3 * slot + part] = Number(values[slot * width + part]);
    }
  }

  // The places of a map that is laid out, so many a dart by ascending names, each of so many numbers.
  function placesLaidOut(state, slots, many, width) {
    const made = Array.from({length: many}, () => new Float64Array(3 * state.names.length));
    if (!state.places) return made;
    const {from, step, at} = state.places;
    const numbers = gmr.unpack(at);
    for (let place = 0; place < slots.length; place += 1) {
      for (let part = 0; part < many; part += 1) {
        for (let axis = 0; axis < width; axis += 1) {
          made[part][3 * slots[place] + axis] = from[axis] + step * numbers[(many * place + part) * width + axis];
        }
      }
    }
    return made;
  }

  class Shape {
    // The shape of a state, in a frame or in its own.
    constructor(state, frame) {
      this.state = state;
      this.isLine = state.dimension === 1;
      this.deep = 0;
      this.room = 0;
      this.makeRoom();
      this.bends = Boolean(state.places && state.places.flat);
      const all = state.places ? state.inOrder() : state.taken();
      if (this.bends) this.layOut(frame, all); else this.stand(frame, all);
      this.isFlat = this.bends || this.isLevel();
      this.parts = 0;
      this.joinVolumes([], all);
      this.isSpread = this.parts > 1 && !this.bends;
      this.middle = this.middleOfParts(all);
    }

    get count() { return this.state.count; }

    // Makes room for the darts of the state, and finds its steps: the labels that play 0, 1 and 2.
    makeRoom() {
      const {state} = this;
      const room = state.names.length;
      if (room > this.room) {
        const all = {vertex: Float32Array, edge: Float32Array, toward1: Float32Array, toward0: Float32Array, volumeMiddles: Float64Array};
        for (const [name, Type] of Object.entries(all)) this[name] = this[name] ? gmr.grown(this[name], 3 * room) : new Type(3 * room);
        for (const [name, Type] of [['outer', Uint8Array], ['face', Int32Array], ['volume', Int32Array], ['self', Int32Array]]) {
          this[name] = this[name] ? gmr.grown(this[name], room) : new Type(room);
        }
        this.volume.fill(-1, this.room);
        for (let at = this.room; at < room; at += 1) this.self[at] = at;
        this.room = room;
      }
      this.roleLabels = [...state.roles];
      if (state.dimension === 3) this.roleLabels.push([0, 1, 2, 3].find((label) => !state.roles.includes(label)));
      this.steps = [0, 1, 2].map((role) => (role < state.roles.length ? state.alpha[state.roles[role]] : this.self));
    }

    // Takes up what `State.apply` found. Gives the slots of darts that went, and the faces that are other ones; where
    // none is, the slots of the darts that have other values alone; null where all is to be made anew.
    renew({slots: {gone, rows}, isSewn, isMoved}) {
      if (!isSewn && !isMoved) return {gone, rows, faces: null};
      const hadSpread = this.isSpread;
      this.ways = null;
      this.makeRoom();
      if (this.state.places || 2 * rows.length > this.count) return null;
      this.writeVertices(rows);
      if (this.isLevel() !== this.isFlat) return null;
      const volumes = isSewn ? this.joinVolumes(gone, rows) : null;
      this.isSpread = this.parts > 1;
      if (this.isSpread !== hadSpread) return null;
      const faces = gmr.gather(this.state, this.steps.slice(0, 2), volumes && this.needsVolumes() ? volumes.list : rows);
      this.renewFaces(faces);
      return {gone, rows, faces};
    }

    // Whether something that is drawn moves or hides with its volume.
    needsVolumes() { return this.isSpread || this.deep > 0 || this.hasWays; }

    stand(frame, all) {
      const {state} = this;
      const places = state.points ? new Float64Array(3 * this.room) : placesLaidOut(state, all, 1, 3)[0];
      if (state.points) writePoints(state, all, places);
      this.frame = frame || frameOf(places, all);
      this.vertex = this.framed(places);
      this.renewFaces(gmr.gather(state, this.steps.slice(0, 2), all));
    }

    // Scales places into the frame.
    framed(places) {
      const {middle, radius} = this.frame;
      const made = new Float32Array(places.length);
      for (let at = 0, axis = 0; at < places.length; at += 1, axis = axis === 2 ? 0 : axis + 1) made[at] = (places[at] - middle[axis]) / radius;
      return made;
    }

    writeVertices(slots) {
      const {middle, radius} = this.frame;
      const {width, values} = this.state.embed(this.state.points);
      for (let at = 0; at < slots.length; at += 1) {
        const slot = slots[at];
        for (let axis = 0; axis < 3; axis += 1) {
          this.vertex[3 * slot + axis] = ((axis < width ? Number(values[slot * width + axis]) : 0) - middle[axis]) / radius;
        }
      }
    }

    // The places within faces: of each dart the middle of its edge, and the ways from there and from its vertex to the
    // middle of its face. The stub of an edge with one end leads a little way into its face.
    renewFaces(groups) {
      const {list, begins, count} = groups;
      const {vertex, edge, toward1, toward0, face} = this;
      const zero = this.steps[0];
      const inward = this.isLine ? 0 : 1;
      const middle = [0, 0, 0];
      for (let group = 0; group < count; group += 1) {
        const [begin, end] = [begins[group], begins[group + 1]];
        for (let axis = 0; axis < 3; axis += 1) {
          middle[axis] = 0;
          for (let at = begin; at < end; at += 1) middle[axis] += vertex[3 * list[at] + axis];
          middle[axis] /= end - begin;
        }
        for (let at = begin; at < end; at += 1) {
          const dart = list[at];
          face[dart] = list[begin];
          for (let axis = 0; axis < 3; axis += 1) {
            const one = vertex[3 * dart + axis];
            const stub = inward ? 0.3 * (middle[axis] - one) : axis === 0 ? 0.1 : 0;
            const half = zero[dart] === dart ? one + stub : (one + vertex[3 * zero[dart] + axis]) / 2;
            edge[3 * dart + axis] = half;
            toward1[3 * dart + axis] = inward * (middle[axis] - one);
            toward0[3 * dart + axis] = inward * (middle[axis] - half);
          }
        }
      }
    }

    layOut(frame, all) {
      const [vertex, edge, side1, side0] = placesLaidOut(this.state, all, 4, 2);
      this.frame = frame || frameOf(vertex, all);
      [this.vertex, this.edge] = [this.framed(vertex), this.framed(edge)];
      const way = (to, from) => Float32Array.from(to, (number, at) => (this.isLine ? 0 : 2 * (number - from[at]) / this.frame.radius));
      [this.toward1, this.toward0] = [way(side1, vertex), way(side0, edge)];
      const {list, begins, count} = gmr.gather(this.state, this.steps.slice(0, 2), all);
      for (let group = 0; group < count; group += 1) {
        for (let at = begins[group]; at < begins[group + 1]; at += 1) this.face[list[at]] = list[begins[group]];
      }
      for (const place of gmr.unpack(this.state.places.outer)) this.outer[all[place]] = 1;
    }

    // Whether all vertices lie on one level.
    isLevel() {
      const {names, top} = this.state;
      let level;
      for (let slot = 0; slot < top; slot += 1) {
        if (names[slot] < 0) continue;
        if (level === undefined) level = this.vertex[3 * slot + 2];
        else if (this.vertex[3 * slot + 2] !== level) return false;
      }
      return true;
    }

    // Finds the volumes of darts that are new or changed, and their middles, from which they are pulled apart.
    joinVolumes(gone, rows) {
      const old = new Set();
      for (const slots of [gone, rows]) {
        for (const slot of slots) if (this.volume[slot] >= 0) old.add(this.volume[slot]);
        for (const slot of gone) this.volume[slot] = -1;
      }
      const groups = gmr.gather(this.state, this.steps, rows);
      const {list, begins, count} = groups;
      for (let group = 0; group < count; group += 1) {
        for (let at = begins[group]; at < begins[group + 1]; at += 1) this.volume[list[at]] = list[begins[group]];
      }
      gmr.means(groups, this.vertex, this.volumeMiddles);
      this.parts += count - old.size;
      return groups;
    }

    // The middle of all volumes, away from which they are pulled.
    middleOfParts(all) {
      const sum = [0, 0, 0];
      for (const slot of all) {
        if (this.volume[slot] !== slot) continue;
        for (let axis = 0; axis < 3; axis += 1) sum[axis] += this.volumeMiddles[3 * slot + axis] / this.parts;
      }
      return sum;
    }

    // How far what lies at a place of a dart's volume moves as volumes are pulled apart: they get smaller, and go away
    // from the middle of all.
    drift(dart, places, from, into, to) {
      if (!this.isSpread) return;
      const volume = 3 * this.volume[dart];
      for (let axis = 0; axis < 3; axis += 1) {
        const middle = this.volumeMiddles[volume + axis];
        into[to + axis] = 0.25 * (middle - places[from + axis]) + middle - this.middle[axis];
      }
    }

    // The way outward of each face, by the dart that leads it: of zeros where its volume isn't closed, or has one side.
    outward() {
      if (!this.ways) this.ways = this.isLine || this.isFlat ? new Float32Array(3 * this.room) : gmr.waysOutward(this);
      return this.ways;
    }

    // Where the way round a dart's face begins, and along which step: at the dart, or at the end of an open face.
    rimStart(dart) {
      const [zero, one] = this.steps;
      let [start, step] = [dart, one];
      while (step[start] !== start) {
        start = step[start];
        step = step === one ? zero : one;
        if (start === dart) break;
      }
      return {start, label: step === one ? zero : one};
    }

    // The darts round a face from one of them on: along 0 and 1 by turns; an open one from its end.
    rim(dart) {
      const [zero, one] = this.steps;
      const {start, label} = this.rimStart(dart);
      const found = [start];
      let step = label;
      for (;;) {
        const last = found[found.length - 1];
        const near = step[last];
        if (near === start || near === last) break;
        found.push(near);
        step = step === one ? zero : one;
      }
      return found;
    }

    // Where the stroke of a dart begins and ends, within its face and its volume: six numbers.
    stroke(dart, inset, into, offset) {
      const to = into || new Float32Array(6);
      const at = offset || 0;
      const volume = 3 * this.volume[dart];
      const {deep} = this;
      for (let axis = 0; axis < 3; axis += 1) {
        const place = 3 * dart + axis;
        let from = this.vertex[place] + inset * this.toward1[place];
        let end = this.edge[place] + inset * this.toward0[place];
        from += deep * (this.volumeMiddles[volume + axis] - from);
        end += deep * (this.volumeMiddles[volume + axis] - end);
        to[at + axis] = from + 0.1 * (end - from);
        to[at + 3 + axis] = end - 0.1 * (end - from);
      }
      return to;
    }

    // The middle of a dart's face, towards which its stroke is moved.
    middleOf(dart) { return [0, 1, 2].map((axis) => this.vertex[3 * dart + axis] + this.toward1[3 * dart + axis]); }

    place(array, dart) { return [array[3 * dart], array[3 * dart + 1], array[3 * dart + 2]]; }

    // A place of the picture in the numbers of the map.
    unframed(place) { return place.map((number, axis) => number * this.frame.radius + this.frame.middle[axis]); }
  }

  Object.assign(gmr, {Shape, frameOf});
}(window.gmr = window.gmr || {}));
