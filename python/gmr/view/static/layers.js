// The layers of a picture over the shape of a map, besides the faces: edges, points, darts, links and names. Each thing
// has a block of a pool, by the slot of the dart that stands for it.
(function (gmr) {
  'use strict';

  const {parse} = gmr.colours;
  const STROKE = {begin: [3, Float32Array], end: [3, Float32Array], colour: [3, Uint8Array, true], id: [1, Float32Array]};

  // Colours for so many things, all alike.
  function filled(count, colour) {
    const made = new Uint8Array(3 * count);
    const parts = parse(colour);
    for (let at = 0; at < made.length; at += 1) made[at] = parts[at % 3];
    return made;
  }

  class Layer {
    constructor(shape, layout, corners, colour) {
      this.shape = shape;
      this.colour = colour && parse(colour);
      const drifts = layout.end ? {drift: [3, Float32Array], drift2: [3, Float32Array]} : {drift: [3, Float32Array]};
      this.pool = new gmr.Pool({...layout, ...(shape.isSpread ? drifts : {})}, corners);
    }

    // Makes the blocks anew of what lies in cells: the faces of groups. What the darts that went stood for goes.
    renew(gone, groups) {
      for (const slot of gone) this.pool.drop(slot);
      const keys = this.keys(groups.list);
      for (const slot of keys.all) this.pool.drop(slot);
      this.pool.reserve(keys.leads.length);
      for (const slot of keys.leads) this.write(slot);
    }

    // Of the darts of some faces: all whose blocks may be other ones, and those that have one.
    keys(list) { return {all: list, leads: list}; }

    // The same where orbits over steps have one block each.
    orbitKeys(steps, list) {
      const groups = gmr.gather(this.shape.state, steps, list);
      return {all: groups.list, leads: groups.begins.subarray(0, groups.count).map((begin) => groups.list[begin])};
    }

    // Writes what all strokes have: the places are there.
    finish(at, one, two, id) {
      const {begin, end, drift, drift2, colour, outward} = this.pool;
      this.pool.id[at] = id;
      for (let part = 0; part < 3; part += 1) colour[3 * at + part] = this.colour[part];
      if (drift) this.shape.drift(one, begin, 3 * at, drift, 3 * at);
      if (drift2) this.shape.drift(two, end, 3 * at, drift2, 3 * at);
      if (outward) this.writeOutward(at, one);
    }

    writeOutward(at, dart) {
      const ways = this.shape.outward();
      const face = 3 * this.shape.face[dart];
      for (let axis = 0; axis < 3; axis += 1) this.pool.outward[3 * at + axis] = ways[face + axis];
    }
  }

  // The edges: one stroke an edge of each volume, or two where they are bent.
  class Edges extends Layer {
    constructor(shape, theme) { super(shape, STROKE, gmr.SHAFT, theme.edge); }

    keys(list) {
      const [zero, , two] = this.shape.steps;
      return this.orbitKeys(this.shape.bends ? [two] : [zero, two], list);
    }

    write(dart) {
      const {shape, pool} = this;
      const other = shape.steps[0][dart];
      const isWhole = !shape.bends && other !== dart;
      const at = pool.put(dart, 1);
      for (let axis = 0; axis < 3; axis += 1) {
        pool.begin[3 * at + axis] = shape.vertex[3 * dart + axis];
        pool.end[3 * at + axis] = isWhole ? shape.vertex[3 * other + axis] : shape.edge[3 * dart + axis];
      }
      this.finish(at, dart, isWhole ? other : dart, dart);
    }
  }

  // The points: one a vertex of each volume.
  class Points extends Layer {
    constructor(shape, theme) {
      super(shape, {position: [3, Float32Array], colour: [3, Uint8Array, true], id: [1, Float32Array]}, null, theme.point);
    }

    keys(list) { return this.orbitKeys(this.shape.steps.slice(1), list); }

    write(dart) {
      const {shape, pool} = this;
      const at = pool.put(dart, 1);
      for (let axis = 0; axis < 3; axis += 1) {
        pool.position[3 * at + axis] = shape.vertex[3 * dart + axis];
        pool.colour[3 * at + axis] = this.colour[axis];
      }
      pool.id[at] = dart;
      if (pool.drift) shape.drift(dart, pool.position, 3 * at, pool.drift, 3 * at);
    }
  }

  // The darts: a short arrow each, from its vertex to the middle of its edge.
  class Darts extends Layer {
    constructor(shape, inset, tints, theme) {
      super(shape, {...STROKE, outward: [3, Float32Array]}, gmr.ARROW, theme.dart);
      this.inset = inset;
      this.tints = tints;
      this.ends = new Float32Array(6);
    }

    write(dart) {
      const {pool, ends} = this;
      const at = pool.put(dart, 1);
      this.shape.stroke(dart, this.inset, ends, 0);
      for (let axis = 0; axis < 3; axis += 1) {
        pool.begin[3 * at + axis] = ends[axis];
        pool.end[3 * at + axis] = ends[3 + axis];
      }
      this.finish(at, dart, dart, dart);
      if (this.tints) for (let part = 0; part < 3; part += 1) pool.colour[3 * at + part] = this.tints.of(dart, part);
    }
  }

  // Where on its stroke a dart is linked along the label that plays a role: at its end, its beginning, or between.
  const LINKED = [1, 0, 0.5, 0.3];

  // The links along a label: between the strokes of two darts that are neighbours; along 2 by way of their edge, where
  // each of the two has its own half.
  class Links extends Layer {
    constructor(shape, inset, label, theme) {
      super(shape, {...STROKE, outward: [3, Float32Array]}, gmr.SHAFT, theme.labels[label]);
      Object.assign(this, {inset, label, role: shape.roleLabels.indexOf(label)});
      this.share = this.role >= 0 ? LINKED[this.role] : 0.7;
    }

    keys(list) {
      const step = this.shape.state.alpha[this.label];
      const {list: all} = gmr.gather(this.shape.state, [step], list);
      return {all, leads: all};
    }

    write(dart) {
      const {shape, pool} = this;
      const other = shape.state.alpha[this.label][dart];
      if (other === dart) return;
      const over = this.role === 2 ? [this.onEdge(dart), this.onEdge(other)] : null;
      const meets = over && Math.hypot(...gmr.minus(...over)) < 1e-4;
      if (!meets && dart > other) return;
      const at = pool.put(dart, 1);
      pool.begin.set(this.place(dart), 3 * at);
      pool.end.set(meets ? over[0] : this.place(other), 3 * at);
      this.finish(at, dart, meets ? dart : other, dart);
    }

    // Where on its stroke a dart is linked.
    place(dart) {
      const ends = this.shape.stroke(dart, this.inset);
      return [0, 1, 2].map((axis) => ends[axis] + this.share * (ends[3 + axis] - ends[axis]));
    }

    // The middle between the vertex and the edge of a dart, over which the link along 2 leads.
    onEdge(dart) {
      const {vertex, edge} = this.shape;
      return [0, 1, 2].map((axis) => (vertex[3 * dart + axis] + edge[3 * dart + axis]) / 2);
    }
  }

  // The names: a digit each, beside the middle of the dart's stroke and within its face.
  class Names extends Layer {
    constructor(shape, inset) {
      const layout = Object.fromEntries(['begin', 'inward', 'digit', 'stroke', 'outward'].map((name) => [name, [3, Float32Array]]));
      super(shape, layout, gmr.QUAD, null);
      this.inset = inset;
    }

    write(dart) {
      const {shape, pool} = this;
      const name = String(shape.state.names[dart]);
      const ends = shape.stroke(dart, this.inset);
      const place = [0, 1, 2].map((axis) => 0.55 * ends[axis] + 0.45 * ends[3 + axis]);
      const along = [0, 1, 2].map((axis) => ends[3 + axis] - ends[axis]);
      const way = shape.isLine ? aboveOf(along) : this.inwardOf(dart, along);
      const first = pool.put(dart, name.length);
      for (let letter = 0; letter < name.length; letter += 1) {
        const at = first + letter;
        pool.begin.set(place, 3 * at);
        if (pool.drift) shape.drift(dart, pool.begin, 3 * at, pool.drift, 3 * at);
        pool.inward.set(way, 3 * at);
        pool.stroke.set(along, 3 * at);
        pool.digit.set([Number(name[letter]), letter - (name.length - 1) / 2, name.length], 3 * at);
        this.writeOutward(at, dart);
      }
    }

    // A short way into its face at right angles to a dart's stroke.
    inwardOf(dart, way) {
      const {toward0, toward1} = this.shape;
      const into = [0, 1, 2].map((axis) => toward0[3 * dart + axis] + toward1[3 * dart + axis]);
      const share = gmr.dot(into, way) / (gmr.dot(way, way) || 1);
      const found = into.map((part, axis) => part - share * way[axis]);
      const length = Math.hypot(...found) || 1;
      return found.map((part) => 0.01 * part / length);
    }
  }

  // A short way above a stroke at right angles to it, or to the right of one that stands upright.
  function aboveOf([x, y]) {
    const length = Math.hypot(x, y);
    if (length < 1e-9) return [0.01, 0, 0];
    const sign = x > 1e-6 * length || (Math.abs(x) <= 1e-6 * length && y < 0) ? 0.01 : -0.01;
    return [-sign * y / length, sign * x / length, 0];
  }

  Object.assign(gmr, {layers: {Edges, Points, Darts, Links, Names, filled}});
}(window.gmr = window.gmr || {}));
