// The polygon of a face: its corners, which way it looks, and the triangles that fill it.
(function (gmr) {
  'use strict';

  const minus = (one, two) => one.map((part, axis) => part - two[axis]);
  const dot = (one, two) => one[0] * two[0] + one[1] * two[1] + one[2] * two[2];
  const cross = (one, two) => [one[1] * two[2] - one[2] * two[1], one[2] * two[0] - one[0] * two[2], one[0] * two[1] - one[1] * two[0]];

  // One polygon, which is read of one face after another: its corners' places and darts, and its mean way at right angles.
  class Polygon {
    constructor() {
      this.places = new Float64Array(3 * 64);
      this.darts = new Int32Array(64);
      this.normal = new Float64Array(3);
      this.size = 0;
    }

    // Writes a corner, if it isn't where the last one is.
    add(array, dart) {
      const last = 3 * this.size - 3;
      const x = array[3 * dart];
      const y = array[3 * dart + 1];
      const z = array[3 * dart + 2];
      if (this.size && this.places[last] === x && this.places[last + 1] === y && this.places[last + 2] === z) return;
      this.put(x, y, z, dart);
    }

    put(x, y, z, dart) {
      if (this.size === this.darts.length) {
        this.places = gmr.grown(this.places, 6 * this.size);
        this.darts = gmr.grown(this.darts, 2 * this.size);
      }
      const at = 3 * this.size;
      this.places[at] = x;
      this.places[at + 1] = y;
      this.places[at + 2] = z;
      this.darts[this.size] = dart;
      this.size += 1;
    }

    // Reads the corners of a dart's face: the vertices; where edges are bent their middles too; where it is open its middle.
    read(shape, first) {
      const [zero, one] = shape.steps;
      this.size = 0;
      const {start, label} = shape.rimStart(first);
      let [dart, step, isOpen] = [start, label, false];
      if (zero[dart] === dart && step === one) this.add(shape.edge, dart);
      for (;;) {
        this.add(shape.vertex, dart);
        if (shape.bends || zero[dart] === dart) this.add(shape.edge, dart);
        if (zero[dart] === dart || one[dart] === dart) isOpen = true;
        const near = step[dart];
        if (near === start || near === dart) break;
        dart = near;
        step = step === one ? zero : one;
      }
      if (isOpen) this.put(...shape.middleOf(start), start);
      else if (this.size > 1 && this.isRound()) this.size -= 1;
      this.findNormal();
      return this;
    }

    // Whether the last corner is where the first one is.
    isRound() {
      const [p, last] = [this.places, 3 * this.size - 3];
      return p[0] === p[last] && p[1] === p[last + 1] && p[2] === p[last + 2];
    }

    // The mean way at right angles to the polygon, as long as 1, and what it fills with the middle of all, six times.
    findNormal() {
      const p = this.places;
      let x = 0;
      let y = 0;
      let z = 0;
      for (let at = 3; at + 3 < 3 * this.size; at += 3) {
        const ax = p[at] - p[0];
        const ay = p[at + 1] - p[1];
        const az = p[at + 2] - p[2];
        const bx = p[at + 3] - p[0];
        const by = p[at + 4] - p[1];
        const bz = p[at + 5] - p[2];
        x += ay * bz - az * by;
        y += az * bx - ax * bz;
        z += ax * by - ay * bx;
      }
      this.filled = p[0] * x + p[1] * y + p[2] * z;
      const length = Math.sqrt(x * x + y * y + z * z) || 1;
      this.normal[0] = x / length;
      this.normal[1] = y / length;
      this.normal[2] = z / length;
    }

    // Whether the corners lie on one plane.
    isPlane() {
      const [p, n] = [this.places, this.normal];
      const level = p[0] * n[0] + p[1] * n[1] + p[2] * n[2];
      for (let at = 3; at < 3 * this.size; at += 3) {
        if (Math.abs(p[at] * n[0] + p[at + 1] * n[1] + p[at + 2] * n[2] - level) > 2e-6) return false;
      }
      return true;
    }

    // Whether the polygon turns against its way at no corner.
    isConvex() {
      for (let at = 0; at < this.size; at += 1) {
        if (this.turn(at ? at - 1 : this.size - 1, at, at + 1 === this.size ? 0 : at + 1) < -1e-9) return false;
      }
      return true;
    }

    // How much the polygon turns at a corner, below 0 where it turns against its way.
    turn(before, at, after) {
      const p = this.places;
      const n = this.normal;
      const i = 3 * before;
      const j = 3 * at;
      const k = 3 * after;
      const ax = p[j] - p[i];
      const ay = p[j + 1] - p[i + 1];
      const az = p[j + 2] - p[i + 2];
      const bx = p[k] - p[j];
      const by = p[k + 1] - p[j + 1];
      const bz = p[k + 2] - p[j + 2];
      return (ay * bz - az * by) * n[0] + (az * bx - ax * bz) * n[1] + (ax * by - ay * bx) * n[2];
    }

    // The triangles of a polygon that turns both ways, as places among its corners.
    ears() {
      const normal = Array.from(this.normal);
      const right = cross(normal, Math.abs(normal[0]) < 0.8 ? [1, 0, 0] : [0, 1, 0]);
      const up = cross(normal, right);
      const corners = Array.from({length: this.size}, (_, at) => this.corner(at));
      const flat = corners.map((place) => new THREE.Vector2(dot(place, right), dot(place, up)));
      const cut = THREE.ShapeUtils.triangulateShape(flat, []);
      return cut.length ? cut : flat.slice(2).map((_, at) => [0, at + 1, at + 2]);
    }

    corner(at) { return Array.from(this.places.subarray(3 * at, 3 * at + 3)); }
  }

  Object.assign(gmr, {Polygon, minus, dot});
}(window.gmr = window.gmr || {}));
