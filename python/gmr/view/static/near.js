// What lies near a pixel: the buffers of the picture's layers are looked through as the card would draw them there. So
// nothing is drawn to find it, and the card isn't waited for.
(function (gmr) {
  'use strict';

  const SLACK = 1e-6;     // of depth, by which what lies on a face counts as before it
  const FACTOR = 1.5;     // of its slope, by which a face is drawn further away: see gmr.materials

  class Near {
    // What is seen through a camera round a place, up to so many pixels away.
    constructor({camera, renderer, shared, options}, x, y, reach) {
      const {clientWidth, clientHeight} = renderer.domElement;
      Object.assign(this, {reach, apart: options.apart, plane: shared.plane.value, isSolid: shared.isSolid.value > 0.5});
      camera.updateMatrixWorld();
      camera.matrixWorldInverse.getInverse(camera.matrixWorld);
      this.eye = camera.position;
      const m = new THREE.Matrix4().multiplyMatrices(camera.projectionMatrix, camera.matrixWorldInverse).elements;
      const row = (at) => [m[at], m[at + 4], m[at + 8], m[at + 12]];
      // Pixels from the place on, to the right and down, each times w; depth times w; and w.
      this.rows = Float64Array.from([row(0).map((part, at) => part * clientWidth / 2 + row(3)[at] * (clientWidth / 2 - x)),
        row(1).map((part, at) => -part * clientHeight / 2 + row(3)[at] * (clientHeight / 2 - y)), row(2), row(3)].flat());
      this.here = new Float64Array(12);
      this.faces = [];
    }

    // Where numbers of an array from a place on are, pulled apart, and what the camera makes of that: written as x, y, z,
    // then pixels to the right and down, depth and w, at a place of `here`.
    see(places, drift, from, to) {
      const {here, apart, rows} = this;
      let x = places[from];
      let y = places[from + 1];
      let z = places[from + 2];
      if (drift && apart) {
        x += apart * drift[from];
        y += apart * drift[from + 1];
        z += apart * drift[from + 2];
      }
      here[to] = rows[0] * x + rows[1] * y + rows[2] * z + rows[3];
      here[to + 1] = rows[4] * x + rows[5] * y + rows[6] * z + rows[7];
      here[to + 2] = rows[8] * x + rows[9] * y + rows[10] * z + rows[11];
      here[to + 3] = rows[12] * x + rows[13] * y + rows[14] * z + rows[15];
    }

    // Whether all of so many places that were seen lie on one side of the pixels within a reach.
    isAside(count, reach) {
      const {here} = this;
      let all = 31;
      for (let at = 0; at < 4 * count; at += 4) {
        const most = reach * here[at + 3];
        all &= (here[at] > most ? 1 : 0) | (here[at] < -most ? 2 : 0) | (here[at + 1] > most ? 4 : 0)
          | (here[at + 1] < -most ? 8 : 0) | (here[at + 3] <= 0 ? 16 : 0);
      }
      return all !== 0;
    }

    // Takes the triangles of a layer of faces that reach the pixels.
    takeFaces({position, drift, id, top}) {
      for (let corner = 0; corner + 2 < top; corner += 3) {
        if (id[corner] < 0) continue;
        for (let at = 0; at < 3; at += 1) this.see(position, drift, 3 * (corner + at), 4 * at);
        if (!this.isAside(3, this.reach)) this.takeFace(position, drift, corner, id[corner]);
      }
    }

    // Keeps a triangle by the matrix that leads from a pixel to the shares of its corners, each by w.
    takeFace(position, drift, corner, index) {
      const [a, b, , c, d, e, , f, g, h, , i] = this.here;
      const whole = a * (e * i - f * h) - d * (b * i - c * h) + g * (b * f - c * e);
      if (!whole) return;
      const shares = [e * i - f * h, g * f - d * i, d * h - g * e, c * h - b * i, a * i - g * c, g * b - a * h,
        b * f - c * e, d * c - a * f, a * e - d * b].map((part) => part / whole);
      const depths = [this.here[2], this.here[6], this.here[10]];
      const slope = (axis) => Math.abs(depths.reduce((sum, depth, at) => sum + depth * shares[3 * at + axis], 0));
      const corners = [0, 1, 2].map((at) => this.place(position, drift, 3 * (corner + at)));
      this.faces.push({index, shares, depths, corners, steep: Math.max(slope(0), slope(1))});
    }

    place(places, drift, from) {
      return [0, 1, 2].map((axis) => places[from + axis] + (drift ? this.apart * drift[from + axis] : 0));
    }

    isCut(place) { return gmr.dot(place, this.plane.toArray()) > this.plane.w; }

    // The face that is seen at so many pixels to the right and down, and how deep it lies; or null.
    faceAt(x, y) {
      let best = null;
      for (const face of this.faces) {
        const {shares, depths, corners} = face;
        const here = [0, 1, 2].map((at) => shares[3 * at] * x + shares[3 * at + 1] * y + shares[3 * at + 2]);
        if (Math.min(...here) < 0) continue;
        const depth = gmr.dot(here, depths);
        if (depth < -1 || best && depth >= best.depth) continue;
        const whole = here[0] + here[1] + here[2];
        const place = [0, 1, 2].map((axis) => gmr.dot(here, corners.map((corner) => corner[axis])) / whole);
        if (!this.isCut(place)) best = {index: face.index, depth, steep: face.steep};
      }
      return best;
    }

    // Whether something at a depth is hidden by a face at so many pixels to the right and down.
    isHidden(x, y, depth) {
      const face = this.faceAt(x, y);
      return Boolean(face) && depth > face.depth + FACTOR * face.steep + SLACK;
    }

    // The strokes of a layer that reach the pixels, each with how far away it is and where.
    strokes({begin, end, drift, drift2, outward, id, top}, {width, head, least, lift}) {
      const found = [];
      const reach = this.reach + Math.max(width, head);
      for (let at = 0; at < top; at += 1) {
        if (id[at] < 0) continue;
        this.see(begin, drift, 3 * at, 0);
        this.see(end, drift2, 3 * at, 4);
        if (this.isAside(2, reach)) continue;
        const ends = [this.place(begin, drift, 3 * at), this.place(end, drift2, 3 * at)];
        if (outward && this.isTurnedAway(outward, 3 * at, ends[0])) continue;
        const stroke = this.strokeAt(ends, {width, head, least});
        if (stroke) found.push({...stroke, depth: stroke.depth - lift, index: id[at]});
      }
      return found;
    }

    isTurnedAway(outward, from, place) {
      const {eye} = this;
      return this.isSolid && outward[from] * (eye.x - place[0]) + outward[from + 1] * (eye.y - place[1])
        + outward[from + 2] * (eye.z - place[2]) < -1e-4;
    }

    // Where the stroke that was seen last is nearest, as the card draws it; null where it is cut, or too far away.
    strokeAt(ends, {width, head, least}) {
      const [p, q] = [Array.from(this.here.subarray(0, 4)), Array.from(this.here.subarray(4, 8))];
      if (p[3] <= 1e-6 || q[3] <= 1e-6) return null;
      const [from, to] = [[p[0] / p[3], p[1] / p[3]], [q[0] / q[3], q[1] / q[3]]];
      const way = [to[0] - from[0], to[1] - from[1]];
      const long = Math.max(Math.hypot(...way), 1e-4);
      const share = Math.max(0, Math.min(1, -(from[0] * way[0] + from[1] * way[1]) / (long * long)));
      const [x, y] = [from[0] + share * way[0], from[1] + share * way[1]];
      const tip = Math.min(head, 0.3 * long);
      const left = (1 - share) * long;
      const thick = left < tip ? 0.75 * left : Math.max(0.6, Math.min(width, Math.max(least, 0.12 * long))) / 2;
      const far = Math.max(0, Math.hypot(x, y) - thick);
      if (far > this.reach) return null;
      const inSpace = share * p[3] / (q[3] + share * (p[3] - q[3]));
      if (this.isCut([0, 1, 2].map((axis) => ends[0][axis] + inSpace * (ends[1][axis] - ends[0][axis])))) return null;
      return {x, y, far, depth: p[2] / p[3] + share * (q[2] / q[3] - p[2] / p[3])};
    }

    // The points of a layer that reach the pixels, in the same way.
    points({position, drift, id, top}, {width, lift}) {
      const found = [];
      for (let at = 0; at < top; at += 1) {
        if (id[at] < 0) continue;
        this.see(position, drift, 3 * at, 0);
        if (this.isAside(1, this.reach + width / 2) || this.isCut(this.place(position, drift, 3 * at))) continue;
        const [x, y, depth] = [0, 1, 2].map((part) => this.here[part] / this.here[3]);
        const far = Math.max(0, Math.hypot(x, y) - width / 2);
        if (far <= this.reach) found.push({x, y, far, depth: depth - lift, index: id[at]});
      }
      return found;
    }
  }

  gmr.Near = Near;
}(window.gmr = window.gmr || {}));
