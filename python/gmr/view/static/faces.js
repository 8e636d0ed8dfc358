// The layer of faces: their triangles, in one buffer, a block for each face.
(function (gmr) {
  'use strict';

  class Faces {
    constructor(shape, tints) {
      this.shape = shape;
      this.tints = tints;
      this.polygon = new gmr.Polygon();
      this.layout = {position: [3, Float32Array], normal: [3, Float32Array], colour: [3, Uint8Array, true],
        id: [1, Int32Array, false, true], dart: [1, Int32Array, false, true]};   // the last two are for what is pointed at
      if (shape.isSpread) this.layout.drift = [3, Float32Array];
      this.pool = new gmr.Pool(this.layout);
    }

    // Makes all blocks anew, or those of the faces of groups; what the darts that went led is taken away.
    renew(gone, groups) {
      for (const slot of gone) this.pool.drop(slot);
      const {list, begins, count} = groups;
      this.pool.reserve(Math.max(0, 3 * (list.length / 2 - 2 * count)));     // as many as polygons on a plane have
      for (const slot of list) this.pool.drop(slot);
      for (let group = 0; group < count; group += 1) this.write(list[begins[group]]);
    }

    // Writes the colours of faces anew, by the darts that lead them.
    recolour(leads) {
      const {begins, sizes, dart, colour} = this.pool;
      for (const lead of leads) {
        const begin = (begins[lead] || 0) - 1;
        if (begin < 0) continue;
        const end = begin + sizes[lead];
        for (let at = begin; at < end; at += 1) if (dart[at] >= 0) this.tint(colour, at, dart[at]);
        if (dart[begin + 2] < 0) this.tintMiddle(begin, end);
        this.pool.paint(begin, end);
      }
    }

    tint(colour, at, dart) {
      for (let part = 0; part < 3; part += 1) colour[3 * at + part] = this.tints.of(dart, part);
    }

    // Gives the middle of a round face the mean of the colours of its corners.
    tintMiddle(begin, end) {
      const {colour} = this.pool;
      for (let part = 0; part < 3; part += 1) {
        let sum = 0;
        for (let at = begin; at < end; at += 3) sum += colour[3 * at + part];
        for (let at = begin; at < end; at += 3) colour[3 * at + 6 + part] = sum / ((end - begin) / 3);
      }
    }

    write(lead) {
      if (this.shape.outer[lead]) return;
      const polygon = this.polygon.read(this.shape, lead);
      const {size} = polygon;
      const isPlane = size < 4 || polygon.isPlane();
      if (!isPlane) this.round(lead);
      else if (size < 4 || polygon.isConvex()) this.fan(lead);
      else this.cut(lead);
    }

    // Triangles from the first corner.
    fan(lead) {
      const {size} = this.polygon;
      if (size < 3) return;
      let to = this.pool.put(lead, 3 * (size - 2));
      for (let at = 1; at + 1 < size; at += 1) {
        this.corner(to, lead, 0);
        this.corner(to + 1, lead, at);
        this.corner(to + 2, lead, at + 1);
        to += 3;
      }
    }

    // Triangles round the middle, whose colour is the mean of those of the corners.
    round(lead) {
      const {size} = this.polygon;
      const middle = this.shape.middleOf(lead);
      const begin = this.pool.put(lead, 3 * size);
      for (let at = 0, to = begin; at < size; at += 1, to += 3) {
        this.corner(to, lead, at);
        this.corner(to + 1, lead, at + 1 === size ? 0 : at + 1);
        this.put(to + 2, lead, lead, ...middle);
        this.pool.dart[to + 2] = -1;
      }
      this.tintMiddle(begin, begin + 3 * size);
    }

    // Triangles that are cut off one by one.
    cut(lead) {
      const corners = this.polygon.ears().flat();
      const to = this.pool.put(lead, corners.length);
      corners.forEach((corner, at) => this.corner(to + at, lead, corner));
    }

    corner(to, lead, at) {
      const {places, darts} = this.polygon;
      const dart = darts[at];
      this.put(to, lead, dart, places[3 * at], places[3 * at + 1], places[3 * at + 2]);
      this.tint(this.pool.colour, to, dart);
    }

    put(to, lead, dart, x, y, z) {
      const {position, normal, id, drift} = this.pool;
      const {normal: way} = this.polygon;
      const at = 3 * to;
      position[at] = x;
      position[at + 1] = y;
      position[at + 2] = z;
      normal[at] = way[0];
      normal[at + 1] = way[1];
      normal[at + 2] = way[2];
      id[to] = lead;
      this.pool.dart[to] = dart;
      if (drift) this.shape.drift(dart, position, at, drift, at);
    }
  }

  gmr.Faces = Faces;
}(window.gmr = window.gmr || {}));
