// Marks: darts that are lit in a colour, alone or as a vertex, an edge, a face or a volume.
(function (gmr) {
  'use strict';

  // A part of each mark's places and ways, one after another.
  function parts(marks, name, from) {
    const made = new Float32Array(3 * marks.length);
    marks.forEach((mark, at) => made.set(mark[name].subarray(from, from + 3), 3 * at));
    return made;
  }

  // What is drawn of marks: the kind of thing, its buffers, the uniforms of its material, and a name for that.
  function strokes(marks, from, to, colour, own) {
    const attributes = {begin: [parts(marks, 'places', from), 3], end: [parts(marks, 'places', to), 3],
      drift: [parts(marks, 'moved', from), 3], drift2: [parts(marks, 'moved', to), 3],
      colour: [gmr.layers.filled(marks.length, colour), 3, true]};
    return {kind: 'strokes', geometry: gmr.geometryOf(attributes, gmr.ARROW), own};
  }

  function points(marks, colour) {
    const attributes = {position: [parts(marks, 'places', 6), 3], drift: [parts(marks, 'moved', 6), 3],
      colour: [gmr.layers.filled(marks.length, colour), 3, true]};
    return {kind: 'points', geometry: gmr.geometryOf(attributes), own: {width: 13, lift: 1.2e-4}};
  }

  // The triangles between the vertex, the edge and the face of each dart.
  function fills(marks, colour) {
    const position = new Float32Array(9 * marks.length);
    const drift = new Float32Array(9 * marks.length);
    const normal = new Float32Array(9 * marks.length);
    marks.forEach((mark, at) => {
      position.set(mark.places.subarray(6, 15), 9 * at);
      drift.set(mark.moved.subarray(6, 15), 9 * at);
      const [vertex, edge, face] = [6, 9, 12].map((from) => new THREE.Vector3(...mark.places.subarray(from, from + 3)));
      const way = edge.sub(vertex).cross(face.sub(vertex)).normalize().toArray();
      for (let corner = 0; corner < 3; corner += 1) normal.set(way, 9 * at + 3 * corner);
    });
    const attributes = {position: [position, 3], drift: [drift, 3], normal: [normal, 3],
      colour: [gmr.layers.filled(3 * marks.length, colour), 3, true]};
    return {kind: 'faces', geometry: gmr.geometryOf(attributes), own: {shade: 0.8, fade: 0.45, lift: 1e-5}};
  }

  // What marks darts in a colour.
  function partsOf(marks, kind, colour) {
    if (!marks.length) return [];
    if (kind === 'vertex') return [points(marks, colour)];
    if (kind === 'edge') return [strokes(marks, 6, 9, colour, {width: 6, lift: 1.2e-4, least: 6})];
    const made = [strokes(marks, 0, 3, colour, {width: 5, head: 12, lift: 1.2e-4, least: 2})];
    const filled = marks.filter((mark) => mark.hasFace);
    if (filled.length && kind !== 'dart') made.unshift(fills(filled, colour));
    return made;
  }

  gmr.marks = {partsOf};
}(window.gmr = window.gmr || {}));
