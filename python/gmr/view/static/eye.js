// How far away the eye must stand to see all of a map.
(function (gmr) {
  'use strict';

  // What must be seen, three numbers each: the vertices of all darts, and both ends of the strokes that lie outside.
  function placesOf({state, shape, options, inset}) {
    const {vertex, outer} = shape;
    const all = state.taken();
    const outside = shape.bends ? all.filter((dart) => outer[dart]) : [];
    const found = new Float64Array(3 * all.length + 6 * outside.length);
    const moved = [0, 0, 0];
    for (let at = 0; at < all.length; at += 1) {
      const from = 3 * all[at];
      if (options.apart) shape.drift(all[at], vertex, from, moved, 0);
      for (let axis = 0; axis < 3; axis += 1) found[3 * at + axis] = vertex[from + axis] + options.apart * moved[axis];
    }
    outside.forEach((dart, at) => shape.stroke(dart, inset, found, 3 * all.length + 6 * at));
    return found;
  }

  // Where the middle of all is as the camera looks now, and how far away it must stand to see all.
  function reachOf(viewer) {
    const {camera} = viewer;
    const places = placesOf(viewer);
    const turned = new Float64Array(places.length);
    const [right, up, back] = [0, 1, 2].map((axis) => new THREE.Vector3().setFromMatrixColumn(camera.matrixWorld, axis));
    const [low, high] = [[Infinity, Infinity, Infinity], [-Infinity, -Infinity, -Infinity]];
    [right, up, back].forEach((way, axis) => {
      const {x, y, z} = way;
      for (let at = 0; at < places.length; at += 3) {
        const part = x * places[at] + y * places[at + 1] + z * places[at + 2];
        turned[at + axis] = part;
        if (part < low[axis]) low[axis] = part;
        if (part > high[axis]) high[axis] = part;
      }
    });
    const middle = places.length ? low.map((part, axis) => (part + high[axis]) / 2) : [0, 0, 0];
    const tall = Math.tan(camera.fov * Math.PI / 360);
    const wide = tall * camera.aspect;
    let far = 0.3;
    for (let at = 0; at < turned.length; at += 3) {
      far = Math.max(far, turned[at + 2] - middle[2] + 1.1 * Math.max(Math.abs(turned[at] - middle[0]) / wide,
        Math.abs(turned[at + 1] - middle[1]) / tall));
    }
    const centre = [right, up, back].reduce((sum, way, axis) => sum.addScaledVector(way, middle[axis]), new THREE.Vector3());
    return {middle: centre, far};
  }

  Object.assign(gmr, {placesOf, reachOf});
}(window.gmr = window.gmr || {}));
