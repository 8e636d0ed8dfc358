// The ways outward of faces, by which darts that are turned away are left out.
(function (gmr) {
  'use strict';

  // On which side each dart lies, so that neighbours lie on different ones, and which volumes are closed and have two
  // sides, by the dart that leads a volume.
  function sides(shape, all) {
    const side = new Int8Array(shape.room).fill(-1);
    const isClosed = new Uint8Array(shape.room).fill(1);
    const waiting = [];
    for (const start of all) {
      if (side[start] >= 0) continue;
      side[start] = 0;
      waiting.push(start);
      while (waiting.length) {
        const dart = waiting.pop();
        for (let label = 0; label < 3; label += 1) {
          const near = shape.steps[label][dart];
          if (side[near] < 0) {
            side[near] = 1 - side[dart];
            waiting.push(near);
          } else if (side[near] === side[dart]) isClosed[shape.volume[dart]] = 0;
        }
      }
    }
    return {side, isClosed};
  }

  // The way outward of each face, by the dart that leads it: of zeros where its volume isn't closed, or has one side.
  function waysOutward(shape) {
    const all = shape.state.taken();
    const {side, isClosed} = sides(shape, all);
    const ways = new Float32Array(3 * shape.room);
    const fills = new Float64Array(shape.room);     // of each volume, six times, below 0 where it is walked inside out
    const polygon = new gmr.Polygon();
    const leads = all.filter((dart) => shape.face[dart] === dart);
    for (const lead of leads) {
      polygon.read(shape, lead);
      ways.set(polygon.normal, 3 * lead);
      fills[shape.volume[lead]] += (side[lead] ? -1 : 1) * polygon.filled;
    }
    for (const lead of leads) {
      const volume = shape.volume[lead];
      const sign = isClosed[volume] ? Math.sign(fills[volume]) * (side[lead] ? -1 : 1) : 0;
      for (let axis = 0; axis < 3; axis += 1) ways[3 * lead + axis] *= sign;
    }
    return ways;
  }

  gmr.waysOutward = waysOutward;
}(window.gmr = window.gmr || {}));
