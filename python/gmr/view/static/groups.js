// The cells that hold some darts, so that what a change touches is made anew and nothing else.
(function (gmr) {
  'use strict';

  // The orbits over steps in which some darts lie: `list` has their darts, one orbit after another, and `begins` where
  // each begins. An orbit's first dart leads it.
  function gather(state, steps, starts) {
    const stamp = state.newStamp();
    const {seen} = state;
    const list = new Int32Array(state.count);
    const begins = new Int32Array(state.count + 1);
    let [top, count] = [0, 0];
    for (let start = 0; start < starts.length; start += 1) {
      if (seen[starts[start]] === stamp) continue;
      let at = top;
      begins[count++] = top;
      seen[starts[start]] = stamp;
      list[top++] = starts[start];
      for (; at < top; at += 1) {
        for (let place = 0; place < steps.length; place += 1) {
          const near = steps[place][list[at]];
          if (seen[near] !== stamp) {
            seen[near] = stamp;
            list[top++] = near;
          }
        }
      }
    }
    begins[count] = top;
    return {list: list.subarray(0, top), begins: begins.subarray(0, count + 1), count};
  }

  // Writes the mean of the places of each orbit's darts, three numbers each, where its first dart stands.
  function means(groups, places, into) {
    const {list, begins, count} = groups;
    for (let group = 0; group < count; group += 1) {
      let [x, y, z] = [0, 0, 0];
      for (let at = begins[group]; at < begins[group + 1]; at += 1) {
        x += places[3 * list[at]];
        y += places[3 * list[at] + 1];
        z += places[3 * list[at] + 2];
      }
      const size = begins[group + 1] - begins[group];
      const lead = 3 * list[begins[group]];
      into[lead] = x / size;
      into[lead + 1] = y / size;
      into[lead + 2] = z / size;
    }
  }

  Object.assign(gmr, {gather, means});
}(window.gmr = window.gmr || {}));
