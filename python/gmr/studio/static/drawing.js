/* Drawings of rules: nodes with their words, and arcs in the colours of their labels, left and right side beside each
   other. A node lies at one place on both sides. */
(function (gmr) {
  'use strict';

  const XMLNS = 'http://www.w3.org/2000/svg';
  const DASHES = ['', '5 3', '1.5 3', '8 3 1.5 3', '3 2', '10 3', '1.5 2', '6 2 2 2'];

  function shape(name, attributes, ...children) {
    const made = document.createElementNS(XMLNS, name);
    Object.entries(attributes).forEach(([key, value]) => made.setAttribute(key, value));
    made.append(...children);
    return made;
  }

  const colourOf = (label) => `var(--l${label % 8})`;

  // How many links lie between any two nodes, over the links of both sides; `far` where none lead there.
  function distances(names, links, far) {
    const at = new Map(names.map((name, place) => [name, place]));
    const found = names.map((_, row) => names.map((__, column) => (row === column ? 0 : far)));
    for (const [one, , other] of links) {
      if (one === other) continue;
      found[at.get(one)][at.get(other)] = 1;
      found[at.get(other)][at.get(one)] = 1;
    }
    for (let by = 0; by < names.length; by += 1) {
      for (let one = 0; one < names.length; one += 1) {
        for (let other = 0; other < names.length; other += 1) {
          found[one][other] = Math.min(found[one][other], found[one][by] + found[by][other]);
        }
      }
    }
    return found;
  }

  // Places for nodes whose distances are as near to their numbers of links as the plane allows: stress is made less
  // step by step, from a circle.
  function layOut(names, links) {
    const count = names.length;
    if (count === 1) return [[0, 0]];
    const wanted = distances(names, links, Math.max(2, Math.ceil(Math.sqrt(count))));
    const places = names.map((_, at) => {
      const turn = 2 * Math.PI * at / count + Math.PI / 2 + 0.3 / count;
      return [Math.cos(turn) * count / 6, Math.sin(turn) * count / 6];
    });
    for (let round = 0; round < 260; round += 1) {
      for (let one = 0; one < count; one += 1) {
        let [x, y, weight] = [0, 0, 0];
        for (let other = 0; other < count; other += 1) {
          if (one === other) continue;
          const far = wanted[one][other];
          const [dx, dy] = [places[one][0] - places[other][0], places[one][1] - places[other][1]];
          const length = Math.hypot(dx, dy) || 1e-6;
          const share = 1 / (far * far);
          x += share * (places[other][0] + far * dx / length);
          y += share * (places[other][1] + far * dy / length);
          weight += share;
        }
        places[one] = [x / weight, y / weight];
      }
    }
    return turned(places);
  }

  // Places turned so that they reach furthest from above to below, since a side of a drawing is higher than wide.
  function turned(places) {
    let best = null;
    for (let step = 0; step < 18; step += 1) {
      const turn = Math.PI * step / 18;
      const made = places.map(([x, y]) => [x * Math.cos(turn) - y * Math.sin(turn), x * Math.sin(turn) + y * Math.cos(turn)]);
      const wide = reach(made, 0);
      if (!best || wide < best.wide - 1e-6) best = {wide, made};
    }
    return best.made;
  }

  const reach = (places, axis) => Math.max(...places.map((place) => place[axis])) - Math.min(...places.map((place) => place[axis]));

  // Places in a box of so many pixels, spread over its width and its height, but no further than is needed.
  function fitted(places, wide, high) {
    const low = [0, 1].map((axis) => Math.min(...places.map((place) => place[axis])));
    const sizes = [reach(places, 0), reach(places, 1)];
    const scales = [Math.min(wide / (sizes[0] || 1e-9), 150), Math.min(high / (sizes[1] || 1e-9), 84)];
    return places.map((place) => [wide, high].map((room, axis) => (room - scales[axis] * sizes[axis]) / 2
      + scales[axis] * (place[axis] - low[axis])));
  }

  function wordText(word) {
    const made = shape('tspan', {});
    made.append('⟨');
    word.forEach((letter, at) => {
      if (at) made.append(' ');
      made.append(letter === null ? '_' : shape('tspan', {fill: colourOf(letter), 'font-weight': 700}, String(letter)));
    });
    made.append('⟩');
    return made;
  }

  // An arc between two places; several between the same ones are bent apart. `turn` is which of them it is.
  function arc([x0, y0], [x1, y1], label, turn, of) {
    const length = Math.hypot(x1 - x0, y1 - y0) || 1;
    const bend = (turn - (of - 1) / 2) * 30;
    const [nx, ny] = [-(y1 - y0) / length, (x1 - x0) / length];
    const [mx, my] = [(x0 + x1) / 2 + nx * bend, (y0 + y1) / 2 + ny * bend];
    return arcShapes(`M${x0} ${y0}Q${mx} ${my} ${x1} ${y1}`, label, (x0 + 2 * mx + x1) / 4, (y0 + 2 * my + y1) / 4);
  }

  // The line of an arc, and its label on a spot of the ground.
  function arcShapes(path, label, x, y) {
    return [
      shape('path', {d: path, fill: 'none', stroke: colourOf(label), 'stroke-width': 2, 'stroke-dasharray': DASHES[label % 8]}),
      shape('circle', {cx: x, cy: y, r: 6.5, fill: 'var(--code)'}),
      shape('text', {x, y: y + 3.6, fill: colourOf(label), 'font-size': 10, 'font-weight': 700, 'text-anchor': 'middle'}, String(label)),
    ];
  }

  // A loop at a node, by which it is free along a label: above the node or below it, away from the middle.
  function loop([x, y], middle, label, turn) {
    const way = y > middle[1] + 1 ? 1 : -1;
    const side = way * (turn % 2 ? -1 : 1);
    const from = x + [0, 0, 17, -17, 30, -30][turn % 6];
    const tip = y + side * 33;
    return arcShapes(`M${from - 6} ${y}C${from - 17} ${tip} ${from + 17} ${tip} ${from + 6} ${y}`, label, from, y + side * 25);
  }

  function arcsOf(links, at) {
    const middle = [0, 1].map((axis) => [...at.values()].reduce((sum, place) => sum + place[axis], 0) / at.size);
    const pairs = new Map();
    for (const [one, label, other] of links) {
      const key = [one, other].sort().join(' ');
      pairs.set(key, [...(pairs.get(key) || []), [one, label, other]]);
    }
    const found = [];
    for (const alike of pairs.values()) {
      alike.forEach(([one, label, other], turn) => {
        found.push(...(one === other ? loop(at.get(one), middle, label, turn)
          : arc(...[one, other].sort().map((name) => at.get(name)), label, turn, alike.length)));
      });
    }
    return found;
  }

  const lettersOf = (word) => word.map((letter) => (letter === null ? '_' : String(letter))).join(' ');
  const shortened = (name) => (name.length > 8 ? `${name.slice(0, 7)}…` : name);

  // How wide the box of a node is.
  const widthOf = (node, word) => 21 + 6.6 * shortened(node.name).length + 5.4 * lettersOf(word).length;

  function nodeShapes(node, word, [x, y], isNew, isGone) {
    const stroke = isNew ? 'var(--good)' : isGone ? 'var(--bad)' : 'var(--ink)';
    const wide = widthOf(node, word);
    const box = (more) => shape('rect', {x: x - wide / 2 - more, y: y - 9.5 - more, width: wide + 2 * more, height: 19 + 2 * more, rx: 9.5 + more,
      fill: 'var(--panel)', stroke, 'stroke-width': isNew || isGone ? 2 : 1.3, 'stroke-dasharray': isGone ? '3 2' : ''});
    const made = [...(node.hook && !isNew ? [box(3)] : []), box(0)];
    const text = shape('text', {x, y: y + 3.7, 'font-size': 10.5, 'text-anchor': 'middle', fill: 'var(--ink)'},
      shape('tspan', {'font-weight': 700}, `${shortened(node.name)} `), wordText(word));
    const sets = Object.entries(node.sets).map(([name, value]) => `${name} = ${value}`);
    const told = [`${node.name}${node.hook ? ', a hook' : ''}${isNew ? ', new' : ''}${isGone ? ', goes' : ''}`, ...(isNew || !isGone ? sets : [])];
    return shape('g', {}, ...made, text, shape('title', {}, told.join('\n')));
  }

  // One side of a rule in a box; an empty side is told.
  function sideOf(rule, side, places, box) {
    const nodes = rule.nodes.filter((node) => node[side]);
    const group = shape('g', {transform: `translate(${box.x} ${box.y})`});
    if (!nodes.length) {
      group.append(shape('text', {x: box.wide / 2, y: box.high / 2, 'font-size': 10.5, 'text-anchor': 'middle', fill: 'var(--soft)'}, 'nothing'));
      return group;
    }
    const at = new Map(nodes.map((node) => [node.name, places.get(node.name)]));
    group.append(...arcsOf(rule[side], at));
    nodes.forEach((node) => group.append(nodeShapes(node, node[side], at.get(node.name), side === 'right' && !node.left,
      side === 'left' && !node.right)));
    return group;
  }

  // The drawing of a rule as described by gmr.studio.rulebook, so many pixels wide and high.
  function drawRule(rule, wide, high) {
    const svg = shape('svg', {viewBox: `0 0 ${wide} ${high}`, role: 'img', 'aria-label': `the left and the right side of ${rule.name}`});
    const names = rule.nodes.map((node) => node.name);
    const room = loopRoom(rule);
    const margin = {top: 32 + room, bottom: 18 + room, x: 11 + Math.max(20, ...rule.nodes.map((node) => widthOf(node, node.left || node.right))) / 2};
    const box = {wide: wide / 2, high, y: 0};
    const spots = names.length ? fitted(layOut(names, [...rule.left, ...rule.right]), box.wide - 2 * margin.x, high - margin.top - margin.bottom) : [];
    const places = new Map(names.map((name, at) => [name, [spots[at][0] + margin.x, spots[at][1] + margin.top]]));
    svg.append(shape('path', {d: `M${wide / 2} 8V${high - 8}`, stroke: 'var(--line)'}));
    svg.append(shape('path', {d: `M${wide / 2 - 6} ${high / 2 - 7}l12 7l-12 7z`, fill: 'var(--soft)'}));
    ['left', 'right'].forEach((side, at) => {
      svg.append(shape('text', {x: at * wide / 2 + 8, y: 14, 'font-size': 9.5, fill: 'var(--soft)'}, side));
      svg.append(sideOf(rule, side, places, {...box, x: at * wide / 2}));
    });
    return svg;
  }

  // The room that loops need above and below.
  const loopRoom = (rule) => ([...rule.left, ...rule.right].some(([one, , other]) => one === other) ? 22 : 0);

  // How high a drawing of a rule is to be, so that arcs have room for their labels.
  function heightOf(rule) {
    const names = rule.nodes.map((node) => node.name);
    const reached = names.length ? reach(layOut(names, [...rule.left, ...rule.right]), 1) : 0;
    return Math.round(Math.max(80, Math.min(280, 56 + 2 * loopRoom(rule) + 43 * reached)));
  }

  Object.assign(gmr, {drawRule, heightOfDrawing: heightOf});
}(window.gmr = window.gmr || {}));
