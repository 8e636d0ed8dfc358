/* The viewer: a map in space that can be turned, pulled apart, cut and pointed at. It stands on three.js and its
   OrbitControls, and on the scripts beside it (see gmr.view.assets for their order).

   const v = new gmr.Viewer(element, {theme})   fills the element; theme is 'light' or 'dark'

   v.show(scene)          shows a scene of gmr.view.scene from a view that fits it
   v.update(changes, isPassed)  applies changes of gmr.view.scene, and keeps the view. Gives {fresh, gone, changed, undo}:
                          names of darts, and the changes that lead back. What is gone can still be lit, where it was.
                          Where isPassed is true, nothing is drawn: more changes come at once, or v.settle(). Without
                          the option isWayBack there is no undo, and what is gone can't be lit.
   v.fit()                turns back to the first view, and fits it
   v.set({..})            sets some of: apart (0 to 1), cut (null, or {axis: 'x', 'y' or 'z', at: 0 to 1, flip}),
                          darts, faces, edges, points, names (true, false, or 'auto' by the number of darts),
                          links (true, false, 'auto', or a list of labels), colourBy ('plain', an embedding's name, a list
                          of labels for their orbits, or 'auto': the first rgb over faces or more), theme
   v.get()                what is set, with 'auto' as what it comes to
   v.select({darts, kind}) marks darts as selected; kind is 'dart', 'vertex', 'edge', 'face' or 'volume'; null for none
   v.light(darts, style, kind)  marks darts in the place of those marked so before. Styles: 'new', 'gone', 'fits',
                          'fault', 'selected', 'hover'
   v.on('pick' | 'hover', f)  calls f with {dart, kind, cells: {vertex, edge, face, volume: names of darts}, point: in the
                          map's numbers, event}; hover calls it with null where the pointer leaves. Gives a function that
                          ends it
   v.dartAt(x, y)         the dart at a pixel of the element, or null
   v.pixelOf(dart)        {x, y, seen}: the pixel where the dart's stroke has its middle, and whether it is seen there
   v.info(dart)           {name, neighbours: [by label], cells: [{dimension, name, darts, sizes}], values: {embedding}}
   v.state                the map that is shown (state.js): names, alpha, embeds, walk, indexOf
   v.calls                how many calls the last picture took, v.triangles how many triangles, and v.sent how many bytes
                          of buffers were sent for it
   v.hold(time)           draws nothing for so many milliseconds, or until the next update
   v.destroy()            takes everything away

   Darts are told by their names. Keys, where the canvas has the focus: arrows turn, shift and arrows move, + and - come
   nearer and go further, f fits. */
(function (gmr) {
  'use strict';

  // Up to how many darts each kind of thing is shown, in the plane and in space.
  const FEW = {darts: [4000, 700], names: [500, 150], points: [4000, 1500], edges: [200000, 60000], links: [4000, 700]};
  const CELLS = ['vertex', 'edge', 'face', 'volume'];
  const MANY = ['vertices', 'edges', 'faces', 'volumes'];
  const DEFAULTS = {apart: 0, cut: null, faces: true, edges: 'auto', points: 'auto', darts: 'auto', names: 'auto',
    links: 'auto', colourBy: 'auto', isWayBack: true};
  const dashOf = (label) => [0, 0, 0, 3, 5, 2, 7, 4][label]; // pixels of a dash: labels differ without colours too
  const nameOfCell = (dimension) => CELLS[dimension] || `cell of dimension ${dimension}`;

  // Whether WebGL is drawn by the processor: the names of what draws so.
  function isDrawnBySoftware() {
    const gl = document.createElement('canvas').getContext('webgl');
    const told = gl && gl.getExtension('WEBGL_debug_renderer_info');
    const name = told ? gl.getParameter(told.UNMASKED_RENDERER_WEBGL) : '';
    if (gl) gl.getExtension('WEBGL_lose_context').loseContext();
    return /swiftshader|llvmpipe|softpipe|software|basic render/i.test(name);
  }

  class Viewer {
    constructor(element, options) {
      this.element = element;
      this.options = {...DEFAULTS, theme: 'light', ...options};
      this.inset = 0.16;
      this.listeners = {pick: new Set(), hover: new Set()};
      this.marks = new Map();
      this.ghosts = new Map();
      this.shared = {apart: {value: 0}, size: {value: new THREE.Vector2(1, 1)}, plane: {value: new THREE.Vector4(0, 0, 0, 1)}, isSolid: {value: 0}, pixels: {value: 1}};
      this.scene = new THREE.Scene();
      this.camera = new THREE.PerspectiveCamera(32, 1, 0.01, 100);
      this.camera.up.set(0, 0, 1);
      // Where no card draws, a picture has one pixel to one of the page, and edges that aren't smoothed.
      const isSlow = isDrawnBySoftware();
      this.renderer = new THREE.WebGLRenderer({antialias: !isSlow});
      this.renderer.setPixelRatio(isSlow ? 1 : Math.min(window.devicePixelRatio || 1, 2));
      const canvas = this.renderer.domElement;
      canvas.tabIndex = 0;
      canvas.setAttribute('role', 'application');
      canvas.setAttribute('aria-label', 'The map. Arrows turn it, plus and minus come nearer and go further, f fits it.');
      element.appendChild(canvas);
      this.controls = new THREE.OrbitControls(this.camera, canvas);
      Object.assign(this.controls, {enableKeys: false, rotateSpeed: 0.8, screenSpacePanning: true});
      this.controls.addEventListener('change', () => this.draw());
      this.picture = new gmr.Picture(this);
      this.picker = new gmr.Picker(this);
      this.pointer = new gmr.Pointer(this);
      this.resizer = new ResizeObserver(() => this.resize());
      this.resizer.observe(element);
      this.resize();
    }

    get theme() { return gmr.THEMES[this.options.theme]; }

    show(scene) {
      this.state = new gmr.State(scene);
      this.marks.clear();
      this.ghosts.clear();
      this.reshape();
      this.fit();
    }

    update(changes, isPassed) {
      this.release();
      const wasEmpty = !this.state.count;
      this.ghosts = isPassed || !this.options.isWayBack ? new Map() : this.ghostsOf(changes);
      const found = this.state.apply(changes, this.options.isWayBack);
      this.marks.clear();
      const touched = this.shape && !isPassed && !wasEmpty ? this.shape.renew(found) : null;
      if (touched) {
        this.picture.renew(touched);
        this.setCut();
        this.drawMarks();
        this.draw();
      } else this.shape = null;
      if (!isPassed) this.settle();
      if (!isPassed && wasEmpty) this.fit();
      return found;
    }

    // The marks of the darts that go by changes, so that they can be lit where they were.
    ghostsOf(changes) {
      const gone = Array.from(gmr.unpack(changes.gone));
      const {shape} = this;
      if (gone.length && !shape) this.shape = new gmr.Shape(this.state, this.frame);
      const found = new Map(gone.map((name) => [name, this.markOf(this.state.indexOf(name))]));
      this.shape = shape;
      return found;
    }

    settle() { if (!this.shape) this.reshape(this.state.points && this.hadDarts ? this.frame : undefined); }

    fit() {
      const isFlat = this.shape.isFlat;
      const [above, turn] = isFlat ? [Math.PI / 2 - 1e-4, -Math.PI / 2] : [25 * Math.PI / 180, -60 * Math.PI / 180];
      const way = new THREE.Vector3(Math.cos(above) * Math.cos(turn), Math.cos(above) * Math.sin(turn), Math.sin(above));
      this.controls.target.set(0, 0, 0);
      this.camera.position.copy(way);
      this.camera.lookAt(0, 0, 0);
      this.camera.updateMatrixWorld();
      const {middle, far} = this.reach();
      this.controls.target.copy(middle);
      this.camera.position.copy(middle).addScaledVector(way, far);
      this.camera.near = far / 200;
      this.camera.far = far * 40;
      this.camera.updateProjectionMatrix();
      this.controls.update();
      this.draw();
    }

    reach() { return gmr.reachOf(this); }

    set(options) {
      const before = {...this.options};
      Object.assign(this.options, options);
      const changed = (name) => this.options[name] !== before[name];
      const {picture} = this;
      this.shared.apart.value = this.options.apart;
      if (!this.state) return;
      if (changed('theme')) picture.forget(() => true);
      if (changed('colourBy')) picture.forget((name) => name === 'faces' || name === 'darts');
      if (changed('faces')) this.deepen();
      if (Object.keys(this.options).some((name) => name !== 'apart' && name !== 'cut' && changed(name))) this.showAll();
      this.setCut();
      this.draw();
    }

    get() {
      const {options, state} = this;
      const most = (name) => FEW[name][this.shape && !this.shape.isFlat ? 1 : 0];
      const few = (name) => (options[name] === 'auto' ? !state || state.count <= most(name) : options[name]);
      const found = {...options};
      ['darts', 'names', 'points', 'edges', 'links'].forEach((name) => { found[name] = few(name); });
      if (options.edges === 'auto' && state && state.dimension === 1) found.edges = !found.darts;
      if (options.links === 'auto') found.links = found.darts;
      if (options.names === 'auto') found.names = found.names && found.darts;
      if (options.colourBy === 'auto' && state) {
        const embed = state.embeds.find((one) => one.kind === 'rgb' && [0, 1].every((label) => one.labels.includes(label)));
        found.colourBy = embed ? embed.name : 'plain';
      }
      return found;
    }

    // The plane beyond which nothing is drawn.
    setCut() {
      const {cut} = this.options;
      const plane = this.shared.plane.value;
      this.shared.isSolid.value = this.options.faces && !cut ? 1 : 0;
      if (!cut || !this.shape) {
        plane.set(0, 0, 0, 1);
        return;
      }
      const axis = 'xyz'.indexOf(cut.axis);
      const places = gmr.placesOf(this);
      let [low, high] = [Infinity, -Infinity];
      for (let at = axis; at < places.length; at += 3) {
        if (places[at] < low) low = places[at];
        if (places[at] > high) high = places[at];
      }
      const sign = cut.flip ? -1 : 1;
      const at = low + cut.at * (high - low) + sign * 1e-4;
      plane.set(0, 0, 0, sign * at);
      plane.setComponent(axis, sign);
    }

    // Makes the shape anew, in a frame or in its own, and all that is shown.
    reshape(frame) {
      this.shape = new gmr.Shape(this.state, frame);
      this.frame = this.shape.frame;
      this.hadDarts = this.state.count > 0;
      this.picture.take(this.shape);
      this.deepen();
      this.showAll();
      this.setCut();
      this.draw();
    }

    // Without faces strokes lie within their volumes, so that those of two volumes are told apart.
    deepen() {
      const deep = this.options.faces || this.shape.isFlat ? 0 : 0.06;
      if (deep !== this.shape.deep) this.picture.forget((name) => /darts|names|link/.test(name));
      this.shape.deep = deep;
    }

    showAll() {
      const {theme} = this;
      this.scene.background = new THREE.Color(theme.back);
      this.renderer.setClearColor(theme.back, 1);
      this.picture.show();
      this.drawMarks();
    }

    // A place of a dart's volume as it is drawn, pulled apart.
    placed(dart, place) {
      const moved = [0, 0, 0];
      this.shape.drift(dart, place, 0, moved, 0);
      return place.map((part, axis) => part + this.options.apart * moved[axis]);
    }

    select(chosen) { this.light(chosen ? chosen.darts : [], 'selected', chosen ? chosen.kind : undefined); }

    light(darts, style, kind) {
      if (darts && darts.length) this.marks.set(style, {darts: Array.from(darts), kind}); else this.marks.delete(style);
      this.drawMarks();
      this.draw();
    }

    // What must be known to mark a dart, also once it is gone: its stroke, its part of the face, its vertex and edge,
    // and how far they move.
    markOf(dart) {
      const {shape} = this;
      const places = new Float32Array(15);
      shape.stroke(dart, this.inset, places, 0);
      for (let axis = 0; axis < 3; axis += 1) {
        const at = 3 * dart + axis;
        places[6 + axis] = shape.vertex[at];
        places[9 + axis] = shape.edge[at];
        places[12 + axis] = shape.vertex[at] + shape.toward1[at];
      }
      const moved = new Float32Array(15);
      for (let part = 0; part < 5; part += 1) shape.drift(dart, places, 3 * part, moved, 3 * part);
      return {places, moved, hasFace: !shape.outer[dart] && !shape.isLine};
    }

    drawMarks() {
      const found = [];
      for (const [style, {darts, kind}] of this.marks) {
        const marks = darts.map((name) => {
          const at = this.state.indexOf(name);
          return at >= 0 ? this.markOf(at) : this.ghosts.get(name);
        }).filter(Boolean);
        found.push({style, parts: gmr.marks.partsOf(marks, kind, this.theme.styles[style]), order: 5 + found.length / 10});
      }
      this.picture.showMarks(found);
    }

    on(name, listener) {
      this.listeners[name].add(listener);
      return () => this.listeners[name].delete(listener);
    }

    tell(name, found) { this.listeners[name].forEach((listener) => listener(found)); }

    // What is told of a hit at a pixel.
    hitAt(x, y, event) {
      const hit = this.picker.at(x, y);
      if (!hit) return null;
      return {dart: this.state.names[hit.index], kind: hit.kind, cells: this.cellsOf(hit.index),
        point: this.unplaced(hit.index, hit.point.toArray ? hit.point.toArray() : hit.point), event};
    }

    // A place of the picture in the numbers of the map, not pulled apart.
    unplaced(dart, place) {
      const zero = this.placed(dart, [0, 0, 0]);
      const one = this.placed(dart, [1, 1, 1]);
      return this.shape.unframed(place.map((part, axis) => (part - zero[axis]) / (one[axis] - zero[axis])));
    }

    // The cells of a dart: found where they are asked for, since a volume can hold all darts.
    cellsOf(index) {
      const {state} = this;
      const cells = {};
      CELLS.slice(0, state.dimension + 1).forEach((name, dimension) => {
        Object.defineProperty(cells, name, {enumerable: true, configurable: true,
          get: () => state.walk(state.labelsBut(dimension), index).map((at) => state.names[at]).sort((a, b) => a - b)});
      });
      return cells;
    }

    dartAt(x, y) {
      const hit = this.picker.at(x, y);
      return hit ? this.state.names[hit.index] : null;
    }

    pixelOf(dart) {
      const at = this.state.indexOf(dart);
      if (at < 0) return null;
      const ends = this.shape.stroke(at, this.inset);
      const middle = [0, 1, 2].map((axis) => (ends[axis] + ends[3 + axis]) / 2);
      const place = new THREE.Vector3(...this.placed(at, middle)).project(this.camera);
      const {clientWidth, clientHeight} = this.renderer.domElement;
      const [x, y] = [(place.x + 1) / 2 * clientWidth, (1 - place.y) / 2 * clientHeight];
      return {x, y, get seen() { return this.is(); }, is: () => this.dartAt(x, y) === dart};
    }

    info(dart) {
      const {state} = this;
      const at = state.indexOf(dart);
      if (at < 0) return null;
      const cells = state.alpha.map((_, dimension) => {
        const darts = state.walk(state.labelsBut(dimension), at);
        const others = state.alpha.map((__, other) => other).filter((other) => other !== dimension);
        const sizes = Object.fromEntries(others.map((other) => {
          const {of} = state.orbits(state.labelsBut(other));
          return [MANY[other] || `cells of dimension ${other}`, new Set(darts.map((one) => of[one])).size];
        }));
        return {dimension, name: nameOfCell(dimension), darts: darts.length, sizes};
      });
      return {name: dart, neighbours: state.alpha.map((step) => state.names[step[at]]), cells,
        values: Object.fromEntries(state.embeds.map((embed) => [embed.name, state.value(embed, at)]))};
    }

    resize() {
      const {clientWidth, clientHeight} = this.element;
      if (!clientWidth || !clientHeight) return;
      this.renderer.setSize(clientWidth, clientHeight);
      this.shared.size.value.set(clientWidth / 2, clientHeight / 2);
      this.shared.pixels.value = this.renderer.getPixelRatio();
      this.camera.aspect = clientWidth / clientHeight;
      this.camera.updateProjectionMatrix();
      this.draw();
    }

    // Draws at the next picture of the screen, once however often it is asked.
    draw() {
      if (this.waiting || this.held) return;
      this.waiting = requestAnimationFrame(() => this.drawNow());
    }

    hold(time) {
      clearTimeout(this.held);
      cancelAnimationFrame(this.waiting);
      this.waiting = 0;
      this.held = setTimeout(() => this.release(), time);
    }

    release() {
      if (!this.held) return;
      clearTimeout(this.held);
      this.held = 0;
      this.draw();
    }

    drawNow() {
      cancelAnimationFrame(this.waiting);
      this.waiting = 0;
      this.sent = this.picture.send();
      this.renderer.render(this.scene, this.camera);
      this.calls = this.renderer.info.render.calls;
      this.triangles = this.renderer.info.render.triangles;
    }

    destroy() {
      cancelAnimationFrame(this.waiting);
      clearTimeout(this.held);
      this.resizer.disconnect();
      this.pointer.destroy();
      this.controls.dispose();
      this.picture.dispose();
      this.renderer.dispose();
      this.renderer.domElement.remove();
    }
  }

  Object.assign(gmr, {Viewer, CELLS, dashOf});
}(window.gmr = window.gmr || {}));
