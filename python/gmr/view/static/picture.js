// The picture of a map: its layers, each drawn in one call, which are kept up where something changes.
(function (gmr) {
  'use strict';

  const ORDER = {faces: 0, edges: 1, points: 2, links: 3, darts: 4, names: 8};
  const DRAWN_AS = {faces: 'faces', points: 'points', names: 'names'};

  class Picture {
    constructor(viewer) {
      this.viewer = viewer;
      this.meshes = new Map();      // by name: what draws a layer; kept, so that its program stays on the card
      this.layers = new Map();      // by name: the layers that are as the map is
      this.marks = new Map();       // materials of marks
    }

    // Takes a shape: all layers are made anew.
    take(shape) {
      this.shape = shape;
      this.forget(() => true);
    }

    // Forgets layers, which are made anew when they are shown.
    forget(isChosen) {
      for (const [name, layer] of this.layers) {
        if (!isChosen(name)) continue;
        this.meshes.get(name).visible = false;
        layer.pool.dispose();
        this.layers.delete(name);
      }
    }

    // Shows the layers that are wanted, and makes those that aren't there.
    show() {
      const {viewer, shape} = this;
      const shown = viewer.get();
      if (!this.tints || !this.layers.has('faces')) this.tints = new gmr.Tints(viewer.state, shown.colourBy, viewer.theme.face);
      const wanted = this.wanted(shown);
      let all = null;
      for (const [name, make] of wanted) {
        if (!this.layers.has(name)) {
          const layer = make();
          all = all || gmr.gather(viewer.state, shape.steps.slice(0, 2), viewer.state.taken());
          layer.renew([], all);
          this.layers.set(name, layer);
        }
        this.meshOf(name);
      }
      for (const [name, mesh] of this.meshes) mesh.visible = wanted.has(name);
      shape.hasWays = ['darts', 'names', 'link0', 'link1', 'link2', 'link3'].some((name) => wanted.has(name));
      this.dress(shown);
    }

    // The layers that are to be seen, and what makes each.
    wanted(shown) {
      const {viewer, shape} = this;
      const {theme, inset} = viewer;
      const {layers} = gmr;
      const found = new Map();
      if (shown.faces && !shape.isLine) found.set('faces', () => new gmr.Faces(shape, this.tints));
      if (shown.edges) found.set('edges', () => new layers.Edges(shape, theme));
      if (shown.points) found.set('points', () => new layers.Points(shape, theme));
      const labels = Array.isArray(shown.links) ? shown.links : shown.links ? viewer.state.alpha.map((_, label) => label) : [];
      for (const label of labels) found.set(`link${label}`, () => new layers.Links(shape, inset, label, theme));
      if (shown.darts) found.set('darts', () => new layers.Darts(shape, inset, Array.isArray(shown.colourBy) ? this.tints : null, theme));
      if (shown.names) found.set('names', () => new layers.Names(shape, inset));
      return found;
    }

    // What draws a layer.
    meshOf(name) {
      if (!this.meshes.has(name)) {
        const sort = name.startsWith('link') ? 'links' : name;
        const kind = DRAWN_AS[sort] || 'strokes';
        const label = Number(name.slice(4));
        const own = {edges: {lift: 6e-6}, points: {lift: 1e-4}, darts: {lift: 1e-4, head: 0},
          links: {lift: 8e-5, dash: gmr.dashOf(label), least: 3}, faces: {},
          names: {width: 13, digits: gmr.digitsTexture(), ink: new THREE.Color(), rim: new THREE.Color(), lift: 2e-4}}[sort];
        const made = gmr.meshOf(kind, new THREE.BufferGeometry(), gmr.materials[kind](this.viewer.shared, own), ORDER[sort]);
        this.meshes.set(name, made);
        this.viewer.scene.add(made);
      }
      return this.meshes.get(name);
    }

    // Widths, which are less where there are many darts, and the colours of the theme.
    dress(shown) {
      const {viewer} = this;
      const {theme} = viewer;
      const thin = (width) => width * Math.max(0.55, Math.min(1, 12 / Math.sqrt(Math.sqrt(this.shape.count + 1) * 5)));
      const set = (name, values) => {
        if (!this.meshes.has(name)) return;
        const {uniforms} = this.meshes.get(name).material;
        for (const [word, value] of Object.entries(values)) uniforms[word].value = value;
      };
      set('faces', {shade: this.shape.isFlat ? 1 : theme.shade, pale: new THREE.Color(theme.back), paleness: !this.tints.isPlain && shown.darts ? 0.45 : 0});
      set('edges', {width: thin(1.4)});
      set('points', {width: thin(6)});
      set('darts', {width: thin(3.2), head: thin(10)});
      viewer.state.alpha.forEach((_, label) => set(`link${label}`, {width: thin(label === 3 ? 1.5 : 2.2)}));
      set('names', {ink: new THREE.Color(theme.name), rim: new THREE.Color(theme.back)});
    }

    // Takes up what a change of the shape touched; layers that aren't seen are forgotten.
    renew({gone, rows, faces}) {
      this.forget((name) => !this.meshes.get(name).visible);
      if (!this.tints.renew()) {
        this.tints = null;
        this.forget((name) => name === 'faces' || name === 'darts');
      }
      if (faces) for (const layer of this.layers.values()) layer.renew(gone, faces);
      else if (this.layers.has('faces')) this.layers.get('faces').recolour(this.leadsOf(rows));
      this.forget((name) => this.layers.get(name).pool.isLoose);
      this.show();
    }

    // The darts that lead the faces of some darts, each once.
    leadsOf(slots) {
      const {shape: {face}, viewer: {state}} = this;
      const stamp = state.newStamp();
      const found = new Int32Array(slots.length);
      let top = 0;
      for (let at = 0; at < slots.length; at += 1) {
        const lead = face[slots[at]];
        if (state.seen[lead] !== stamp) found[top++] = lead;
        state.seen[lead] = stamp;
      }
      return found.subarray(0, top);
    }

    // Sends what was written since the last picture, and says how many bytes that is.
    send() {
      const gl = this.viewer.renderer.getContext();
      let sent = 0;
      for (const [name, {pool}] of this.layers) {
        const mesh = this.meshes.get(name);
        if (!mesh.visible) continue;
        mesh.geometry = pool.geometry(gl);
        sent += pool.send(gl);
      }
      return sent;
    }

    // Draws marks in the place of those that are drawn.
    showMarks(found) {
      this.clearMarks();
      for (const {style, parts, order} of found) {
        for (const {kind, geometry, own} of parts) {
          const key = `${kind} ${JSON.stringify(own)}`;
          if (!this.marks.has(key)) this.marks.set(key, gmr.materials[kind](this.viewer.shared, own));
          const mesh = gmr.meshOf(kind, geometry, this.marks.get(key), order);
          mesh.userData.style = style;
          this.viewer.scene.add(mesh);
        }
      }
    }

    clearMarks() {
      const {scene} = this.viewer;
      for (const mesh of scene.children.filter((one) => one.userData.style)) {
        scene.remove(mesh);
        mesh.geometry.dispose();
      }
    }

    dispose() {
      this.clearMarks();
      this.forget(() => true);
      for (const mesh of this.meshes.values()) {
        this.viewer.scene.remove(mesh);
        mesh.material.dispose();
      }
      for (const material of this.marks.values()) material.dispose();
    }
  }

  gmr.Picture = Picture;
}(window.gmr = window.gmr || {}));
