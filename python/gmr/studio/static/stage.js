/* The model in the middle of the page: the viewer, what a click is about, what lies under the pointer, what is selected,
   and a cursor for the keyboard. `studio.tell('pick', hit)` and `('hover', hit)` tell the other parts. */
(function (gmr) {
  'use strict';

  const {studio, element, byId} = gmr;
  const MOST_LIT = 8000;
  const HELD = 250;   // milliseconds that no picture is drawn while something is done: the next one shows what came of it
  const KINDS = ['dart', 'vertex', 'edge', 'face', 'volume'];

  class Stage {
    constructor() {
      this.kind = 'face';
      this.selected = new Map();      // by the cell's least dart: {lead, darts, kind}
      this.cursor = null;
      this.glow = 1800;                // milliseconds that what is new stays lit
      studio.on('scene', (scene) => this.show(scene));
      studio.on('changes', (changes, answer) => this.change(changes, answer));
      studio.on('asked', () => this.viewer.hold(HELD));
      studio.on('message', () => this.viewer && this.viewer.release());
    }

    // Begins once the page stands, since the viewer needs an element that has a size.
    begin(theme) {
      this.viewer = new gmr.Viewer(byId('view'), {theme, isWayBack: false});
      this.viewer.on('pick', (hit) => studio.tell('pick', hit));
      this.viewer.on('hover', (hit) => this.hover(hit));
      this.makeLooks();
    }

    show(scene) {
      this.viewer.show(scene);
      this.selected.clear();
      this.cursor = null;
      this.makeKinds();
      this.makeColours();
      this.shown();
    }

    change(changes) {
      const found = this.viewer.update(changes);
      this.forgetGone();
      this.keepInView(found);
      const lit = found.fresh.length ? found.fresh : found.changed;
      this.light(lit, 'new', 'face');
      clearTimeout(this.fading);
      this.fading = setTimeout(() => this.light([], 'new'), this.glow);
      this.viewer.drawNow();      // before what stands beside it is written
      this.showLooks();
      this.shown();
    }

    // Steps back where what is new or changed reaches out of the picture now, without turning.
    keepInView({isMoved, slots}) {
      const {viewer} = this;
      const {camera, controls} = viewer;
      if (!isMoved || !this.isOutside(slots.rows)) return;
      const {middle, far} = viewer.reach();
      const way = camera.position.clone().sub(controls.target);
      if (way.length() > 1.6 * far) return;
      controls.target.copy(middle);
      camera.position.copy(middle).addScaledVector(way.normalize(), far);
      camera.far = Math.max(camera.far, far * 40);
      camera.updateProjectionMatrix();
      controls.update();
      viewer.draw();
    }

    // Whether a corner of some darts, by their slots, is drawn outside the picture.
    isOutside(slots) {
      const {camera, shape: {vertex}} = this.viewer;
      camera.updateMatrixWorld();
      camera.matrixWorldInverse.getInverse(camera.matrixWorld);
      const m = new THREE.Matrix4().multiplyMatrices(camera.projectionMatrix, camera.matrixWorldInverse).elements;
      for (let at = 0; at < slots.length; at += 1) {
        const from = 3 * slots[at];
        const x = vertex[from];
        const y = vertex[from + 1];
        const z = vertex[from + 2];
        const most = 0.99 * (m[3] * x + m[7] * y + m[11] * z + m[15]);
        if (Math.abs(m[0] * x + m[4] * y + m[8] * z + m[12]) > most) return true;
        if (Math.abs(m[1] * x + m[5] * y + m[9] * z + m[13]) > most) return true;
      }
      return false;
    }

    shown() { studio.tell('shown'); }

    // Lights darts; where there are so many that lighting them would take long, none.
    light(darts, style, kind) {
      const lit = darts.length > MOST_LIT ? [] : darts;
      if (lit.length || this.viewer.marks.has(style)) this.viewer.light(lit, style, kind);
    }

    // How far the points of the map reach, in the map's numbers.
    reach() {
      const {state} = this.viewer || {};
      const embed = state && state.points && state.embed(state.points);
      if (!embed) return 0;
      let [low, high] = [Infinity, -Infinity];
      const width = embed.width;
      let most = 0;
      for (let axis = 0; axis < width; axis += 1) {
        [low, high] = [Infinity, -Infinity];
        for (let at = axis; at < embed.values.length; at += width) {
          const value = Number(embed.values[at]);
          low = Math.min(low, value);
          high = Math.max(high, value);
        }
        most = Math.max(most, high - low);
      }
      return most;
    }

    // The point of the corner at a dart, or null where the map has none.
    pointOf(dart) {
      const {state} = this.viewer;
      const embed = state.points && state.embed(state.points);
      return embed ? state.value(embed, state.indexOf(dart)).map(Number) : null;
    }

    // The darts of a cell of a dart.
    cellOf(dart, kind) {
      const {state} = this.viewer;
      const dimension = KINDS.indexOf(kind) - 1;
      if (dimension < 0) return [dart];
      return this.orbitOf(dart, state.labelsBut(dimension));
    }

    // The darts of an orbit, or the dart alone where it has very many.
    orbitOf(dart, labels) {
      const {state} = this.viewer;
      const found = state.walk(labels, state.indexOf(dart), MOST_LIT);
      return found.length > MOST_LIT ? [dart] : found.map((one) => state.names[one]);
    }

    // Which kind of cell an orbit over labels looks like.
    static kindOf(labels) {
      const has = (label) => labels.includes(label);
      if (has(0) && has(1) && has(2)) return 'volume';
      if (has(0) && has(1)) return 'face';
      if (has(0) && has(2)) return 'edge';
      return has(1) && has(2) ? 'vertex' : 'dart';
    }

    hover(hit) {
      this.under = hit;
      if (hit) this.cursor = hit.dart;
      studio.tell('hover', hit);
    }

    // Selects the cell of a dart, or takes it out again; without `more` it becomes the only one.
    select(dart, more) {
      const darts = this.cellOf(dart, this.kind);
      const key = `${this.kind} ${Math.min(...darts)}`;
      const had = this.selected.has(key);
      if (!more || [...this.selected.values()].some((one) => one.kind !== this.kind)) this.selected.clear();
      if (!(had && more)) this.selected.set(key, {lead: dart, darts, kind: this.kind});
      else this.selected.delete(key);
      this.showSelected();
    }

    unselect() {
      this.selected.clear();
      this.showSelected();
    }

    showSelected() {
      this.lightSelected();
      studio.tell('selection');
    }

    lightSelected() {
      const cells = [...this.selected.values()];
      this.light(cells.flatMap((cell) => cell.darts), 'selected', cells.length ? cells[0].kind : undefined);
    }

    // The darts that lead the selected cells.
    leads() { return [...this.selected.values()].map((cell) => cell.lead); }

    forgetGone() {
      const {state} = this.viewer;
      if (this.cursor !== null && state.indexOf(this.cursor) < 0) this.cursor = null;
      for (const [key, cell] of this.selected) {
        if (state.indexOf(cell.lead) < 0) this.selected.delete(key);
        else cell.darts = this.cellOf(cell.lead, cell.kind);
      }
      this.showSelected();
    }

    // Moves the keyboard's cursor along a label, or to the next dart.
    step(label) {
      const {state} = this.viewer;
      if (!state.count) return;
      const at = this.cursor === null ? -1 : state.indexOf(this.cursor);
      const dart = at < 0 ? state.nameBehind(-1) : label === null ? state.nameBehind(this.cursor)
        : state.names[state.alpha[label] ? state.alpha[label][at] : at];
      this.cursor = dart;
      const pixel = this.viewer.pixelOf(dart);
      this.hover({dart, kind: 'dart', pixel, isKey: true});
    }

    makeKinds() {
      const {dimension} = this.viewer.state;
      const kinds = KINDS.slice(0, Math.min(dimension, 3) + 2);
      if (!kinds.includes(this.kind)) this.kind = kinds[kinds.length - 1];
      byId('kinds').replaceChildren(...kinds.map((kind) => element('button', {role: 'radio', id: `kind-${kind}`,
        'aria-checked': String(kind === this.kind), title: `A click selects a ${kind}`, onclick: () => this.setKind(kind)}, kind)));
    }

    setKind(kind) {
      this.kind = kind;
      for (const button of byId('kinds').children) button.setAttribute('aria-checked', String(button.id === `kind-${kind}`));
      this.unselect();
    }

    // Buttons for how the map is shown.
    makeLooks() {
      const toggle = (name, text, title) => element('button', {id: `look-${name}`, title, onclick: () => this.toggle(name)}, text);
      this.colours = element('select', {title: 'What colours the faces', 'aria-label': 'What colours the faces',
        onchange: () => this.viewer.set({colourBy: this.colourBy()})});
      const apart = element('input', {type: 'range', min: 0, max: 100, value: 0, style: 'width:64px', title: 'Pull volumes and faces apart',
        'aria-label': 'Pull apart', oninput: () => this.viewer.set({apart: apart.value / 100})});
      byId('looks').replaceChildren(this.colours, element('label', {class: 'apart'}, 'apart', apart), toggle('darts', 'darts', 'Show the darts (D)'),
        toggle('names', 'names', 'Show the darts\' names (N)'),
        element('button', {title: 'See all of it (F)', onclick: () => this.viewer.fit()}, 'fit'));
    }

    makeColours() {
      const {state} = this.viewer;
      const options = [['auto', 'colours'], ['plain', 'plain'], ...state.embeds.map((embed) => [embed.name, embed.name])];
      this.colours.replaceChildren(...options.map(([value, text]) => element('option', {value}, text)));
      this.showLooks();
    }

    colourBy() { return this.colours.value; }

    toggle(name) {
      const isOn = this.viewer.get()[name];
      this.viewer.set(name === 'darts' ? {darts: !isOn, links: !isOn} : {[name]: !isOn, darts: name === 'names' && !isOn ? true : this.viewer.get().darts});
      this.showLooks();
    }

    showLooks() {
      const shown = this.viewer.get();
      for (const name of ['darts', 'names']) byId(`look-${name}`).setAttribute('aria-pressed', String(Boolean(shown[name])));
    }

    // The picture as it is now, as a small address of data.
    picture() {
      for (const style of ['new', 'fits', 'hover', 'fault']) this.light([], style);
      this.viewer.drawNow();
      const from = this.viewer.renderer.domElement;
      const to = element('canvas', {width: 200, height: 150});
      const wide = Math.min(from.width, from.height * 4 / 3);
      const high = wide * 3 / 4;
      to.getContext('2d').drawImage(from, (from.width - wide) / 2, (from.height - high) / 2, wide, high, 0, 0, 200, 150);
      return to.toDataURL('image/jpeg', 0.85);
    }
  }

  Object.assign(gmr, {Stage, stage: new Stage(), MOST_LIT, KINDS_OF_CLICKS: KINDS});
}(window.gmr = window.gmr || {}));
