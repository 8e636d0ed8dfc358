// The page of `tools/view`: maps one after another, or a script line by line, round a viewer.
(function (gmr) {
  'use strict';

  const {element} = gmr;
  const data = JSON.parse(document.getElementById('data').textContent);
  const at = (id) => document.getElementById(id);
  const KEYS = [[['drag', '← ↑ → ↓'], 'turn'], [['right drag', 'shift ← ↑ → ↓'], 'move'], [['wheel', '+', '-'], 'come nearer, go further'],
    [['f'], 'fit'], [[',', '.'], 'a line of the script, or a map, back and forward'], [['Home', 'End'], 'the first, the last'],
    [['s', 'e', 'p', 'd', 'n'], 'faces, edges, points, darts, names'], [['l'], 'links of darts'], [['a', 'A'], 'volumes apart, together'],
    [['c', 'x', 'X'], 'cut across the next axis, move the cut'], [['click', 'Enter'], 'copy the dart, or a line of a script'],
    [['g'], 'go to a dart by its name'], [['0', '1', '2', '..'], 'go to the neighbour along a label'], [['Esc'], 'choose none'],
    [['t'], 'light or dark'], [['?'], 'this list']];

  class Page {
    constructor() {
      this.theme = window.matchMedia('(prefers-color-scheme: dark)').matches ? 'dark' : 'light';
      this.hooks = [];
      this.chosen = null;
      document.documentElement.dataset.theme = this.theme;
      this.viewer = new gmr.Viewer(at('room'), {theme: this.theme});
      this.card = element('div', {className: 'card', ariaLive: 'polite'});
      this.toast = element('div', {className: 'toast', role: 'status'});
      at('dart').append(this.card);
      at('room').append(this.toast);
      this.settings = new gmr.Settings(at('settings'), this.viewer);
      this.place = 0;
      this.undos = [];
      this.viewer.show(data.scenes[0]);
      this.copies();
      this.steps = new gmr.Steps(this, data);
      this.help();
      this.listen();
      this.viewer.resize();
      this.viewer.fit();
      this.refresh();
    }

    listen() {
      this.viewer.on('hover', (hit) => this.point(hit));
      this.viewer.on('pick', (hit) => this.pick(hit.dart));
      at('fit').onclick = () => this.viewer.fit();
      at('theme').onclick = () => this.turnTheme();
      at('help').onclick = () => at('keys').showModal();
      at('find').onchange = (event) => this.choose(Number(event.target.value));
      document.addEventListener('keydown', (event) => this.key(event));
    }

    // What stands at the side and above, for the map that is shown.
    refresh() {
      const {state} = this.viewer;
      const all = state.alpha.map((_, label) => label);
      const words = ['vertices', 'edges', 'faces', 'volumes'];
      const cells = all.slice(0, 4).map((cell) => gmr.counted(state.orbits(state.labelsBut(cell)).count, words[cell]));
      at('counts').textContent = [`dimension ${state.dimension}`, gmr.counted(state.count, 'darts'), ...cells].join(', ');
      at('find').max = state.next;
      this.settings.render();
      if (this.chosen !== null && state.indexOf(this.chosen) < 0) this.choose(null); else this.choose(this.chosen, true);
    }

    point(hit) {
      this.viewer.light(hit ? [hit.dart] : [], 'hover', 'dart');
      gmr.fillCard(this.card, this.viewer, hit ? hit.dart : this.chosen);
    }

    // Chooses a dart, whose card stays.
    choose(dart) {
      const isThere = dart !== null && this.viewer.state.indexOf(dart) >= 0;
      if (dart !== null && !isThere) this.say(`there is no dart ${dart}`);
      this.chosen = isThere ? dart : null;
      this.viewer.select(isThere ? {darts: [dart], kind: 'dart'} : null);
      gmr.fillCard(this.card, this.viewer, this.chosen);
    }

    async pick(dart) {
      this.choose(dart);
      const rule = data.rules && data.rules.find((one) => one.name === at('copies').value);
      let text = String(dart);
      if (rule) {
        this.hooks.push(dart);
        text = this.lineOf(rule);
        if (this.hooks.length >= rule.hooks) this.hooks = [];
      } else if (at('copies').value === 'apply') text = `apply RULE ${dart}`;
      const done = await gmr.copy(text);
      this.say(done ? `copied: ${text}` : text);
    }

    // A line of a script that applies a rule at the darts that were picked, with a value of each parameter's kind.
    lineOf(rule) {
      const values = rule.params.map((kind) => ({int: '0', bool: 'true', vec2: '(0 0)', vec3: '(0 0 0)', rgb: '(0 0 0)'}[kind]));
      const more = rule.hooks - this.hooks.length;
      return ['apply', rule.name, ...this.hooks, ...Array.from({length: more}, () => '..'), ...(values.length ? ['with', ...values] : [])].join(' ');
    }

    // What a click copies.
    copies() {
      const ways = [['', 'its name'], ...(data.rules || [{name: 'apply'}]).map((rule) => [rule.name, `apply ${data.rules ? rule.name : 'RULE'} ..`])];
      at('copies').replaceChildren(...ways.map(([value, text]) => element('option', {value}, text)));
      at('copies').onchange = () => { this.hooks = []; };
    }

    say(text) {
      this.toast.textContent = text;
      this.toast.classList.add('on');
      clearTimeout(this.hiding);
      this.hiding = setTimeout(() => this.toast.classList.remove('on'), 2500);
    }

    turnTheme() {
      this.theme = this.theme === 'dark' ? 'light' : 'dark';
      document.documentElement.dataset.theme = this.theme;
      this.settings.set({theme: this.theme});
      this.steps.legend();
    }

    help() {
      at('keys').querySelector('dl').replaceChildren(...KEYS.flatMap(([keys, text]) => [
        element('dt', {}, ...keys.map((key) => element('kbd', {}, key))), element('dd', {}, text)]));
    }

    // The keys of the page. Those of the canvas are the viewer's own, and those of fields are the fields'.
    key(event) {
      const {target} = event;
      const isField = target.matches('select, input:not([type="checkbox"], [type="range"])');
      if (event.ctrlKey || event.metaKey || event.altKey || at('keys').open || (isField && event.key !== 'Escape')) return;
      const act = this.acts()[event.key];
      if (act) {
        act();
        event.preventDefault();
      } else if (this.chosen !== null && /^[0-9]$/.test(event.key) && Number(event.key) <= this.viewer.state.dimension) {
        this.choose(this.viewer.info(this.chosen).neighbours[Number(event.key)]);
      } else if (event.key.startsWith('Arrow') && target === document.body) this.viewer.pointer.key(event);
    }

    acts() {
      const {settings, viewer, steps} = this;
      const apart = (by) => () => { viewer.set({apart: Math.max(0, Math.min(1.5, viewer.get().apart + by))}); settings.render(); };
      const cut = (by) => () => {
        settings.cut.at = Math.max(0, Math.min(1, settings.cut.at + by));
        viewer.set({cut: settings.cut.axis ? {...settings.cut} : null});
        settings.render();
      };
      const toggle = (name) => () => settings.toggle(name);
      return {f: () => viewer.fit(), t: () => this.turnTheme(), '?': () => at('keys').showModal(), s: toggle('faces'), e: toggle('edges'),
        p: toggle('points'), d: toggle('darts'), n: toggle('names'), l: toggle('links'), a: apart(0.075), A: apart(-0.075),
        c: () => settings.cutNext(), x: cut(0.03), X: cut(-0.03), ',': () => steps.go(steps.at - 1), '.': () => steps.go(steps.at + 1),
        Home: () => steps.go(0), End: () => steps.go(steps.most), g: () => at('find').focus(), Escape: () => { document.activeElement.blur(); this.choose(null); },
        ...(this.chosen !== null && document.activeElement.tagName !== 'BUTTON' ? {Enter: () => this.pick(this.chosen)} : {})};
    }
  }

  try {
    gmr.page = new Page();
  } catch (error) {
    at('room').replaceChildren(element('p', {className: 'none'}, `This page can't draw here: ${error.message}`));
    throw error;
  }
}(window.gmr = window.gmr || {}));
