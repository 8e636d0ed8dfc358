/* A rule that is chosen, and the darts of its hooks as they are clicked: which darts fit, why the one under the pointer
   doesn't, and the application when all hooks are there. */
(function (gmr) {
  'use strict';

  const {studio, stage, element, byId} = gmr;
  const STILL = 90; // milliseconds that the pointer rests before the program is asked

  class Choice {
    constructor() {
      this.rule = null;
      this.hooks = [];
      this.fields = [];
      this.awaiting = null;     // the field that takes the point of the next click
      this.fits = null;         // {count, ranges}, or null where it isn't known
      studio.on('pick', (hit) => this.pick(hit));
      studio.on('hover', (hit) => this.hover(hit));
      studio.on('shown', () => this.renew());
      studio.on('book', () => this.choose(studio.book.rules.find((rule) => this.rule && rule.name === this.rule.name) || null));
    }

    choose(rule) {
      this.rule = rule;
      this.hooks = [];
      this.awaiting = null;
      const isUsable = rule && !rule.fault;
      this.fields = isUsable ? rule.params.map((param, at) => new gmr.Field(rule, param, at, (field) => this.await(field))) : [];
      this.renew();
      studio.tell('choice');
    }

    wanted() { return this.rule && !this.rule.fault ? this.rule.nodes.filter((node) => node.hook) : []; }

    // The next hook that is to be clicked, or undefined.
    next() { return this.wanted()[this.hooks.length]; }

    // The values of the parameters; null where one isn't given.
    values() {
      const values = this.fields.map((field) => field.read());
      return values.includes(null) ? null : values;
    }

    await(field) {
      this.awaiting = this.awaiting === field ? null : field;
      this.fields.forEach((one) => one.press(one === this.awaiting));
      stage.light([], 'hover');
    }

    // Asks which darts fit as the next hook, and lights them.
    async renew() {
      this.fits = null;
      this.asked = null;
      stage.light([], 'fits');
      if (this.hooks.length) stage.light(this.hooks, 'selected', 'dart'); else stage.lightSelected();
      const {rule, hooks} = this;
      if (!this.next()) return;
      const {version} = studio.state;
      try {
        const found = await studio.ask('fits', {rule: rule.name, hooks});
        if (this.rule !== rule || this.hooks !== hooks || studio.state.version !== version) return;
        this.fits = found.count === null ? null : {count: found.count, ranges: found.fits};
        this.lightFits();
      } catch (error) {
        studio.say([], [error.message], false);
      }
      studio.tell('choice');
    }

    lightFits() {
      const {fits} = this;
      if (!fits || !fits.count || fits.count === studio.state.darts || fits.count > gmr.MOST_LIT) return;
      const darts = fits.ranges.flatMap(([first, last]) => Array.from({length: last - first + 1}, (_, at) => first + at));
      stage.light(darts, 'fits', this.kindOfHook());
    }

    isFitting(dart) {
      return !this.fits || this.fits.ranges.some(([first, last]) => first <= dart && dart <= last);
    }

    // What the walk of the next hook looks like.
    kindOfHook() { return gmr.Stage.kindOf((this.next().left || []).filter((label) => label !== null)); }

    hover(hit) {
      if (!hit) {
        this.quiet();
        return;
      }
      const hook = this.awaiting ? null : this.next();
      const seen = [studio.state.version, hit.dart, this.rule && this.rule.name, this.hooks, stage.kind, Boolean(this.awaiting), Boolean(this.fits)].join(' ');
      if (seen === this.hovered && !byId('tip').hidden) {
        this.place(hit);
        return;
      }
      this.hovered = seen;
      const darts = this.awaiting ? stage.cellOf(hit.dart, 'vertex') : hook ? stage.orbitOf(hit.dart, hook.left) : stage.cellOf(hit.dart, stage.kind);
      const kind = this.awaiting ? 'vertex' : hook ? this.kindOfHook() : stage.kind;
      const isFitting = !hook || this.isFitting(hit.dart);
      stage.light(isFitting ? darts : [], 'hover', kind);
      stage.light(isFitting ? [] : darts, 'fault', kind);
      clearTimeout(this.resting);
      this.tip(hit, this.about(hit.dart));
      if (hook && this.wanted().length === this.hooks.length + 1) this.resting = setTimeout(() => this.attempt(hit), STILL);
    }

    // What is told of a dart: its name, and the cell that a click is about.
    about(dart) {
      const {state} = stage.viewer;
      const at = state.indexOf(dart);
      const values = state.embeds.map((embed) => `${embed.name} ${[].concat(state.value(embed, at)).join(' ')}`);
      const head = element('div', {}, element('b', {}, `dart ${dart}`), `  α ${state.alpha.map((step) => state.names[step[at]]).join(' ')}`);
      return [head, values.length ? element('div', {}, values.join('   ')) : null];
    }

    // Asks the program whether the rule would be applied at the dart under the pointer, before it is clicked.
    async attempt(hit) {
      const {rule} = this;
      const hooks = [...this.hooks, hit.dart];
      const key = `${studio.state.version} ${rule.name} ${hooks} ${JSON.stringify(this.values())}`;
      if (!this.asked || this.asked.key !== key) {
        try {
          this.asked = {key, answer: await studio.ask('try', {rule: rule.name, hooks, values: this.values()})};
        } catch (error) {
          return;
        }
      }
      if (!stage.under || stage.under.dart !== hit.dart || this.rule !== rule) return;
      const {answer} = this.asked;
      const told = answer.refused
        ? [element('p', {class: 'bad'}, `✗ ${answer.answer[0].replace(/^1 \S+ /, '')}`), ...answer.why.map((line) => element('p', {}, line))]
        : [element('p', {class: 'good'}, `✓ ${answer.why[0] || answer.answer[0].replace(/^1 \S+ done/, 'would be done:')}`)];
      this.tip(hit, [...this.about(hit.dart), ...told]);
    }

    tip(hit, told) {
      const tip = byId('tip');
      tip.replaceChildren(...told.filter(Boolean));
      tip.hidden = false;
      this.place(hit);
    }

    // Puts what is told beside the pointer.
    place(hit) {
      const tip = byId('tip');
      const box = byId('stage').getBoundingClientRect();
      const [x, y] = hit.event ? [hit.event.clientX - box.left, hit.event.clientY - box.top]
        : hit.pixel ? [hit.pixel.x, hit.pixel.y] : [box.width / 2, 60];
      const left = x + 18 + tip.offsetWidth > box.width ? Math.max(4, x - 18 - tip.offsetWidth) : x + 18;
      tip.style.left = `${left}px`;
      tip.style.top = `${Math.max(4, Math.min(y + 12, box.height - tip.offsetHeight - 6))}px`;
    }

    pick(hit) {
      if (this.awaiting) {
        const point = stage.pointOf(hit.dart);
        if (point) this.awaiting.write(point);
        this.await(this.awaiting);
        studio.tell('choice');
      } else if (!this.next() || hit.event && (hit.event.shiftKey || hit.event.ctrlKey)) {
        stage.select(hit.dart, Boolean(hit.event && (hit.event.shiftKey || hit.event.ctrlKey)));
      } else {
        this.give(hit.dart);
      }
    }

    // Takes a dart as the next hook. When all are there, the rule is applied.
    give(dart) {
      this.hooks = [...this.hooks, dart];
      this.quiet();
      if (this.next()) {
        this.renew();
        studio.tell('choice');
      } else {
        this.apply();
      }
    }

    // Takes away what is told of the dart under the pointer, until the pointer moves.
    quiet() {
      clearTimeout(this.resting);
      stage.under = null;
      byId('tip').hidden = true;
      stage.light([], 'hover');
      stage.light([], 'fault');
    }

    back() {
      if (this.awaiting) this.await(this.awaiting);
      else if (this.hooks.length) {
        this.hooks = this.hooks.slice(0, -1);
        this.renew();
        studio.tell('choice');
      } else if (this.rule) this.choose(null);
      else stage.unselect();
    }

    // Does what needs the values of the parameters, or says which are missing.
    withValues(action, fields) {
      const values = this.values();
      if (values === null) {
        studio.say([], ['A parameter has no whole number yet.'], false);
        return Promise.resolve();
      }
      return studio.wish(action, {rule: this.rule.name, values, ...fields});
    }

    async apply() {
      const {hooks} = this;
      this.hooks = [];
      const answer = await this.withValues('apply', {hooks});
      const isRefused = answer && answer.answer.some((line) => / refused (?!0)/.test(line));
      if (isRefused) stage.light(hooks, 'fault', 'dart');
      if (!answer || !answer.changes) this.renew();
      studio.tell('choice');
    }

    each(labels) { return this.withValues('each', {labels}); }

    eachSelected() { return this.withValues('each_chosen', {darts: stage.leads()}); }
  }

  gmr.choice = new Choice();
}(window.gmr = window.gmr || {}));
