// The bar below: the lines of a script, or maps, one after another.
(function (gmr) {
  'use strict';

  const {element} = gmr;

  class Steps {
    constructor(page, data) {
      this.page = page;
      this.data = data;
      this.at = 0;
      this.undos = [];
      this.isScript = Boolean(data.steps);
      this.most = this.isScript ? data.steps.length : data.scenes.length - 1;
      this.room = document.getElementById('steps');
      if (this.most > 0) this.make();
    }

    make() {
      const button = (text, title, act) => element('button', {type: 'button', title, ariaLabel: title, onclick: act}, text);
      this.slider = element('input', {type: 'range', name: 'step', min: 0, max: this.most, value: 0,
        ariaLabel: this.isScript ? 'Line of the script' : 'Map', oninput: (event) => this.go(Number(event.target.value))});
      this.back = button('◀', 'Back: key ,', () => this.go(this.at - 1));
      this.forward = button('▶', 'Forward: key .', () => this.go(this.at + 1));
      this.count = element('output', {});
      this.said = element('div', {className: 'said'});
      this.why = element('div', {className: 'why', ariaLive: 'polite'});
      this.room.replaceChildren(element('div', {className: 'bar'}, this.back, this.slider, this.forward, this.count), this.said,
        ...(this.isScript && this.data.steps.some((step) => step.why.length) ? [this.why] : []));
      this.room.classList.add('on');
      this.tell();
    }

    // Goes to a step: all changes on the way are applied, and those of the last one are lit.
    go(wanted) {
      const to = Math.max(0, Math.min(this.most, wanted));
      if (!this.slider || to === this.at) return;
      if (this.isScript) this.walk(to); else this.page.viewer.show(this.data.scenes[to]);
      this.at = to;
      this.slider.value = to;
      this.page.refresh();
      this.tell();
    }

    walk(to) {
      const {viewer} = this.page;
      let found = null;
      for (let at = this.at; at < to; at += 1) {
        const {changes} = this.data.steps[at];
        found = changes ? viewer.update(changes, at + 1 < to) : null;
        this.undos.push(found ? found.undo : null);
      }
      for (let at = this.at; at > to; at -= 1) {
        const undo = this.undos.pop();
        if (undo) viewer.update(undo, true);
      }
      if (to < this.at && to > 0 && this.data.steps[to - 1].changes) {
        viewer.update(this.undos.pop(), true); // once more, so that what this step made is known
        found = viewer.update(this.data.steps[to - 1].changes);
        this.undos.push(found.undo);
      }
      viewer.settle();
      this.light(found, this.data.steps[to - 1]);
    }

    // Lights what the last step made, what it took away, and where it was refused.
    light(found, step) {
      const {viewer} = this.page;
      viewer.light(found ? found.gone : [], 'gone');
      viewer.light(found ? found.fresh : [], 'new');
      viewer.light(step ? step.darts : [], 'fault');
    }

    // What is told of the step: its line, its line of the report, and why it was refused.
    tell() {
      if (!this.slider) return;
      this.back.disabled = this.at === 0;
      this.forward.disabled = this.at === this.most;
      this.count.textContent = this.isScript ? `line ${this.at} of ${this.most}` : `map ${this.at + 1} of ${this.most + 1}`;
      if (this.isScript) this.tellLine(); else this.said.replaceChildren(element('span', {className: 'line'}, this.data.names[this.at]));
      this.legend();
    }

    tellLine() {
      const step = this.data.steps[this.at - 1];
      if (!step) {
        this.said.replaceChildren(element('span', {className: 'line'}, `${this.data.names[0]}, before the first line`));
        this.why.replaceChildren();
        return;
      }
      this.legendRoom = element('span', {className: 'legend'});
      this.said.replaceChildren(element('span', {className: 'line'}, step.text),
        element('span', {className: `report ${step.word}`}, step.report), this.legendRoom);
      this.why.textContent = (step.why || []).join('\n');
    }

    // The colours of what is new and what went.
    legend() {
      if (!this.isScript || !this.legendRoom || !this.at) return;
      const {styles} = this.page.viewer.theme;
      const {counts} = this.data.steps[this.at - 1];
      const parts = [['new', counts[0], 'new'], ['gone', counts[1], 'gone']].filter(([, count]) => count);
      this.legendRoom.replaceChildren(...parts.map(([style, count, word]) => element('span', {},
        element('i', {style: `background: ${styles[style]}`}), `${gmr.counted(count, 'darts')} ${word}`)));
    }
  }

  gmr.Steps = Steps;
}(window.gmr = window.gmr || {}));
