// The values of a rule's parameters: fields by their kinds, what they hold at first, and what is read from them.
(function (gmr) {
  'use strict';

  const {element} = gmr;
  const AXES = ['x', 'y', 'z'];
  const BRIGHT = [[220, 120, 40], [60, 130, 200], [80, 160, 90], [190, 80, 140]];
  const kept = new Map();     // what was given last, by rule and parameter

  // A length that suits the map: half of its reach, in one digit and zeros.
  function unit() {
    const far = gmr.stage.reach() / 2;
    if (!(far > 1)) return 1;
    const ten = 10 ** Math.floor(Math.log10(far));
    return Math.max(1, Math.round(far / ten) * ten);
  }

  // What a parameter holds at first.
  function first(rule, name, kind, at) {
    const key = `${rule.name}.${name}`;
    if (kept.has(key)) return kept.get(key);
    if (kind === 'bool') return true;
    if (kind === 'int') return /under|most|least/.test(name) ? (name === 'least' ? 0 : 2) : 1;
    if (kind === 'rgb') return BRIGHT[at % BRIGHT.length];
    const up = kind === 'vec2' ? [0, unit()] : [0, 0, unit()];
    return up;
  }

  const colourText = (parts) => `#${parts.map((part) => Number(part).toString(16).padStart(2, '0')).join('')}`;

  function numberField(value, told, changed) {
    return element('input', {type: 'number', step: '1', value: String(value), 'aria-label': told, oninput: changed, onkeydown: (event) => event.stopPropagation()});
  }

  class Field {
    // `pick` is called with the field where a point is to be taken from the model.
    constructor(rule, [name, kind], at, pick) {
      Object.assign(this, {rule, name, kind});
      const value = first(rule, name, kind, at);
      this.inputs = this.makeInputs([].concat(value));
      this.button = kind.startsWith('vec') ? element('button', {title: 'Click a corner of the model to take its point',
        'aria-pressed': 'false', onclick: () => pick(this)}, '◎') : null;
      this.row = element('div', {class: 'value'}, this.inputs, this.button);
    }

    makeInputs(parts) {
      const changed = () => this.keep();
      if (this.kind === 'bool') {
        return [element('select', {'aria-label': this.name, onchange: changed}, ['true', 'false'].map((word) =>
          element('option', {selected: String(parts[0]) === word}, word)))];
      }
      if (this.kind === 'rgb') {
        const colour = element('input', {type: 'color', value: colourText(parts), 'aria-label': `${this.name} as a colour`});
        const numbers = ['red', 'green', 'blue'].map((part, at) => numberField(parts[at], `${this.name}, ${part}`, () => {
          colour.value = colourText(this.read().map((one) => Math.max(0, Math.min(255, one || 0))));
          changed();
        }));
        colour.addEventListener('input', () => {
          numbers.forEach((input, at) => { input.value = parseInt(colour.value.slice(1 + 2 * at, 3 + 2 * at), 16); });
          changed();
        });
        this.colour = colour;
        this.numbers = numbers;
        return [colour, ...numbers];
      }
      return parts.map((part, at) => numberField(part, parts.length > 1 ? `${this.name}, ${AXES[at]}` : this.name, changed));
    }

    // What the field holds: a truth, a number, or numbers; null where it holds none.
    read() {
      if (this.kind === 'bool') return this.inputs[0].value === 'true';
      const numbers = (this.numbers || this.inputs).map((input) => (input.value.trim() === '' ? NaN : Number(input.value)));
      if (numbers.some((number) => !Number.isSafeInteger(number))) return this.kind === 'rgb' ? numbers.map((one) => one || 0) : null;
      return this.kind === 'int' ? numbers[0] : numbers;
    }

    write(parts) {
      (this.numbers || this.inputs).forEach((input, at) => { input.value = String(parts[at] === undefined ? 0 : parts[at]); });
      this.keep();
    }

    keep() {
      const value = this.read();
      if (value !== null) kept.set(`${this.rule.name}.${this.name}`, value);
    }

    press(isOn) { if (this.button) this.button.setAttribute('aria-pressed', String(isOn)); }
  }

  gmr.Field = Field;
}(window.gmr = window.gmr || {}));
