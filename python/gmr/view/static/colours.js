// Colours: of labels as `draw` has them, of values and of orbits, and of the two themes.
(function (gmr) {
  'use strict';

  const THEMES = {
    light: {
      back: '#ffffff', ink: '#1f2933', face: '#c9daee', edge: '#46586b', dart: '#1f4e79', point: '#1f2933',
      name: '#1f2933', shade: 0.62,
      labels: ['#c0504d', '#4f8f3a', '#6b46a1', '#b7791f', '#0f7f8f', '#a03a7a', '#5b6470', '#2f5fd0'],
      styles: {selected: '#e08a00', new: '#009e73', gone: '#d0451b', fits: '#2f8fd8', fault: '#cc1f3d', hover: '#111827'},
    },
    dark: {
      back: '#12171d', ink: '#e6ebf0', face: '#3d5570', edge: '#9db2c8', dart: '#9ecbff', point: '#e6ebf0',
      name: '#f2f5f8', shade: 0.5,
      labels: ['#ff8d87', '#8fd672', '#bd9bff', '#f0b04f', '#55cfe0', '#f08cc8', '#b4bec9', '#8fb0ff'],
      styles: {selected: '#ffb733', new: '#3fdca6', gone: '#ff7a4f', fits: '#6cc0ff', fault: '#ff5c77', hover: '#ffffff'},
    },
  };
  const SCALE = [[49, 104, 168], [142, 190, 214], [250, 230, 150], [239, 138, 80], [178, 36, 46]];

  // A colour from its text #rrggbb: three parts from 0 to 255.
  function parse(text) {
    return [1, 3, 5].map((at) => parseInt(text.slice(at, at + 2), 16));
  }

  // The colour of a share from 0 to 1, from blue over yellow to red, as `draw` has it.
  function shade(share) {
    const place = Math.max(0, Math.min(1, share)) * (SCALE.length - 1);
    const at = Math.min(Math.floor(place), SCALE.length - 2);
    return SCALE[at].map((one, part) => Math.round(one + (place - at) * (SCALE[at + 1][part] - one)));
  }

  // A colour for the orbit of a number: hues far apart for numbers that are near, and three degrees of lightness.
  function orbitColour(number) {
    const hue = (number * 137.508 + 205) % 360;
    const light = [0.62, 0.74, 0.5][number % 3];
    const reach = 0.55 * Math.min(light, 1 - light);
    return [0, 8, 4].map((at) => {
      const turn = (at + hue / 30) % 12;
      return Math.round(255 * (light - reach * Math.max(-1, Math.min(turn - 3, 9 - turn, 1))));
    });
  }

  const FINE = 1000;
  const SHADES = Uint8Array.from(Array.from({length: FINE + 1}, (_, at) => shade(at / FINE)).flat());

  // The colours of darts: by an embedding, by the orbits over labels, or one for all.
  class Tints {
    constructor(state, by, plain) {
      Object.assign(this, {state, by, plain: parse(plain)});
      this.embed = typeof by === 'string' ? state.embed(by) : null;
      if (Array.isArray(by)) this.findOrbits();
      else if (this.embed && this.embed.kind !== 'rgb') [this.least, this.most] = this.reach();
    }

    // Whether the darts have one colour all.
    get isPlain() { return !this.embed && !this.orbits; }

    // A part, from 0 to 255, of a dart's colour.
    of(dart, part) {
      const {embed} = this;
      if (this.orbits) return this.colours[3 * this.orbits.of[dart] + part];
      if (!embed) return this.plain[part];
      if (embed.kind === 'rgb') return Number(embed.values[3 * dart + part]);
      return SHADES[3 * Math.round((this.size(dart) - this.least) / (this.most - this.least || 1) * FINE) + part];
    }

    findOrbits() {
      this.orbits = this.state.orbits(this.by);
      this.colours = new Uint8Array(3 * this.orbits.count);
      for (let number = 0; number < this.orbits.count; number += 1) this.colours.set(orbitColour(number), 3 * number);
    }

    // The sum of a dart's numbers.
    size(dart) {
      const {width, values} = this.embed;
      let sum = 0;
      for (let part = 0; part < width; part += 1) sum += Number(values[dart * width + part]);
      return sum;
    }

    reach() {
      let [least, most] = [Infinity, -Infinity];
      for (let slot = 0; slot < this.state.top; slot += 1) {
        if (this.state.names[slot] < 0) continue;
        const size = this.size(slot);
        least = Math.min(least, size);
        most = Math.max(most, size);
      }
      return [least, most];
    }

    // Takes up a change. Gives whether darts that didn't change have their colours still.
    renew() {
      if (this.orbits) return false;
      if (!this.embed || this.embed.kind === 'rgb') return true;
      const [least, most] = this.reach();
      return least === this.least && most === this.most;
    }
  }

  Object.assign(gmr, {THEMES, Tints, colours: {parse}});
}(window.gmr = window.gmr || {}));
