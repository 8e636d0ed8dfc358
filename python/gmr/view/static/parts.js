// Parts of a page round a viewer: elements, the key of labels, the settings, and the card of a dart.
(function (gmr) {
  'use strict';

  // An element with its properties and what stands in it.
  function element(tag, properties, ...children) {
    const made = document.createElement(tag);
    Object.entries(properties || {}).forEach(([name, value]) => {
      if (name in made) made[name] = value; else made.setAttribute(name, value);
    });
    made.append(...children);
    return made;
  }

  // The line of a label as the picture has it.
  function sample(label, theme) {
    const svg = document.createElementNS('http://www.w3.org/2000/svg', 'svg');
    svg.setAttribute('width', '30');
    svg.setAttribute('height', '8');
    const dash = gmr.dashOf(label);
    svg.innerHTML = `<line x1="1" x2="29" y1="4" y2="4" stroke="${theme.labels[label]}" stroke-width="2.5"${
      dash ? ` stroke-dasharray="${1.2 * dash} ${0.8 * dash}"` : ''}/>`;
    return svg;
  }

  const SHOWN = [['faces', 'Faces', 's'], ['edges', 'Edges', 'e'], ['points', 'Points', 'p'], ['darts', 'Darts', 'd'],
    ['names', 'Names', 'n']];

  // What is shown, in which colours, how far apart, and where it is cut.
  class Settings {
    constructor(room, viewer) {
      this.room = room;
      this.viewer = viewer;
      this.cut = {axis: '', at: 0.5, flip: false};
    }

    // Makes all of it anew, for the map that is shown.
    render() {
      const shown = this.viewer.get();
      const {state} = this.viewer;
      this.room.replaceChildren(
        element('h2', {}, 'Shown'), this.shown(shown),
        element('h2', {}, 'Links of darts along'), this.key(shown),
        element('h2', {}, 'Colours of faces'), this.colours(shown, state),
        element('h2', {}, 'Apart'), this.apart(shown),
        element('h2', {}, 'Cut'), this.cutting(),
      );
    }

    set(options) {
      this.viewer.set(options);
      if ('darts' in options || 'theme' in options || 'links' in options) this.render();
    }

    toggle(name) {
      this.set({[name]: !this.viewer.get()[name]});
      this.render();
    }

    shown(shown) {
      const boxes = SHOWN.map(([name, title, letter]) => element('label', {title: `${title}: key ${letter}`},
        element('input', {type: 'checkbox', name, checked: Boolean(shown[name]), onchange: () => this.toggle(name)}), title,
        element('kbd', {}, letter)));
      return element('div', {className: 'grid'}, ...boxes);
    }

    key(shown) {
      const {state, theme} = this.viewer;
      const all = state.alpha.map((_, label) => label);
      const on = shown.links === true ? all : shown.links || [];
      const boxes = all.map((label) => element('label', {},
        element('input', {type: 'checkbox', name: `link${label}`, checked: on.includes(label),
          onchange: (event) => this.set({links: event.target.checked ? [...on, label].sort() : on.filter((it) => it !== label)})}),
        sample(label, theme), `α${label}`));
      return element('div', {className: 'key'}, ...boxes);
    }

    colours(shown, state) {
      const ways = [['plain', 'all alike'], ...state.embeds.map((embed) => [embed.name, `${embed.name} (${embed.kind})`]),
        ...this.orbits(state)];
      const by = Array.isArray(shown.colourBy) ? `<${shown.colourBy.join(' ')}>` : shown.colourBy;
      const choice = element('select', {name: 'colours', ariaLabel: 'Colours of faces', onchange: (event) => {
        const value = event.target.value;
        this.viewer.set({colourBy: value.startsWith('<') ? value.slice(1, -1).split(' ').filter(Boolean).map(Number) : value});
      }}, ...ways.map(([value, text]) => element('option', {value, selected: value === by}, text)));
      return element('div', {className: 'row'}, choice);
    }

    // The orbits by which faces can be coloured: cells, and parts that hang together.
    orbits(state) {
      const all = state.alpha.map((_, label) => label);
      const cells = all.filter((cell) => cell >= 2 || cell === state.dimension)
        .map((cell) => [`<${all.filter((label) => label !== cell).join(' ')}>`, `each ${gmr.CELLS[cell] || `cell of dimension ${cell}`}`]);
      return [...cells, [`<${all.join(' ')}>`, 'each connected part']];
    }

    slider(name, value, label, act) {
      return element('input', {type: 'range', name, min: 0, max: 100, value: Math.round(100 * value), ariaLabel: label,
        oninput: (event) => act(Number(event.target.value) / 100)});
    }

    apart(shown) {
      const made = this.slider('apart', shown.apart / 1.5, 'How far volumes are pulled apart', (share) => this.viewer.set({apart: 1.5 * share}));
      made.disabled = !this.viewer.shape.isSpread;
      return made;
    }

    cutting() {
      const act = () => this.viewer.set({cut: this.cut.axis ? {...this.cut} : null});
      const axis = element('select', {name: 'axis', ariaLabel: 'Cut across', onchange: (event) => { this.cut.axis = event.target.value; act(); }},
        ...[['', 'not cut'], ['x', 'across x'], ['y', 'across y'], ['z', 'across z']]
          .map(([value, text]) => element('option', {value, selected: value === this.cut.axis}, text)));
      const flip = element('button', {type: 'button', title: 'Keep the other side', onclick: () => { this.cut.flip = !this.cut.flip; act(); }}, '⇄');
      flip.ariaLabel = 'Keep the other side';
      const at = this.slider('cut', this.cut.at, 'Where it is cut', (share) => { this.cut.at = share; act(); });
      return element('div', {}, element('div', {className: 'row'}, axis, flip), at);
    }

    // The next way to cut: none, then across each axis.
    cutNext() {
      const axes = ['', 'x', 'y', 'z'];
      this.cut.axis = axes[(axes.indexOf(this.cut.axis) + 1) % axes.length];
      this.viewer.set({cut: this.cut.axis ? {...this.cut} : null});
      this.render();
    }
  }

  // A number with its word, one or several of it.
  const WORDS = {vertices: 'vertex', edges: 'edge', faces: 'face', volumes: 'volume', darts: 'dart'};
  const counted = (count, word) => `${count.toLocaleString('en')} ${count === 1 ? WORDS[word] || word : word}`;

  function valueText(value) { return Array.isArray(value) ? `(${value.join(' ')})` : String(value); }

  // The card of a dart: its neighbours, its cells with their sizes, and its values.
  function fillCard(card, viewer, dart) {
    const told = dart === null || dart === undefined ? null : viewer.info(dart);
    if (!told) {
      card.replaceChildren();
      return;
    }
    const neighbours = told.neighbours.flatMap((near, label) => [
      element('span', {style: `color: ${viewer.theme.labels[label]}; font-weight: 600`}, `α${label}`),
      ` ${near === dart ? 'free' : near}   `]);
    const cells = told.cells.map((cell) => element('tr', {}, element('th', {}, cell.name),
      element('td', {}, [counted(cell.darts, 'darts'), ...Object.entries(cell.sizes).map(([word, count]) => counted(count, word))].join(', '))));
    const values = Object.entries(told.values).map(([name, value]) => {
      const kind = viewer.state.embed(name).kind;
      const chip = kind === 'rgb' ? [element('span', {className: 'chip', style: `background: rgb(${value.join(',')})`})] : [];
      return element('tr', {}, element('th', {}, name), element('td', {}, ...chip, valueText(value)));
    });
    card.replaceChildren(element('b', {}, `dart ${dart}`), '   ', ...neighbours, element('table', {}, ...cells, ...values));
  }

  // Copies a text; true where the browser lets it. The old way comes first: it works on pages from the disk, within a
  // click.
  async function copy(text) {
    const active = document.activeElement;
    const area = element('textarea', {value: text, style: 'position: fixed; opacity: 0'});
    document.body.append(area);
    area.select();
    const done = document.execCommand('copy');
    area.remove();
    active.focus({preventScroll: true});
    if (done) return true;
    try {
      await navigator.clipboard.writeText(text);
      return true;
    } catch (error) {
      return false;
    }
  }

  Object.assign(gmr, {element, Settings, fillCard, counted, copy});
}(window.gmr = window.gmr || {}));
