// The list of the book's rules, and the card of the one that is chosen: its drawing, hooks and parameters.
(function (gmr) {
  'use strict';

  const {studio, stage, choice, element, byId} = gmr;
  const CELLS = ['vertex', 'edge', 'face', 'volume'];

  // What a rule takes and asks for, in a few signs: its hooks' words and how many parameters.
  function tailOf(rule) {
    const words = rule.nodes.filter((node) => node.hook).map((node) => `<${(node.left || []).map((letter) => (letter === null ? '_' : letter)).join(' ')}>`);
    return words.length ? words.join(' ') : rule.fault ? '' : 'new';
  }

  function shownRules() {
    const sought = byId('rule-filter').value.trim().toLowerCase();
    return studio.book.rules.filter((rule) => !sought || rule.name.toLowerCase().includes(sought)
      || rule.comment.toLowerCase().includes(sought));
  }

  function showList() {
    const list = byId('rule-list');
    list.replaceChildren(...shownRules().map((rule) => element('li', {role: 'option', id: `rule-${rule.name}`,
      title: rule.fault ? `refused ${rule.fault}` : rule.comment, 'aria-selected': String(choice.rule === rule),
      onclick: () => choice.choose(choice.rule === rule ? null : rule)},
    element('span', {class: rule.fault ? 'verdict bad' : 'verdict', 'aria-label': rule.fault ? 'refused' : 'accepted'}, rule.fault ? '✗' : '✓'),
    element('span', {class: 'name'}, rule.name), element('span', {class: 'tail'}, tailOf(rule)))));
  }

  function markChosen() {
    for (const item of byId('rule-list').children) {
      item.setAttribute('aria-selected', String(Boolean(choice.rule) && item.id === `rule-${choice.rule.name}`));
    }
  }

  // Moves the choice up or down the list.
  function move(by) {
    const rules = shownRules();
    if (!rules.length) return;
    const at = rules.indexOf(choice.rule);
    choice.choose(rules[Math.max(0, Math.min(rules.length - 1, at < 0 ? 0 : at + by))]);
    byId(`rule-${choice.rule.name}`).scrollIntoView({block: 'nearest'});
  }

  function enlarge(rule) {
    const drawing = element('div', {class: 'drawing'}, gmr.drawRule(rule, 1000, Math.min(520, 160 + 40 * rule.nodes.length)));
    gmr.openDialog({title: rule.name, isWide: true, body: [rule.comment ? element('p', {class: 'hint'}, rule.comment) : null, drawing,
      ...assignments(rule)]});
  }

  // The assignments and the precondition of a rule, a line each.
  function assignments(rule) {
    const lines = rule.nodes.flatMap((node) => Object.entries(node.sets).map(([name, value]) => `${node.name} with ${name} = ${value}`));
    if (rule.pre) lines.push(`pre ${rule.pre}`);
    return lines.map((line) => element('div', {class: 'code'}, line));
  }

  function faultOf(rule) {
    return element('div', {class: 'fault'}, element('b', {}, `refused ${rule.fault}`), rule.why.map((line) => element('p', {}, line)));
  }

  function hookChips(rule) {
    const hooks = rule.nodes.filter((node) => node.hook);
    if (!hooks.length) return element('div', {class: 'hooks'}, element('span', {class: 'chip'}, 'needs no dart'));
    const chips = hooks.map((hook, at) => {
      const isGiven = at < choice.hooks.length;
      const text = isGiven ? `${hook.name} = ${choice.hooks[at]}` : at === choice.hooks.length ? `${hook.name}: click it` : hook.name;
      return element('span', {class: isGiven ? 'chip given' : at === choice.hooks.length ? 'chip next' : 'chip'}, text);
    });
    return element('div', {class: 'hooks'}, chips, element('span', {class: 'tail', id: 'fits'}, fitsText()));
  }

  function fitsText() {
    const {fits} = choice;
    if (!choice.next() || !fits) return '';
    if (fits.count === 0) return 'fits nowhere';
    return fits.count === studio.state.darts ? 'fits everywhere' : `fits at ${fits.count.toLocaleString('en')} darts`;
  }

  // The orbits over which `each` can go: cells, the hook's own walk, and darts; the walk comes first.
  function orbitsFor(rule) {
    const all = Array.from({length: studio.state.dimension + 1}, (_, label) => label);
    const cells = all.map((cell) => ({name: CELLS[cell] || `${cell}-cell`, labels: all.filter((label) => label !== cell)}));
    const word = [...(rule.nodes.find((node) => node.hook).left || [])].sort();
    const own = cells.find((cell) => String(cell.labels) === String(word));
    const first = own || {name: word.length ? 'orbit' : 'dart', labels: word};
    const rest = [...cells, {name: 'dart', labels: []}].filter((cell) => String(cell.labels) !== String(word));
    return [first, ...rest];
  }

  function acts(rule) {
    const hooks = rule.nodes.filter((node) => node.hook).length;
    if (!hooks) return element('div', {class: 'acts'}, element('button', {class: 'main', id: 'apply', onclick: () => choice.apply()}, 'Apply'));
    if (hooks > 1) return choice.hooks.length ? element('div', {class: 'acts'}, element('button', {onclick: () => choice.back()}, 'Back one hook')) : null;
    const orbits = orbitsFor(rule);
    const select = element('select', {id: 'each-over', 'aria-label': 'Over which cells'}, orbits.map((orbit, at) =>
      element('option', {value: at}, `${orbit.name} <${orbit.labels.join(' ')}>`)));
    const selected = stage.selected.size;
    return element('div', {class: 'acts'},
      element('button', {id: 'each', title: 'At each cell of this kind (E)', onclick: () => choice.each(orbits[select.value].labels)}, 'Each'), select,
      selected ? element('button', {id: 'each-selected', title: 'At each selected cell, all of them or none',
        onclick: () => choice.eachSelected()}, `Selected (${selected})`) : null);
  }

  function showCard() {
    const card = byId('rule-card');
    const {rule} = choice;
    card.hidden = !rule;
    if (!rule) return;
    const isOther = card.dataset.rule !== rule.name;
    const over = byId('each-over') && card.dataset.rule === rule.name ? byId('each-over').value : null;
    card.dataset.rule = rule.name;
    const drawing = element('div', {class: 'drawing'}, gmr.drawRule(rule, 274, gmr.heightOfDrawing(rule)),
      element('button', {title: 'Larger', 'aria-label': 'Larger', onclick: () => enlarge(rule)}, '⤢'));
    const params = choice.fields.flatMap((field) => [element('label', {title: `${field.name}: ${field.kind}`}, field.name), field.row]);
    card.replaceChildren(...[
      element('h2', {}, element('span', {title: rule.name}, rule.name), element('button', {class: 'plain', title: 'Let go of the rule (Esc)',
        'aria-label': 'Let go of the rule', onclick: () => choice.choose(null)}, '×')),
      rule.comment ? element('div', {class: 'comment'}, rule.comment) : null,
      rule.fault ? faultOf(rule) : null, drawing,
      rule.fault ? null : hookChips(rule), params.length ? element('div', {class: 'params'}, params) : null,
      rule.fault ? null : acts(rule)].filter(Boolean));
    if (over !== null) byId('each-over').value = over;
    const row = byId(`rule-${rule.name}`);
    if (isOther && row) row.scrollIntoView({block: 'nearest'});     // the card took room of the list
  }

  // The card is made anew but for a field that is being written.
  function refreshCard() {
    const active = document.activeElement;
    const isWriting = byId('rule-card').contains(active) && active.matches('input, select') && byId('rule-card').dataset.rule === (choice.rule || {}).name;
    if (!isWriting) {
      showCard();
      return;
    }
    const hooks = byId('rule-card').querySelector('.hooks');
    if (hooks) hooks.replaceWith(hookChips(choice.rule));
    const old = byId('rule-card').querySelector('.acts');
    if (old && !old.contains(active)) old.replaceWith(acts(choice.rule) || element('div', {class: 'acts'}));
  }

  studio.on('book', showList);
  studio.on('choice', () => { markChosen(); refreshCard(); });
  studio.on('selection', refreshCard);
  byId('rule-filter').addEventListener('input', showList);

  gmr.rules = {move, showList};
}(window.gmr = window.gmr || {}));
