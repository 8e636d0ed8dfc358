// The keys. Everything that the pointer does can be done by them.
(function (gmr) {
  'use strict';

  const {studio, stage, choice, element, byId} = gmr;

  const KEYS = [
    ['Ctrl+Z, Ctrl+Shift+Z', 'take back, bring again'], ['Ctrl+S, Ctrl+O', 'save, open'], ['/', 'find a rule'],
    ['J, K', 'the next rule, the one before'], ['A', 'apply a rule that needs no dart'], ['E', 'each: the rule at all cells'],
    ['S', 'the rule at the selected cells'], ['G', 'begin a group, end it'], ['0 to 7', 'the cursor goes to the neighbour along a label'],
    ['.', 'the cursor goes to the next dart'], ['Enter', 'click the dart of the cursor'], ['Shift+Enter', 'select its cell too'],
    ['V', 'the next kind of cells'], ['Esc', 'back: a hook, the rule, the selection'], ['Arrows, + and -', 'turn the model, come nearer, go further'],
    ['F, D, N', 'see all of it; darts; names'], ['1 to 3 with Alt', 'script, book, rule by example'], ['T', 'light or dark'], ['?', 'these keys'],
  ];

  function help() {
    gmr.openDialog({title: 'Keys', body: [element('table', {}, KEYS.map(([key, what]) => element('tr', {}, element('td', {}, element('kbd', {}, key)),
      element('td', {}, what))))]});
  }

  function press(id) {
    const button = byId(id);
    if (button && !button.disabled && !button.hidden) button.click();
  }

  function click(isMore) {
    if (stage.cursor === null) return;
    studio.tell('pick', {dart: stage.cursor, event: isMore ? {shiftKey: true} : null});
  }

  function nextKind() {
    const kinds = gmr.KINDS_OF_CLICKS.filter((kind) => byId(`kind-${kind}`));
    stage.setKind(kinds[(kinds.indexOf(stage.kind) + 1) % kinds.length]);
  }

  const PLAIN = {
    '/': () => byId('rule-filter').focus(), '?': help, j: () => gmr.rules.move(1), k: () => gmr.rules.move(-1), a: () => press('apply'),
    e: () => press('each'), s: () => press('each-selected'), g: () => press(studio.state.group === null ? 'group-begin' : 'group-end'),
    '.': () => stage.step(null), v: nextKind, d: () => stage.toggle('darts'), n: () => stage.toggle('names'), f: () => stage.viewer.fit(),
    t: () => press('do-theme'), Escape: () => choice.back(),
  };
  const WITH_CONTROL = {
    z: (event) => studio.wish(event.shiftKey ? 'redo' : 'undo', {}), y: () => studio.wish('redo', {}), s: () => gmr.files.save(), o: () => gmr.files.open(),
  };

  const isWriting = (target) => target.matches('textarea, select, input:not([type="range"]):not([type="checkbox"])');

  function pressed(event) {
    if (byId('dialog').open) return;
    const key = event.key.length === 1 ? event.key.toLowerCase() : event.key;
    const isControl = event.ctrlKey || event.metaKey;
    if (isWriting(event.target)) {
      if (event.key === 'Escape') event.target.blur();
      else if (!(isControl && 'so'.includes(key))) return;
    }
    if (event.altKey && '123'.includes(key)) press(['tab-script', 'tab-book', 'tab-example'][Number(key) - 1]);
    else if (isControl && WITH_CONTROL[key]) WITH_CONTROL[key](event);
    else if (isControl || event.altKey) return;
    else if (/^[0-7]$/.test(key)) stage.step(Number(key));
    else if (event.key === 'Enter' && isOnModel(event.target)) click(event.shiftKey);
    else if (PLAIN[key] && !(key === 'f' && byId('view').contains(event.target))) PLAIN[key]();
    else return;
    event.preventDefault();
  }

  const isOnModel = (target) => target === document.body || byId('view').contains(target) || target.id === 'rule-list';

  document.addEventListener('keydown', pressed);
  byId('rule-list').addEventListener('keydown', (event) => {
    if (event.key === 'ArrowDown' || event.key === 'ArrowUp') {
      gmr.rules.move(event.key === 'ArrowDown' ? 1 : -1);
      event.preventDefault();
    }
  });
  byId('rule-filter').addEventListener('keydown', (event) => {
    if (event.key === 'Enter' || event.key === 'ArrowDown') {
      gmr.rules.move(event.key === 'Enter' ? 0 : 1);
      byId('rule-list').focus();
      event.preventDefault();
    }
  });

  gmr.help = help;
}(window.gmr = window.gmr || {}));
