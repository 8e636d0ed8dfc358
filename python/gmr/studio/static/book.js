// The book's text: words are coloured, the program checks it at each pause, and faults are marked at their places.
(function (gmr) {
  'use strict';

  const {studio, element, byId} = gmr;
  const PAUSE = 350; // milliseconds without a key before the text is checked
  const WORDS = /(#[^\n]*)|\b(book|dim|embed|rule|left|right|with|pre|and|or|not|if|then|else|true|false|sum|count|min|max|same)\b|\b(hook)\b/g;
  const parts = {};
  let checked = null;     // what the program said of the text as it is
  let waiting = 0;
  let isKept = false;     // whether the server keeps a text that isn't the book's

  // The text in pieces with the classes of their words, marks at faults included.
  function painted(text, faults) {
    const cuts = faults.map((fault) => [fault.from, Math.max(fault.to, fault.from + 1)]).sort((a, b) => a[0] - b[0]);
    const found = [];
    let at = 0;
    for (const [from, to] of cuts) {
      if (from < at) continue;
      found.push(...coloured(text.slice(at, from)));
      found.push(element('mark', {}, text.slice(from, to).replace(/\n/g, ' \n') || ' '));
      at = to;
    }
    found.push(...coloured(text.slice(at)), '\n');
    return found;
  }

  function coloured(text) {
    const found = [];
    let at = 0;
    for (const match of text.matchAll(WORDS)) {
      found.push(text.slice(at, match.index));
      found.push(element('span', {class: match[1] ? 'comment' : match[2] ? 'word' : 'hook'}, match[0]));
      at = match.index + match[0].length;
    }
    found.push(text.slice(at));
    return found;
  }

  function paint() {
    parts.back.replaceChildren(...painted(parts.text.value, checked ? checked.faults : []));
    follow();
  }

  function follow() {
    parts.back.scrollTop = parts.text.scrollTop;
    parts.back.scrollLeft = parts.text.scrollLeft;
  }

  const isChanged = () => parts.text.value !== studio.book.text;

  function showFaults() {
    const {faults} = checked;
    const items = faults.map((fault) => element('li', {onclick: () => goTo(fault)}, element('div', {class: 'code'}, fault.answer),
      fault.why.map((line) => element('p', {}, line))));
    if (!faults.length) {
      const count = checked.rules ? checked.rules.length : 0;
      items.push(element('li', {class: 'good'}, element('div', {class: 'code'}, `rules ${count} refused 0`)));
    }
    parts.faults.replaceChildren(...items);
    parts.take.disabled = !isChanged() || !checked.rules;
    parts.back_button.disabled = !isChanged();
  }

  function goTo(fault) {
    parts.text.focus();
    parts.text.setSelectionRange(fault.from, fault.to);
    const line = parts.text.value.slice(0, fault.from).split('\n').length;
    parts.text.scrollTop = Math.max(0, line * 17.25 - parts.text.clientHeight / 3);
  }

  // Checks the text, unless it was written on meanwhile.
  async function check() {
    const text = parts.text.value;
    try {
      const answer = isChanged() || isKept ? await studio.ask('check', {text}) : studio.book;
      isKept = isChanged();
      if (parts.text.value !== text) return;
      checked = answer;
      showFaults();
      paint();
    } catch (error) {
      studio.say([], [error.message], false);
    }
  }

  function written() {
    checked = null;
    parts.take.disabled = true;
    paint();
    clearTimeout(waiting);
    waiting = setTimeout(check, PAUSE);
  }

  async function take() {
    const answer = await studio.wish('book', {text: parts.text.value});
    if (answer && answer.book) studio.say(answer.answer, answer.book.faults.length ? ['The rules that are refused are left out when something is done.'] : [], true);
  }

  function build() {
    parts.back = element('pre', {'aria-hidden': 'true'});
    parts.text = element('textarea', {id: 'book-text', spellcheck: 'false', 'aria-label': 'The text of the book', oninput: written, onscroll: follow,
      onkeydown: (event) => { if (event.key === 'Enter' && (event.ctrlKey || event.metaKey)) take(); }});
    parts.take = element('button', {class: 'main', id: 'book-take', title: 'Go on with this text (Ctrl+Enter)', onclick: take}, 'Take it');
    parts.back_button = element('button', {id: 'book-back', onclick: () => { parts.text.value = studio.book.text; written(); }}, 'As it was');
    parts.faults = element('ul', {class: 'faults', id: 'faults', 'aria-label': 'What the program says of the book'});
    byId('panel-book').replaceChildren(element('div', {class: 'bar'}, parts.take, parts.back_button, element('div', {class: 'gap'}),
      element('button', {id: 'book-rule', title: 'Go to the chosen rule', onclick: goToRule}, 'Chosen rule')),
    element('div', {class: 'editor'}, parts.back, parts.text), parts.faults);
  }

  function goToRule() {
    const {rule} = gmr.choice;
    if (!rule) return;
    const at = parts.text.value.search(new RegExp(`\\brule\\s+${rule.name}\\b`));
    if (at >= 0) goTo({from: at, to: at + 5 + rule.name.length});
  }

  build();
  studio.on('book', () => {
    parts.text.value = studio.draft || studio.book.text;
    isKept = Boolean(studio.draft);
    check();
  });

  gmr.book = {goToRule};
}(window.gmr = window.gmr || {}));
