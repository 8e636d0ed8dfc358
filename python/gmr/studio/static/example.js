// A rule by example: the map before an operation, the map after it, the rule that is made of them, with its doubts.
(function (gmr) {
  'use strict';

  const {studio, stage, element, byId} = gmr;
  const pictures = {};
  let made = null;        // what `infer` answered
  let name = 'my_rule';

  async function takeSide(side) {
    const picture = stage.picture();
    const answer = await studio.wish('example', {side});
    if (!answer) return;
    pictures[side] = picture;
    made = null;
    show();
  }

  function sideBox(side) {
    const darts = studio.state.example[side];
    const has = darts !== undefined;
    return element('div', {}, element('b', {}, side === 'before' ? 'Before' : 'After'),
      has && pictures[side] ? element('img', {src: pictures[side], alt: `the map ${side}`})
        : element('div', {class: 'empty'}, has ? `${darts} darts` : side === 'before' ? 'the map before the operation' : 'the map after it'),
      element('button', {id: `take-${side}`, onclick: () => takeSide(side)}, has ? 'Take again' : 'Take the map'),
      has ? element('span', {class: 'hint', style: 'padding:0'}, `${darts} darts`) : null);
  }

  async function make() {
    byId('made').replaceChildren(element('p', {class: 'hint'}, 'Looking for a rule ..'));
    try {
      made = await studio.ask('infer', {name});
    } catch (error) {
      made = {text: null, why: [error.message]};
    }
    show();
  }

  // The made rule's own text: the book's without its head.
  function ruleText() {
    const at = made.text.search(/^(#|rule )/m);
    return made.text.slice(at);
  }

  function withDoubts(text) {
    return text.split(/(?<=\n)/).map((line) => (line.startsWith('#') ? element('span', {class: 'comment'}, line) : line));
  }

  // The book's text with the made rule after it, in the version that several hooks need.
  function joined() {
    const hooks = made.book.rules[0].nodes.filter((node) => node.hook).length;
    const old = hooks > 1 ? studio.book.text.replace(/^(\s*(?:#[^\n]*\n\s*)*)book\s+0*1\b/, '$1book 2') : studio.book.text;
    return `${old.trimEnd()}\n\n${ruleText()}`;
  }

  async function add() {
    const answer = await studio.wish('book', {text: joined()});
    if (!answer || !answer.book) return;
    const rule = studio.book.rules.find((one) => one.name === name);
    gmr.choice.choose(rule);
    byId(`rule-${name}`).scrollIntoView({block: 'nearest'});
    made = null;
    show();
  }

  function madeParts() {
    if (!made) return [];
    const why = made.why.map((line) => element('p', {class: 'hint', style: 'padding:0'}, line));
    if (!made.text) return why;
    const [rule] = made.book.rules || [];
    return [...why, rule ? element('div', {class: 'drawing'}, gmr.drawRule(rule, 314, gmr.heightOfDrawing(rule))) : null,
      element('pre', {}, withDoubts(ruleText())),
      made.script ? element('p', {class: 'hint', style: 'padding:0'}, `In the example: ${made.script.trim()}`) : null,
      element('button', {class: 'main', id: 'add-rule', disabled: !rule || Boolean(rule.fault), onclick: add}, 'Add it to the book')];
  }

  function show() {
    const {example} = studio.state;
    const isReady = example.before !== undefined && example.after !== undefined;
    const field = element('input', {id: 'made-name', value: name, 'aria-label': 'The name of the rule', spellcheck: 'false',
      oninput: () => { name = field.value; }});
    byId('panel-example').replaceChildren(
      element('p', {class: 'hint'}, 'Take the map, do something to it by several steps, and take it again: one rule is made that does all of it.'),
      element('div', {class: 'sides'}, sideBox('before'), sideBox('after')),
      element('div', {class: 'bar'}, field, element('button', {class: 'main', id: 'make-rule', disabled: !isReady, onclick: make}, 'Make the rule')),
      element('div', {id: 'made'}, ...madeParts().filter(Boolean)));
  }

  studio.on('state', () => { if (!byId('panel-example').contains(document.activeElement) || !document.activeElement.matches('input')) show(); });
}(window.gmr = window.gmr || {}));
