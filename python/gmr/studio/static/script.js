// The script as it grows: each statement with what the program said of it, run again from any line, and edited.
(function (gmr) {
  'use strict';

  const {studio, element, byId} = gmr;
  let edited = null;      // the field of the whole script while it is edited
  let list = null;        // the list of the steps, and of it the items that are as the state is
  let items = [];

  const textOf = (steps) => steps.map((step) => `${step.text}\n`).join('');

  // The whole script, with what is still to be run.
  function wholeText() { return textOf(studio.state.steps) + studio.state.rest; }

  function reportOf(step) {
    const lines = step.came === 'note' ? [] : step.report;
    return lines.length ? element('div', {class: 'report'}, lines.map((line) => line.replace(/^\d+ /, '')).join('\n')) : null;
  }

  // Runs the script up to a step, which is counted from 1; what comes after it stays to be run.
  function runTo(count) {
    const {steps, rest} = studio.state;
    studio.wish('script', {text: textOf(steps.slice(0, count)), rest: textOf(steps.slice(count)) + rest});
  }

  function runRest() { studio.wish('script', {text: wholeText(), rest: ''}); }

  function stepItem(step, at, line) {
    return element('li', {class: step.came}, element('span', {class: 'number'}, String(line)), element('pre', {}, step.text), reportOf(step),
      element('button', {class: 'run', title: 'Run the script again up to here', 'aria-label': `Run up to line ${line}`, onclick: () => runTo(at + 1)}, '▶'));
  }

  function groupItems(group, line) {
    if (group === null) return [];
    const lines = ['group', ...group.map((one) => `  ${one}`)];
    return lines.map((text, at) => element('li', {class: 'open'}, element('span', {class: 'number'}, String(line + at)), element('pre', {}, text)));
  }

  function restItems(rest) {
    if (!rest.trim()) return [];
    return [element('li', {class: 'rest'}, element('pre', {}, rest.trimEnd()), element('div', {class: 'report'}, 'not run'),
      element('button', {class: 'run', style: 'opacity:1', title: 'Run these lines too', 'aria-label': 'Run the rest', onclick: runRest}, '▶'))];
  }

  function bar() {
    const {group, undo, redo} = studio.state;
    const isOpen = group !== null;
    return element('div', {class: 'bar'},
      isOpen ? element('button', {class: 'main', id: 'group-end', title: 'The lines since become one step (G)', onclick: () => studio.wish('group', {do: 'end'})}, 'End group')
        : element('button', {id: 'group-begin', title: 'What follows is done whole or not at all (G)', onclick: () => studio.wish('group', {do: 'begin'})}, 'Group'),
      isOpen ? element('button', {id: 'group-leave', onclick: () => studio.wish('group', {do: 'leave'})}, 'Leave it out') : null,
      element('div', {class: 'gap'}),
      element('button', {id: 'script-edit', disabled: isOpen, title: 'Write the script by hand', onclick: edit}, 'Edit'),
      element('span', {hidden: true}, String(undo), String(redo)));
  }

  // The items of the steps: those that the page has stay as far as the steps are the known ones.
  function stepItems() {
    const {steps, kept} = studio.state;
    items = items.slice(0, list ? Math.min(kept, items.length) : 0);
    let line = 1 + steps.slice(0, items.length).reduce((sum, step) => sum + step.text.split('\n').length, 0);
    for (const step of steps.slice(items.length)) {
      items.push(stepItem(step, items.length, line));
      line += step.text.split('\n').length;
    }
    return line;
  }

  function showSteps() {
    const {rest, group} = studio.state;
    const before = items;
    const line = stepItems();
    const behind = [...groupItems(group, line), ...restItems(rest)];
    if (!list) list = element('ol', {class: 'steps', id: 'steps', tabindex: '0', 'aria-label': 'The script'});
    while (list.children.length && list.lastChild !== items[list.children.length - 1]) list.lastChild.remove();
    list.append(...items.slice(list.children.length), ...behind);
    const hint = items.length || group !== null || rest.trim() ? null : element('p', {class: 'hint'},
      'Each thing that is done stands here as a line of the script. Choose a rule at the left and click the model.');
    byId('panel-script').replaceChildren(...[bar(), hint, list].filter(Boolean));
    if (before !== items || behind.length) list.scrollTop = list.scrollHeight;
  }

  // The place in a text up to the end of the line at a place.
  const endOfLine = (text, place) => (text.indexOf('\n', place) < 0 ? text.length : text.indexOf('\n', place) + 1);

  function edit() {
    edited = element('textarea', {class: 'code', id: 'script-text', spellcheck: 'false', 'aria-label': 'The script'});
    edited.value = wholeText();
    const run = (end) => {
      const text = edited.value;
      const wished = {text: text.slice(0, end), rest: text.slice(end)};
      studio.wish('script', wished).then((answer) => { if (answer && answer.changes) leave(); });
    };
    const leave = () => {
      edited = null;
      list = null;
      showSteps();
    };
    byId('panel-script').replaceChildren(element('div', {class: 'bar'},
      element('button', {class: 'main', id: 'script-run', onclick: () => run(edited.value.length)}, 'Run all'),
      element('button', {id: 'script-run-to', title: 'Run up to the line of the cursor', onclick: () => run(endOfLine(edited.value, edited.selectionStart))}, 'Run to cursor'),
      element('div', {class: 'gap'}), element('button', {onclick: leave}, 'Cancel')), edited);
    edited.focus();
  }

  studio.on('state', () => {
    if (edited) items = []; else showSteps();
  });

  gmr.script = {edit, wholeText};
}(window.gmr = window.gmr || {}));
