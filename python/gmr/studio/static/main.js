// The page begins: parts that are always there, the theme, and what the server tells first.
(function (gmr) {
  'use strict';

  const {studio, stage, element, byId} = gmr;

  function setTheme(theme) {
    document.documentElement.dataset.theme = theme;
    if (stage.viewer) stage.viewer.set({theme});
    try {
      localStorage.setItem('gmr-theme', theme);
    } catch (error) { /* a browser that keeps nothing */ }
  }

  function firstTheme() {
    let kept = null;
    try {
      kept = localStorage.getItem('gmr-theme');
    } catch (error) { /* a browser that keeps nothing */ }
    return kept || (matchMedia('(prefers-color-scheme: dark)').matches ? 'dark' : 'light');
  }

  function openTab(name) {
    for (const one of ['script', 'book', 'example']) {
      byId(`tab-${one}`).setAttribute('aria-selected', String(one === name));
      byId(`panel-${one}`).hidden = one !== name;
    }
  }

  function showMessage({lines, why, isGood}) {
    const box = byId('message');
    box.className = isGood ? 'good' : 'bad';
    const close = element('button', {class: 'close', 'aria-label': 'Close', onclick: () => box.replaceChildren()}, '×');
    const all = element('button', {class: 'close', title: 'All answers so far', onclick: showAnswers}, 'all');
    const refused = lines.filter((line) => / refused (?!0)/.test(line));
    const told = lines.length > 6 ? [...refused.slice(0, 4), lines[lines.length - 1]] : lines;
    box.replaceChildren(close, all, ...told.map((line) => element('div', {class: 'line'}, line)), ...why.map((line) => element('p', {}, line)));
    box.scrollTop = 0;
  }

  function showAnswers() {
    const body = [...studio.answers].reverse().map(({lines, why}) => element('div', {style: 'border-top:1px solid var(--line);padding:5px 0'},
      lines.slice(0, 400).map((line) => element('div', {class: 'code'}, line)), why.map((line) => element('div', {}, line))));
    gmr.openDialog({title: 'Answers of the program, the latest first', isWide: true, body});
  }

  function showState() {
    const {names, unsaved, undo, redo} = studio.state;
    byId('name-map').textContent = names.map;
    byId('name-book').textContent = names.book;
    byId('unsaved-script').hidden = !unsaved.includes('script');
    byId('unsaved-book').hidden = !unsaved.includes('book');
    byId('do-undo').disabled = !undo;
    byId('do-redo').disabled = !redo;
    document.title = `${names.map.split('/').pop()}, gmr studio`;
  }

  function listen() {
    const clicks = {'do-undo': () => studio.wish('undo', {}), 'do-redo': () => studio.wish('redo', {}), 'do-open': () => gmr.files.open(),
      'do-save': () => gmr.files.save(), 'do-import': gmr.files.importMesh, 'do-export': gmr.files.exportMesh, 'do-help': gmr.help,
      'do-theme': () => setTheme(document.documentElement.dataset.theme === 'dark' ? 'light' : 'dark'),
      'tab-script': () => openTab('script'), 'tab-book': () => openTab('book'), 'tab-example': () => openTab('example')};
    Object.entries(clicks).forEach(([id, click]) => byId(id).addEventListener('click', click));
    studio.on('message', showMessage);
    studio.on('state', showState);
  }

  async function begin() {
    setTheme(firstTheme());
    listen();
    stage.begin(document.documentElement.dataset.theme);
    const first = await studio.wish('show', {});
    if (first) gmr.files.offer(first.offered);
    document.body.dataset.ready = 'yes';
  }

  begin();
}(window.gmr = window.gmr || {}));
