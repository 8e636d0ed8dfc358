// Dialogs: files are opened, saved, imported and exported, and the keys are told.
(function (gmr) {
  'use strict';

  const {studio, element, byId} = gmr;

  // Opens a dialog with a title, a body and buttons; gives a function that closes it.
  function openDialog({title, body, buttons, isWide}) {
    const dialog = byId('dialog');
    const close = () => dialog.close();
    dialog.className = isWide ? 'wide' : '';
    dialog.replaceChildren(element('h2', {}, title), element('div', {class: 'body'}, ...body.filter(Boolean)),
      element('div', {class: 'bar'}, ...(buttons || []), element('button', {id: 'dialog-close', onclick: close}, buttons ? 'Cancel' : 'Close')));
    if (!dialog.open) dialog.showModal();
    return close;
  }

  // A list of names of which one is chosen, and a field in which one can be written.
  function nameChooser(names, first) {
    const field = element('input', {id: 'file-name', value: first || '', spellcheck: 'false', autocomplete: 'off', 'aria-label': 'The name of the file'});
    const list = element('ul', {class: 'names', role: 'listbox', 'aria-label': 'Files of the folder'});
    const show = () => list.replaceChildren(...names.map((name) => element('li', {role: 'option', 'aria-selected': String(name === field.value),
      onclick: () => { field.value = name; show(); }, ondblclick: () => field.dispatchEvent(new Event('chosen'))}, name)));
    field.addEventListener('input', show);
    show();
    return {field, list};
  }

  function kindChooser(kinds, chosen, change) {
    return element('div', {class: 'row', role: 'radiogroup'}, kinds.map((kind) => element('button', {role: 'radio', id: `file-${kind}`,
      class: kind === chosen ? 'main' : '', 'aria-checked': String(kind === chosen), onclick: () => { if (kind !== chosen) change(kind); }}, kind)));
  }

  // Does what a dialog is about, and closes it where the server took it; asks before a file is written over.
  async function finish(close, action, fields) {
    const answer = await studio.wish(action, fields);
    if (answer && answer.asks) {
      openDialog({title: 'Write over it?', body: [element('p', {}, `${answer.asks}.`)], buttons: [
        element('button', {class: 'main', id: 'file-over', onclick: () => { close(); studio.wish(action, {...fields, over: true}); }}, 'Write over it')]});
    } else if (answer) close();
  }

  function isLost() { return studio.state.unsaved.includes('script'); }

  async function open(kind = 'map') {
    const {names, folder} = await studio.ask('files', {kind});
    const {field, list} = nameChooser(names, '');
    const go = () => finish(close, 'open', {kind, name: field.value});
    field.addEventListener('chosen', go);
    field.addEventListener('keydown', (event) => { if (event.key === 'Enter') go(); });
    const about = {map: isLost() ? 'The script isn\'t saved, and a new one begins with another map.' : 'A new script begins with another map.',
      book: 'The script is run again under the book.', script: 'The script is run from the start, in the place of the one so far.'}[kind];
    const close = openDialog({title: `Open from ${folder}`, body: [kindChooser(['map', 'book', 'script'], kind, open), list, element('div', {class: 'row'}, field),
      element('p', {class: 'hint', style: 'padding:0'}, about)], buttons: [element('button', {class: 'main', id: 'file-go', onclick: go}, 'Open')]});
    field.focus();
  }

  async function save(kind = 'map') {
    const {names, folder} = await studio.ask('files', {kind});
    const {field, list} = nameChooser(names, kind === 'start' ? 'start.gmap' : studio.state.names[kind]);
    const go = () => finish(close, 'save', {kind, name: field.value});
    field.addEventListener('keydown', (event) => { if (event.key === 'Enter') go(); });
    const about = {map: 'The program runs the whole script from the start, and what it leaves is saved.',
      start: 'The map with which the script begins.', book: 'The text of the book as it was taken.', script: 'The lines that were run.'}[kind];
    const close = openDialog({title: `Save in ${folder}`, body: [kindChooser(['map', 'start', 'book', 'script'], kind, save), list, element('div', {class: 'row'}, field),
      element('p', {class: 'hint', style: 'padding:0'}, about)], buttons: [element('button', {class: 'main', id: 'file-go', onclick: go}, 'Save')]});
    field.focus();
    field.select();
  }

  function scaleRow(told) {
    const scale = element('input', {id: 'file-scale', placeholder: told, 'aria-label': 'The scale'});
    return {scale, row: element('div', {class: 'row'}, element('label', {for: 'file-scale'}, 'scale'), scale)};
  }

  async function importMesh() {
    const {names, folder} = await studio.ask('files', {kind: 'mesh'});
    const {field, list} = nameChooser(names, '');
    const {scale, row} = scaleRow('chosen by the model');
    const go = () => finish(close, 'import', {name: field.value, scale: scale.value});
    const close = openDialog({title: `Import a mesh from ${folder}`, body: [list, element('div', {class: 'row'}, field), row],
      buttons: [element('button', {class: 'main', id: 'file-go', onclick: go}, 'Import')]});
  }

  async function exportMesh() {
    const {names, written} = await studio.ask('files', {kind: 'mesh'});
    const {field, list} = nameChooser(names, studio.state.names.map.replace(/\.gmap$/, '.ply'));
    const {scale, row} = scaleRow('1, or that of the map\'s file');
    const go = () => finish(close, 'export', {name: field.value, scale: scale.value});
    const close = openDialog({title: 'Export a mesh', body: [element('p', {class: 'hint', style: 'padding:0'}, written.join('  ')), list,
      element('div', {class: 'row'}, field), row], buttons: [element('button', {class: 'main', id: 'file-go', onclick: go}, 'Export')]});
    field.focus();
  }

  // Sessions that ended without a save are offered, the latest first.
  function offer(offered) {
    const banner = byId('banner');
    const [latest] = offered || [];
    banner.hidden = !latest;
    if (!latest) return;
    const count = latest.steps === 1 ? '1 statement' : `${latest.steps} statements`;
    banner.replaceChildren(element('span', {}, `An earlier session over ${latest.map}, with ${count}, ended without its script being saved.`),
      element('button', {class: 'main', id: 'offer-take', onclick: async () => {
        const answer = await studio.wish('restore', {session: latest.session});
        if (answer) offer(answer.offered);
      }}, 'Go on with it'),
      element('button', {id: 'offer-later', onclick: () => { banner.hidden = true; }}, 'Later'),
      element('button', {id: 'offer-forget', onclick: async () => {
        const answer = await studio.wish('forget', {session: latest.session});
        if (answer) offer(answer.offered);
      }}, 'Forget it'));
  }

  Object.assign(gmr, {openDialog, files: {open, save, importMesh, exportMesh, offer}});
}(window.gmr = window.gmr || {}));
