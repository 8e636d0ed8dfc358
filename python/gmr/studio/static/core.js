/* The page's middle: it asks the server, keeps what the server told, and tells the other parts what changed.

   studio.state    the script, the names of files and what can be done: see gmr.studio.answers
   studio.book     the book's text and its rules
   studio.on(name, f), studio.tell(name, ..)   'asked' (for something that is done), 'state', 'book', 'scene',
                                               'changes', 'message', 'choice', 'selection'
   studio.ask(action, fields)    asks and gives the answer; what changes something goes through `studio.wish`
   studio.wish(action, fields)   the same, takes what came of it, and shows the program's lines */
(function (gmr) {
  'use strict';

  const listeners = {};
  const CHANGING = new Set(['apply', 'each', 'each_chosen', 'undo', 'redo', 'group', 'script', 'book', 'open', 'import', 'restore', 'example']);

  const studio = {
    state: null,
    book: null,
    answers: [],

    on(name, listener) { (listeners[name] = listeners[name] || []).push(listener); },

    tell(name, ...words) { (listeners[name] || []).forEach((listener) => listener(...words)); },

    // Asks the server for an action. A fault is an Error with its sentence.
    async ask(action, fields) {
      const version = CHANGING.has(action) && studio.state ? {version: studio.state.version} : {};
      let response;
      try {
        response = await fetch(`api/${action}`, {method: 'POST', headers: {'Content-Type': 'application/json'},
          body: JSON.stringify({...version, ...fields})});
      } catch (error) {
        throw new Error('The studio doesn\'t answer; it was ended. What was done is kept, and offered at its next start.');
      }
      const answer = await studio.read(response);
      if (!response.ok) throw new Error(answer.fault || `The studio answered ${response.status}.`);
      return answer;
    },

    // What an answer holds: JSON, with columns of numbers after it or without, or a sentence.
    async read(response) {
      const kind = response.headers.get('Content-Type') || '';
      if (kind.startsWith('application/octet-stream')) return gmr.unwired(await response.arrayBuffer());
      return kind.startsWith('application/json') ? response.json() : {fault: (await response.text()).trim()};
    },

    // Asks for something that is done, and shows what came of it. Wishes wait for each other.
    wish(action, fields) {
      if (CHANGING.has(action)) studio.tell('asked', action);
      const asked = studio.last.then(() => studio.ask(action, fields)).then((answer) => {
        studio.take(answer);
        return answer;
      });
      studio.last = asked.catch((error) => { studio.say([], [error.message], false); });
      return studio.last;
    },

    last: Promise.resolve(),

    // Takes what an answer holds.
    take(answer) {
      if (answer.names && studio.state) studio.state.names = answer.names;
      if (answer.unsaved && studio.state) studio.state.unsaved = answer.unsaved;
      if (answer.book) {
        studio.draft = answer.draft || '';
        studio.book = answer.book;
        studio.tell('book');
      }
      if (answer.state) studio.state = studio.joined(answer.state);
      if (answer.scene) studio.tell('scene', answer.scene);
      if (answer.changes) studio.tell('changes', answer.changes, answer);
      if (answer.state || answer.names) studio.tell('state');
      if (answer.answer && (answer.answer.length || answer.why.length)) {
        const isGood = !answer.refused && !answer.answer.some((line) => /(^| )refused (?!0)/.test(line)) && !answer.why.length;
        studio.say(answer.answer, answer.why, isGood);
      }
    },

    // A state of which the first steps are those that are known.
    joined(state) {
      const known = studio.state ? studio.state.steps : [];
      return {...state, steps: [...known.slice(0, state.kept), ...state.steps]};
    },

    // Shows lines of the program as they came, and sentences.
    say(lines, why, isGood) {
      studio.answers.push({lines, why, isGood});
      if (studio.answers.length > 500) studio.answers.shift();
      studio.tell('message', {lines, why, isGood});
    },
  };

  // The answer that bytes are, see gmr.studio.wire: its columns are read where they lie.
  function unwired(bytes) {
    const length = new DataView(bytes).getUint32(0, true);
    const answer = JSON.parse(new TextDecoder().decode(new Uint8Array(bytes, 4, length)));
    const read = (value) => {
      if (value === null || typeof value !== 'object') return value;
      if (gmr.ARRAYS[value.type] && value.at !== undefined) return new gmr.ARRAYS[value.type](bytes, 4 + length + value.at, value.count);
      for (const key of Object.keys(value)) value[key] = read(value[key]);
      return value;
    };
    for (const part of ['changes', 'scene']) if (answer[part]) read(answer[part]);
    return answer;
  }

  // An element with attributes, listeners (`onclick: f`) and children; texts are set as texts, never as HTML.
  function element(name, attributes, ...children) {
    const made = document.createElement(name);
    for (const [key, value] of Object.entries(attributes || {})) {
      if (key.startsWith('on')) made.addEventListener(key.slice(2), value);
      else if (value === true) made.setAttribute(key, '');
      else if (value !== false && value !== null && value !== undefined) made.setAttribute(key, value);
    }
    made.append(...children.flat().filter((child) => child !== null && child !== undefined && child !== false));
    return made;
  }

  const byId = (id) => document.getElementById(id);

  Object.assign(gmr, {studio, element, byId, unwired});
}(window.gmr = window.gmr || {}));
