// Puts below each result of a search the passage that has what was sought, with it marked.
(() => {
  const LENGTH = 180;
  const BEFORE = 60;
  const words = (new URLSearchParams(location.search).get('q') || '').toLowerCase().split(/\s+/).filter(Boolean);

  // The first place of one of the words in a text, or -1.
  const placeIn = (text) => {
    const places = words.map((word) => text.toLowerCase().indexOf(word)).filter((place) => place >= 0);
    return places.length ? Math.min(...places) : -1;
  };

  // A part of a text around a place, that begins and ends with a word.
  const around = (place, text) => {
    const begin = place > LENGTH - BEFORE ? text.indexOf(' ', place - BEFORE) + 1 : 0;
    const whole = text.slice(begin, begin + LENGTH);
    const end = begin + LENGTH < text.length ? whole.lastIndexOf(' ') : whole.length;
    return `${begin ? '… ' : ''}${whole.slice(0, end > 0 ? end : LENGTH)}${begin + LENGTH < text.length ? ' …' : ''}`;
  };

  // How the section begins that a result leads to; of one for a whole page, what is around a word, or how it begins.
  const passageOf = (link) => {
    const [page, anchor] = link.getAttribute('href').split('#');
    const sections = passages[page.replace(/\.html$/, '')] || [];
    const section = sections.find(([name]) => anchor && name === decodeURIComponent(anchor));
    const found = section || sections.find(([, text]) => placeIn(text) >= 0) || sections[0];
    return found ? around(section ? 0 : placeIn(found[1]), found[1]) : '';
  };

  // An element with a text in which the words are marked.
  const marked = (text) => {
    const element = document.createElement('p');
    element.className = 'passage';
    let rest = text;
    for (let place = placeIn(rest); place >= 0; place = placeIn(rest)) {
      const word = words.find((it) => rest.toLowerCase().startsWith(it, place));
      const mark = document.createElement('mark');
      mark.textContent = rest.slice(place, place + word.length);
      element.append(rest.slice(0, place), mark);
      rest = rest.slice(place + word.length);
    }
    element.append(rest);
    return element;
  };

  const show = (result) => {
    const link = result.querySelector('a');
    const passage = link && !result.querySelector('.passage') ? passageOf(link) : '';
    if (passage) result.append(marked(passage));
  };

  const results = document.getElementById('search-results');
  new MutationObserver(() => results.querySelectorAll('li').forEach(show)).observe(results, {
    childList: true,
    subtree: true,
  });
})();
