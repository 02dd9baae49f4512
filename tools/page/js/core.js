"use strict";
// What all parts of the page share. The rules of a turn are nowhere in these files: the page shows what the server tells of a run.
const Course = { words: null, run: null, turn: 0, stored: window.STORED || null, language: "en" };

Course.at = (id) => document.getElementById(id);

// A sentence, with its values put in.
Course.say = (part, key, values = {}) => Course.words[part][key].replace(/\{(\w+)\}/g, (_, name) => values[name] ?? "");

class Refused extends Error {
  constructor(fault) {
    super(fault.text);
    this.fault = fault;
  }
}

// Asks the server; a finished file has the answers with it. What is refused, or not answered at all, is thrown.
Course.ask = async (path, body) => {
  if (Course.stored) return Course.stored.answer(path);
  let answer;
  try {
    const options = body === undefined ? {} : { method: "POST", headers: { "Content-Type": "application/json" }, body: JSON.stringify(body) };
    answer = await (await fetch(path, options)).json();
  } catch {
    throw new Refused({ text: Course.words ? Course.say("faults", "gone") : "The server does not answer.", gone: true });
  }
  if (answer.fault) throw new Refused(answer.fault);
  return answer;
};

// Puts the sentences of the language where the page names them.
Course.setWords = (words, language) => {
  Course.words = words;
  Course.language = language;
  document.documentElement.lang = language;
  for (const one of document.querySelectorAll("[data-word]")) one.textContent = Course.say("page", one.dataset.word);
  for (const one of document.querySelectorAll("[data-label]")) one.setAttribute("aria-label", Course.say("page", one.dataset.label));
  document.title = Course.say("page", "title");
};

// What is wrong beside a case: a server that is gone, a run that it has forgotten. The drawing is greyed until something else is drawn.
Course.notice = (text, stale = true) => {
  Course.at("notice").textContent = text;
  Course.at("notice").hidden = !text;
  if (text && stale) Course.at("showing").dataset.stale = "true";
};

Course.fresh = () => {
  delete Course.at("showing").dataset.stale;
  Course.notice("");
};
