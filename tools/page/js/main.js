"use strict";
// Controls, keys, and how the page begins.
{
  const at = Course.at;
  let playing = null;

  function next(kind) {
    if (!Course.run) return;
    const found = Course.run.kinds.indexOf(kind, Course.turn);
    if (found >= 0) Course.show(found + 1);
  }

  Course.stop = () => {
    clearTimeout(playing);
    playing = null;
    at("play").setAttribute("aria-pressed", "false");
    at("play").querySelector("span").textContent = Course.say("page", "play");
  };

  // Plays turn by turn; the next one waits for the one before to be drawn.
  async function tick() {
    if (!Course.run || (Course.turn >= Course.run.known && Course.run.done)) return Course.stop();
    if (Course.quiz.ask(Course.turn + 1)) return Course.stop();
    const begun = performance.now();
    await Course.show(Course.turn + 1);
    if (playing !== null) playing = setTimeout(tick, Math.max(0, Number(at("speed").value) - (performance.now() - begun)));
  }

  function togglePlay() {
    if (playing !== null) return Course.stop();
    at("play").setAttribute("aria-pressed", "true");
    at("play").querySelector("span").textContent = Course.say("page", "pause");
    playing = setTimeout(tick, 0);
  }

  function forward() {
    if (Course.run && !Course.quiz.ask(Course.turn + 1)) return Course.show(Course.turn + 1);
  }

  const actions = {
    first: () => Course.show(0),
    back: () => Course.show(Course.turn - 1),
    play: togglePlay,
    forward,
    last: () => Course.show(Infinity),
    "next-handed": () => next("handed"),
    "next-refused": () => next("refused"),
    "next-lost": () => next("lost"),
    pick: () => Course.pick.toggle(),
    "map-in": () => Course.map.zoom(1.3),
    "map-out": () => Course.map.zoom(1 / 1.3),
    "map-whole": () => Course.map.whole(),
    run: () => Course.runCase(),
    "deal-cards": () => Course.dealCards(),
    "draw-card": () => Course.drawCard(),
    "deal-seed": () => Course.dealSeed(),
    "open-layout": () => Course.openLayout(),
    link: () => Course.makeLink(),
    print: () => window.print(),
  };
  for (const [id, action] of Object.entries(actions)) at(id).addEventListener("click", action);
  const keys = {
    ArrowLeft: "back", ArrowRight: "forward", Home: "first", End: "last", " ": "play", h: "next-handed", r: "next-refused", l: "next-lost",
    "+": "map-in", "-": "map-out", 0: "map-whole", q: "quiz",
  };
  document.addEventListener("keydown", (event) => {
    const typed = event.target.closest("textarea, select, input:not([type=range], [type=checkbox])");
    if (typed || event.ctrlKey || event.metaKey || event.altKey || !keys[event.key]) return;
    if (event.key === " " && event.target.closest("button, summary, input")) return;
    event.preventDefault();
    at(keys[event.key]).click();
  });
  at("slider").addEventListener("input", () => Course.show(Number(at("slider").value)));
  at("map-follow").addEventListener("change", () => Course.map.follow());
  let sizing = null;
  window.addEventListener("resize", () => {
    clearTimeout(sizing);
    sizing = setTimeout(Course.redraw, 60);
  });
  window.addEventListener("beforeprint", () => {
    document.body.classList.add("printing");
    at("below").prepend(at("turns-part"));
    if (Course.drawn?.paper) Course.draw(Course.drawn.paper);
    // A row of boxes has the whole width, and the map stands below it.
    const { width, height } = at("boxes").querySelector("svg")?.viewBox.baseVal ?? { width: 1, height: 1 };
    document.body.classList.toggle("flat", width > 2 * height);
    Course.turns.fill();
    Course.map.paper();
  });
  window.addEventListener("afterprint", () => {
    document.body.classList.remove("printing", "flat");
    if (Course.drawn) Course.draw(Course.drawn.boxes);
    Course.turns.fill();
    Course.redraw();
  });

  async function speak(language) {
    Course.setWords(Course.stored ? Course.stored.words : await Course.ask(`/words/${language}`), language);
    Course.legend((await Course.ask(`/legend?language=${language}`)).signs);
  }

  const samples = new Map();
  let groups = [];

  function fillSamples() {
    at("sample").replaceChildren(new Option(Course.say("page", "own"), ""), ...groups.map(({ group, cases }) => {
      const part = document.createElement("optgroup");
      part.label = Course.say("page", group);
      for (const { name, title, text } of cases) {
        samples.set(`${group}/${name}`, text);
        part.append(new Option(title, `${group}/${name}`));
      }
      return part;
    }));
  }

  // Names the sample that the case is, if it is one.
  Course.nameSample = () => { at("sample").value = [...samples].find(([, text]) => text === at("text").value)?.[0] ?? ""; };

  async function begin() {
    const held = Course.stored ? null : await Course.kept();
    const told = Course.stored ? { languages: [["en", "English"]], samples: [] } : await Course.ask("/samples");
    at("language").replaceChildren(...told.languages.map(([language, name]) => new Option(name, language)));
    const own = navigator.language.slice(0, 2), known = told.languages.map(([language]) => language);
    at("language").value = held?.language ?? (known.includes(own) ? own : "en");
    await speak(Course.stored ? Course.stored.language : at("language").value);
    groups = told.samples;
    fillSamples();
    at("text").value = held?.text ?? [...samples.values()][0] ?? "";
    at("writing").open = held?.open ?? false;
    Course.number();
    await Course.runCase({ turn: held?.turn ?? 0 });
  }

  at("sample").addEventListener("change", () => {
    if (!samples.has(at("sample").value)) return;
    at("text").value = samples.get(at("sample").value);
    Course.runCase({ turn: 0 });
  });
  at("language").addEventListener("change", async () => {
    await speak(at("language").value);
    fillSamples();
    await Course.runCase();
  });
  at("writing").addEventListener("toggle", () => { if (Course.run) Course.keep(); });
  if (Course.stored) document.body.classList.add("stored");
  begin().catch((refused) => Course.notice(refused.message));
}
