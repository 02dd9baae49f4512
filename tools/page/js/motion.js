"use strict";
// Things that move: what a turn sends goes along its arrow. Who asks for less motion sees none.
Course.motion = (() => {
  const still = matchMedia("(prefers-reduced-motion: reduce)");
  let round = 0;

  // Moves a copy of what stands on an arrow from its tail to its tip; `place` puts it at a point.
  function along(path, time, place, done) {
    const mine = round, length = path.getTotalLength(), begun = performance.now();
    const frame = (now) => {
      const part = Math.min((now - begun) / time, 1);
      if (mine !== round || part >= 1 || !path.isConnected) return done();
      place(path.getPointAtLength(length * part), part);
      requestAnimationFrame(frame);
    };
    place(path.getPointAtLength(0), 0);
    requestAnimationFrame(frame);
  }

  function sent(time) {
    const lines = [...document.querySelectorAll("#boxes .arrow")];
    for (const load of document.querySelectorAll("#boxes .load.fresh")) {
      const path = lines[Number(load.dataset.arrow)].querySelector("path"), half = path.getPointAtLength(path.getTotalLength() / 2);
      const bead = load.cloneNode(true);
      bead.classList.add("bead");
      load.parentNode.append(bead);
      load.style.visibility = "hidden";
      along(path, time, (point) => bead.setAttribute("transform", `translate(${point.x - half.x} ${point.y - half.y})`), () => {
        bead.remove();
        load.style.visibility = "";
      });
    }
  }

  function followed(step, time) {
    const now = step.edges && step.edges.find(([, look]) => look.startsWith("now")), path = now && Course.map.path(now[0]);
    if (!path) return;
    const bead = document.createElementNS("http://www.w3.org/2000/svg", "circle");
    bead.setAttribute("r", 9);
    bead.setAttribute("fill", path.getAttribute("stroke"));
    bead.setAttribute("stroke", "#fff");
    bead.setAttribute("stroke-width", 2);
    bead.classList.add("bead");
    path.ownerSVGElement.append(bead);
    along(path, time, (point) => {
      bead.setAttribute("cx", point.x);
      bead.setAttribute("cy", point.y);
    }, () => bead.remove());
  }

  return {
    still: () => still.matches,
    go(step) {
      round += 1;
      if (still.matches) return;
      const time = Math.min(Number(Course.at("speed").value) * 0.75, 900);
      sent(time);
      followed(step, time);
    },
  };
})();
