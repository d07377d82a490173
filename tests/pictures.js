/* Put at the end of a copy of a page by tests/pictures. It measures the page as the browser has laid it out, and
   leaves what is wrong in an element "report": texts that overlap, leave their drawing or frame, are covered or too small. */
window.addEventListener("load", () => {
  const wrong = [];
  const LEAST = 9.5;
  let texts = 0;
  let least = Infinity;

  // The box of a text on the page, without the room that a font keeps above and below its letters.
  function letters(text) {
    const box = text.getBoundingClientRect();
    const spare = box.height * 0.18;
    return {
      text, words: text.textContent,
      left: box.left, right: box.right,
      top: box.top + scrollY + spare, bottom: box.bottom + scrollY - spare,
    };
  }

  function frame(element) {
    const box = element.getBoundingClientRect();
    return { left: box.left, right: box.right, top: box.top + scrollY, bottom: box.bottom + scrollY };
  }

  const meet = (a, b) => a.left < b.right - 0.5 && b.left < a.right - 0.5 && a.top < b.bottom - 0.5 && b.top < a.bottom - 0.5;
  const within = (a, b) => a.left >= b.left - 0.5 && a.right <= b.right + 0.5 && a.top >= b.top - 0.5 && a.bottom <= b.bottom + 0.5;

  // The text itself must be what one sees in its middle.
  function covered(box) {
    const x = (box.left + box.right) / 2;
    const y = (box.top + box.bottom) / 2;
    scrollTo(0, Math.max(0, y - innerHeight / 2));
    const seen = document.elementsFromPoint(x, y - scrollY);
    const at = seen.indexOf(box.text);
    // Only between letters does the point miss the text.
    if (at < 0) return false;
    return at > 0 && !box.text.contains(seen[0]);
  }

  for (const svg of document.querySelectorAll("svg")) {
    const name = svg.querySelector("title");
    if (!name || !svg.querySelector("desc")) wrong.push("a drawing has no title or no words");
    const title = name ? name.textContent : "?";
    const around = frame(svg);
    const boxes = [...svg.querySelectorAll("text")].map(letters).sort((a, b) => a.top - b.top);
    const cards = [...svg.querySelectorAll("[data-card]")].map(frame);
    texts += boxes.length;
    boxes.forEach((box, i) => {
      least = Math.min(least, parseFloat(getComputedStyle(box.text).fontSize) * around.right / 800);
      if (!within(box, around)) wrong.push(`${title}: leaves the drawing: ${box.words}`);
      for (let j = i + 1; j < boxes.length && boxes[j].top < box.bottom; j++) {
        if (meet(box, boxes[j])) wrong.push(`${title}: "${box.words}" lies on "${boxes[j].words}"`);
      }
      for (const card of cards) {
        if (meet(box, card) && !within(box, card)) wrong.push(`${title}: cut by a frame: ${box.words}`);
      }
    });
    for (const box of boxes) {
      if (covered(box)) wrong.push(`${title}: covered: ${box.words}`);
    }
    cards.forEach((card, i) => {
      for (const other of cards.slice(i + 1)) if (meet(card, other)) wrong.push(`${title}: two frames overlap`);
    });
  }
  if (document.documentElement.scrollWidth > innerWidth) wrong.push("the page is wider than the window");
  if (least < LEAST) wrong.push(`the smallest text has ${least.toFixed(1)} px`);
  const report = document.createElement("pre");
  report.id = "report";
  report.textContent = `texts ${texts} height ${document.documentElement.scrollHeight} wrong ${wrong.length}\n${wrong.join("\n")}`;
  document.body.appendChild(report);
});
