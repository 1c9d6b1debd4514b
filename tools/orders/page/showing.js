// The page after each touch: every part of it from the state that the order has come to.
const showing = (() => {
  const { fill, make, place } = parts;
  const COLUMNS = 5; // threads beside one another on a wide screen
  const MOST_LINES = 2000; // of the order, in the box and on paper

  // `was` is what was shown before, or null.
  function all(desk, was) {
    const focus = document.activeElement && document.activeElement.id, stand = standings.told(desk), done = standings.justNow(desk);
    const stands = stand.title ? [make("b", "", stand.title), stand.words] : wording.capital(stand.words);
    fill("banner", make("span", "stands", stands), done ? make("span", "just-now", `Just now: ${done}`) : null);
    place("banner").className = `banner ${stand.kind}`;
    place("badge").textContent = stand.badge;
    place("badge").className = `badge ${stand.kind}`;
    fill("threads", threads.cards(desk));
    place("threads").style.setProperty("--columns", Math.min(desk.known.threads.length, COLUMNS));
    fill("things", things.rows(desk));
    fill("quiz", desk.quiz);
    if (was) place("said").textContent = said(was, desk);
    showLanes(desk);
    showOrder(desk);
    showControls(desk);
    const again = focus && place(focus);
    if (again && again !== document.activeElement) again.focus({ preventScroll: true });
  }

  // What has changed, and what the quiz says if it has come to something new.
  function said(was, desk) {
    const quiz = [...place("quiz").querySelectorAll("p")].map(one => one.textContent);
    return [standings.changed(was, desk), ...(was.stage === desk.stage ? [] : quiz)].join(" ");
  }

  function showLanes(desk) {
    const { cells, count, left } = lanes.rows(desk), picture = place("lanes");
    picture.style.setProperty("--threads", count);
    picture.replaceChildren(...cells);
    picture.parentElement.hidden = cells.length === 1 + count;
    follow(picture.parentElement, picture.querySelectorAll(".stretch"));
    place("left").textContent = left ? `Its first ${wording.counted(left, "step")} are not drawn.` : "";
  }

  // Scrolls to the latest stretch.
  function follow(frame, boxes) {
    frame.scrollTop = frame.scrollHeight;
    if (boxes.length === 0) return;
    const box = boxes[boxes.length - 1].getBoundingClientRect(), room = frame.getBoundingClientRect();
    if (box.right > room.right || box.left < room.left) frame.scrollLeft += (box.left + box.right - room.left - room.right) / 2;
  }

  function showOrder({ order }) {
    const { at } = order, from = Math.max(0, at - MOST_LINES);
    place("trace").value = orders.text(order, from);
    place("trace").scrollTop = place("trace").scrollHeight;
    place("cut").textContent = from ? `These are the latest ${MOST_LINES} of ${at} lines; Copy and Download take all of them.` : "";
    place("printed").textContent = from ? `${at} lines, too many to print` : runs(orders.text(order).split("\n").slice(0, -1));
    place("size").textContent = wording.size(at, orders.switches(order, at));
    place("answer").textContent = orders.answer(order);
  }

  // The trace on a few lines, for paper: the same line again and again is told by its count.
  function runs(moves) {
    const told = [];
    for (const move of moves) {
      const last = told[told.length - 1];
      if (last && last.move === move) last.count += 1;
      else told.push({ move, count: 1 });
    }
    return told.map(({ move, count }) => count > 1 ? `${move} (${count} times)` : move).join("; ");
  }

  function showControls({ order, isPlaying, recorded }) {
    const last = order.moves.length, where = `state ${order.at} of ${last}`;
    Object.assign(place("slider"), { max: last, value: order.at });
    place("slider").setAttribute("aria-valuetext", where);
    place("where").textContent = where;
    showFirst(order.race ? order.race.state : -1, last);
    place("undo").disabled = place("restart").disabled = order.at === 0;
    place("redo").disabled = place("play").disabled = order.at === last;
    place("recorded").hidden = !recorded;
    place("stopped").textContent = recorded && recorded.refused ? stopped(recorded) : "";
    place("play-words").textContent = isPlaying ? "Stop" : "Play";
  }

  const stopped = ({ order, refused }) =>
    `Line ${order.moves.length + 1} of the recorded order cannot be done (${refused}): it is here as far as that.`;

  // Where the first race is on the slider.
  function showFirst(at, last) {
    place("first").hidden = at < 0 || last === 0;
    place("first").style.setProperty("--at", at / last);
    place("first").title = `the first race: state ${at}`;
  }

  return { all };
})();
