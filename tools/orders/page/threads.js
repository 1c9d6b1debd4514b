// One column a thread: what it does next and on which line, and a button for it, or why it has no step.
const threads = (() => {
  const { KEYS, button, key, make } = parts;
  const MOST_CALLS = 3; // told by name

  // A thread's own colour, for the look of an element.
  function coloured(desk, number, one) {
    const spawn = naming.spawnOf(desk.book, desk.known, number) % desk.colours.length;
    one.style.setProperty("--thread", desk.colours[spawn]);
    one.classList.add(desk.dark.includes(spawn) ? "on-dark" : "on-light");
    return one;
  }

  const called = (desk, number) => naming.thread(desk.book, desk.known, number);
  const chip = (desk, number, ...more) => coloured(desk, number, make("span", "chip", ...more, called(desk, number)));

  // What a step of a thread would do, in words; null if a replay has no room for it.
  function ahead(desk, number, choice) {
    const { after } = traces.done(desk.job, desk.state, number, choice);
    if (after === undefined) return null;
    const step = knowing.happened(desk.state, number, choice, after);
    return wording.does(desk.say, desk.book, knowing.learned(desk.known, step), step);
  }

  function cards(desk) {
    return desk.known.threads.map((_, number) => card(desk, number));
  }

  function card(desk, number) {
    const thread = machine.find(desk.state, number);
    const standing = thread ? machine.standing(desk.state, thread) : "joined";
    const races = desk.race !== null && desk.race.includes(number);
    return coloured(desk, number, make("article", `thread ${standing}${races ? " races" : ""}`,
      make("h3", "", key(KEYS[number]), make("span", "name", called(desk, number))),
      make("div", "next", inside(desk, thread, number, standing, races)),
      make("div", "moves", moves(desk, thread, number, standing))));
  }

  function inside(desk, thread, number, standing, races) {
    if (standing === "joined") return [make("p", "soft", "was joined")];
    if (standing === "done") return [make("p", "soft", "has finished")];
    const { next } = thread, { word, number: v } = desk.job.words[next.line - 2];
    const told = races ? about(desk, thread) : standing === "waits" ? why(desk, next)
      : standing === "odd" ? "has a value of the wrong kind" : next.word === "if" ? "has a choice"
      : ahead(desk, number, 0) ?? "would go past what racereplay holds";
    return [make("p", "about", told), calls(desk, thread),
      make("p", "source", make("code", "", `${word},${v}`), make("span", "line", naming.line(desk.book, next.line)))];
  }

  const about = (desk, thread) => wording.about(desk.say, desk.book, desk.known, desk.state, thread);

  // Who keeps a thread waiting.
  function why(desk, next) {
    const { name } = next.parts[0];
    const running = desk.state.threads.filter(one => one.identifier === name).map(one => one.number);
    const names = list => wording.listed(list.map(number => called(desk, number)));
    const who = (list, one, several) => `${names(list)} ${list.length > 1 ? several : one}`;
    const inside = desk.known.inside[name] || [], isIn = () => who(inside, "is in", "are in");
    return {
      lock: () => who([desk.known.takers[name]], "has taken it"),
      join: () => running.length ? who(running, "has not finished", "have not finished") : "no such thread is there",
      wait: () => "it counts 0", rdlock: isIn, wrlock: isIn, rdunlock: () => "nobody reads", wrunlock: () => "nobody writes",
    }[next.word]();
  }

  function calls(desk, thread) {
    const open = machine.openCalls(thread).reverse();
    if (open.length === 0) return null;
    const told = open.slice(-MOST_CALLS).map(call => `${naming.procedure(desk.book, call.number)} (${naming.line(desk.book, call.line)})`);
    const more = open.length > MOST_CALLS ? `${open.length} open calls, the latest ` : "";
    return make("p", "soft", `inside ${more}${told.join(", ")}`);
  }

  function moves(desk, thread, number, standing) {
    if (standing === "joined" || standing === "done") return [];
    if (standing !== "ready") return [greyed(number, about(desk, thread))];
    const choices = thread.next.word === "if" ? [0, 1] : [0];
    return choices.map(choice => mover(desk, thread, number, choice, choices.length === 1));
  }

  const greyed = (number, words) => Object.assign(button("move", null, words), { id: `move-${number}-0` });

  function mover(desk, thread, number, choice, alone) {
    const words = ahead(desk, number, choice);
    if (words === null) return greyed(number, "no room");
    const label = make("span", "", alone ? "Move" : words), shift = choice ? "⇧" : "";
    const one = button("move", () => desk.move(number, choice), label, key(`${shift}${KEYS[number]}`));
    one.id = `move-${number}-${choice}`;
    one.setAttribute("aria-label", `${called(desk, number)}: ${words}`);
    return one;
  }

  return { called, cards, chip, coloured };
})();
