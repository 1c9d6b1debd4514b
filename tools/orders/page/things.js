// The cells with what they hold and who is about to touch them; locks, semaphores and read-write locks with who is in, who waits.
const things = (() => {
  const { make } = parts;

  function rows(desk) {
    const { cells, locks, sems, rwlocks } = desk.state;
    const told = [["Cells", cells, cell], ["Locks", locks, lock], ["Semaphores", sems, sem], ["Read-write locks", rwlocks, rwlock]]
      .filter(([, list]) => list.length > 0)
      .flatMap(([title, list, row]) =>
        [make("h3", "", title), make("div", "things", list.map((held, name) => row(desk, held, name)))]);
    return told.length ? told : [make("p", "soft", "Nothing has been made yet.")];
  }

  function row(desk, kind, name, look, holds, ...who) {
    const called = naming.thing(desk.book, desk.known, { kind, name });
    return make("div", `thing ${look}`, make("span", "name", called), make("span", "holds", holds), make("span", "who", ...who));
  }

  // The threads that are about to touch a cell: a ring reads, a disc writes.
  function cell(desk, value, name) {
    const touching = desk.state.threads.map(thread => ({ thread, ...machine.access(thread) }))
      .filter(one => one.cell === name);
    const clash = touching.length > 1 && touching.some(one => one.writes);
    const chips = touching.map(({ thread, writes }) => threads.chip(desk, thread.number,
      make("i", writes ? "writes" : "reads"), make("span", "unseen", `about to ${writes ? "write" : "read"}: `)));
    return row(desk, "cell", name, clash ? "clash" : "", make("b", "", naming.thing(desk.book, desk.known, value)), chips);
  }

  // Who waits for a thing, in words.
  function waiters(desk, kind, name) {
    const names = desk.state.threads.filter(thread => machine.standing(desk.state, thread) === "waits")
      .filter(({ next: { parts: [part] } }) => part.kind === kind && part.name === name)
      .map(thread => threads.called(desk, thread.number));
    return names.length ? make("span", "soft", `${wording.listed(names)} ${names.length > 1 ? "wait" : "waits"}`) : null;
  }

  function lock(desk, isOpen, name) {
    const taker = desk.known.takers[name];
    return row(desk, "lock", name, isOpen ? "" : "taken", isOpen ? "open" : "taken by",
      isOpen ? null : threads.chip(desk, taker), waiters(desk, "lock", name));
  }

  const sem = (desk, count, name) => row(desk, "sem", name, "", make("b", "", String(count)), waiters(desk, "sem", name));

  function rwlock(desk, { places, reading, writing }, name) {
    const holds = writing ? "writing" : reading ? `${reading} of ${places} reading`
      : `free, ${wording.counted(places, "reader")} at most`;
    const inside = writing || reading ? (desk.known.inside[name] || []).map(number => threads.chip(desk, number)) : [];
    return row(desk, "rwlock", name, writing || reading ? "taken" : "", holds, inside, waiters(desk, "rwlock", name));
  }

  return { rows };
})();
