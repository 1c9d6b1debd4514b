// Steps in words. The sentences are those of tools/interpreter/wording.py, handed over as `say`; in braces are facts to put in.
const wording = (() => {
  const filled = (sentence, facts) => sentence.replace(/\{(\w+)\}/g, (_, fact) => facts[fact]());

  // What a step does. `known` has what was learned by it too.
  function does(say, book, known, one) {
    const { word, parts, loop } = one.next;
    const facts = {
      thing: () => naming.thing(book, known, parts[0]),
      argument: () => naming.thing(book, known, parts[0]),
      value: () => naming.thing(book, known, parts[1]),
      procedure: () => naming.procedure(book, one.next.number),
      started: () => naming.thread(book, known, one.before.spawned),
      joined: () => naming.thread(book, known, knowing.joined(one)),
      made: () => naming.thing(book, known, knowing.made(one)),
      held: () => naming.thing(book, known, one.before.cells[parts[0].name]),
      count: () => one.after.sems[parts[0].name],
      line: () => parts[word === "let" ? 1 : one.choice].line,
      variable: () => naming.variable(book, one.next.number),
    };
    if (word === "while" || word === "let" && loop) return say.ON_A_LOOP[word];
    if (word === "let") return filled(binds(book, known, one.next) ? say.BINDS + say.TO_LINE : say.TO_LINE, facts);
    if (word === "if") return loop ? say.OF_A_LOOP[one.choice] : filled(say.TO_LINE, facts);
    if (word in machine.MAKES) return filled(word === "ref" ? say.MAKES_A_CELL : say.MAKES_A_THING, facts);
    return filled(say.DOES[word], facts);
  }

  // Whether a let is worth telling: its variable is used, and the thing is not called by it already.
  function binds(book, known, { number, parts: [{ kind, name }] }) {
    return book.used.has(number) && (kind === "int" || book.bound.get(known.made[kind][name]) !== number);
  }

  // What a thread that has not finished is about to do, or why it has no step.
  function about(say, book, known, state, thread) {
    const { word, parts } = thread.next, standing = machine.standing(state, thread);
    const facts = {
      word: () => word, noun: () => book.nouns[parts[0].kind], thing: () => naming.thing(book, known, parts[0]),
      value: () => naming.thing(book, known, parts[1]),
    };
    if (standing === "odd") return filled(say.STUCK, facts);
    if (standing === "waits") return filled(say.WAITING[word], facts);
    return filled(say.ABOUT[word] ?? say.GOES_ON, facts);
  }

  // Whether a step only goes on, so that nobody else sees it.
  const isQuiet = next => next !== undefined && (next.word === "let" || next.word === "while");

  const capital = words => words.slice(0, 1).toUpperCase() + words.slice(1);
  const counted = (number, what) => `${number} ${what}${number === 1 ? "" : what.endsWith("ch") ? "es" : "s"}`;
  const size = (steps, switches) => `${counted(steps, "step")}, ${counted(switches, "switch")} of thread`;
  const listed = names => names.length < 2 ? names.join("") : `${names.slice(0, -1).join(", ")} and ${names[names.length - 1]}`;

  return { about, capital, counted, does, isQuiet, listed, size };
})();
