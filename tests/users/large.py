"""Large jobs for the tools: as many threads and locations as a job and its split can have."""
import subprocess

THREADS = LOCATIONS = 16
WHOLES = [tuple(int(p == q) for p in range(LOCATIONS)) for q in range(LOCATIONS)]
ALL = (1,) * LOCATIONS


class Job:
    """A program sheet and a sheet for filling, line by line."""

    def __init__(self):
        self.steps, self.rows, self.types, self.maps = [], [], ["int,0,0"], [ALL]
        self.variables = {}

    def map(self, numbers):
        if numbers not in self.maps:
            self.maps.append(numbers)
        return self.maps.index(numbers)

    def step(self, word, number=0, kind="int,0,0", start=""):
        if kind not in self.types:
            self.types.append(kind)
        self.steps.append(f"{word},{number}")
        self.rows.append(f"{self.types.index(kind)},,{start}")

    def let(self, name, kind="int,0,0"):
        """What follows is called so."""
        self.variables[name] = len(self.variables), kind
        self.step("let", self.variables[name][0])

    def var(self, name):
        self.step("var", *self.variables[name])

    def put_into(self, folder):
        folder.mkdir()
        (folder / "program.txt").write_text("\n".join([f"P,{len(self.steps)}", *self.steps, ""]))
        maps = [",".join(map(str, numbers)) for numbers in self.maps]
        head = f"C2,1,{LOCATIONS},{len(self.types)},{len(self.maps)},0"
        (folder / "split.txt").write_text("\n".join([head, *self.types, *maps, *self.rows, ""]))
        names = [f"location,{p},canister {p}" for p in range(LOCATIONS)] + [f"thread,{p},pump {p}" for p in range(1, THREADS)]
        names += [f"variable,{number},{name}" for name, (number, _) in self.variables.items()]
        (folder / "names.txt").write_text("\n".join([*names, "thread,0,main", ""]))
        return folder


def pumps(joined=THREADS - 1):
    """15 pumps are started, each with the whole of a canister of its own, which it writes; so many are joined, the last canister
    is read, and the first is written. Without the last join the read has no right."""
    job = Job()
    for number in range(LOCATIONS):
        job.let(f"canister {number}", f"ref,{number},0")
        job.step("ref", 0, f"ref,{number},0")
        job.step("int", 0)
    for number in range(1, THREADS):
        kind = f"tid,{job.map(WHOLES[number])},0"
        job.let(f"pumping {number}", kind)
        job.step("newtid", 0, kind)
    for number in range(1, THREADS):
        job.let(f"started {number}")
        job.step("spawn", 0, start=job.map(WHOLES[number]))
        job.var(f"pumping {number}")
        job.step("write")
        job.var(f"canister {number}")
        job.step("int", 1)
    for number in range(1, joined + 1):
        job.let(f"joined {number}")
        job.step("join")
        job.var(f"pumping {number}")
    job.let("last")
    job.step("read")
    job.var(f"canister {LOCATIONS - 1}")
    job.step("write")
    job.var("canister 0")
    job.step("int", 1)
    return job


def filled(folder, racefill):
    """The folder, once racefill has filled its split."""
    done = subprocess.run([racefill], cwd=folder, stdin=subprocess.DEVNULL, capture_output=True)
    (folder / "split.txt").write_bytes(done.stdout)
    return folder
