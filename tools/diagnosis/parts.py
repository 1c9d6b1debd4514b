"""A split sheet taken apart into its fields, so that one thing of it can be changed."""
from explanation.words import KINDS


class Parts:
    """A well-formed sheet, or one that is so save for after-maps left empty."""

    def __init__(self, split, procedures):
        lines = [line.text.decode("ascii").split(",") for line in split.lines]
        self.head = lines[0]
        first_map = 1 + int(self.head[3])
        first_signature = first_map + int(self.head[4])
        first_row = first_signature + procedures
        self.types, self.maps = lines[1:first_map], lines[first_map:first_signature]
        self.signatures, self.rows = lines[first_signature:first_row], lines[first_row:]

    def text(self):
        lines = [self.head, *self.types, *self.maps, *self.signatures, *self.rows]
        return "".join(",".join(line) + "\n" for line in lines).encode("ascii")

    def denominator(self):
        return int(self.head[1])

    def start(self):
        """The map that the job starts with: a C sheet names none and means map 0."""
        return list(map(int, self.maps[int(self.head[5]) if len(self.head) > 5 else 0]))

    # ---- Changes

    def name_start(self):
        """A C sheet becomes a C2 sheet, which names its start and can be filled."""
        if self.head[0] == "C":
            self.head = ["C2", *self.head[1:], "0"]

    def leave_maps_empty(self):
        self.name_start()
        self.rows = [[kind, "", last] for kind, _, last in self.rows]

    def divide_by(self, denominator):
        self.head[1] = str(denominator)

    def begin_with(self, numbers):
        """Has the job start with a new map."""
        self.name_start()
        self.head[5] = self.head[4]
        self.head[4] = str(int(self.head[4]) + 1)
        self.maps = [*self.maps, list(map(str, numbers))]

    def drop_spare_maps(self):
        """Leaves out the maps that nothing names, of a sheet whose after-maps are empty."""
        places = [(line, at) for line in self.types for at in self._map_fields(line)]
        places += [(line, at) for line in self.signatures for at in (0, 2)] + [(row, 2) for row in self.rows if row[2]]
        places.append((self.head, 5))
        used = sorted({int(line[at]) for line, at in places})
        for line, at in places:
            line[at] = str(used.index(int(line[at])))
        self.head[4], self.maps = str(len(used)), [self.maps[number] for number in used]

    def _map_fields(self, line):
        """Where a type line names maps. A lock line names its out in a C3 sheet alone."""
        fields = KINDS[line[0]].maps()
        if line[0] == "lock" and self.head[0] != "C3":
            fields = fields[:1]
        return [1 + KINDS[line[0]].fields.index(field) for field in fields]
