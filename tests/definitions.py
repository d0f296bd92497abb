"""What the definitions and contracts below crates/ say, as far as tests hold pages against it: limits, statuses, the
refusals of each service in their order, types, faults, levels and chances, and the names of clauses."""
import math
import pathlib
import re

CRATES = pathlib.Path(__file__).resolve().parent.parent / "crates"
SIGNATURE = re.compile(r"^(?:unfoldable|abbrev) pub (\w+) : (.*)$")
FUNCTION = re.compile(r"\bfn (\w+)")
CLAUSE = re.compile(r"^\s*(ensures|requires)\*? ?(\w*) \{")
OWNER = re.compile(r"^(?:impl(?:<.*?>)? (?:\w+(?:<.*?>)? for )?|pub trait )(\w+)")
# A row that is looked for by the name that a handle has. It stands, as a law says, so this refuses nothing.
STANDING_ROW = re.compile(r"found_or \((?:port_row|section_row|token_row|first \(is_born_(?:thread|process)) [^\n]*")
# How the name space is walked: what each of its calls refuses, in order. `walk` is met from the root on.
FORM = ["PathSyntax", "NameInvalid"]
WALK = [*FORM, "PathNotFound", "NameInvalid"]
# The lines about the server on a thread, which the machine answers by whether there is one.
RESIDENT_LINES = {"resident": "hosting_status", "turn": "idle_entry"}
NAME_CALLS = {
    "spelled": FORM,
    "free_path": [*WALK, "Collision"],
    "lookup": [*WALK, "NameNotFound"],
}


def text_of(crate, folder, ending):
    """The files of a crate's folder, one behind the other."""
    files = sorted((CRATES / crate / folder).rglob(f"*.{ending}"))
    return "\n".join(it.read_text(encoding="utf-8") for it in files)


def profile():
    """The limits by their names, and the numbers of the statuses, 8 capital hexadecimal digits, by theirs."""
    text = text_of("lpc_base", "specs", "antt")
    statuses = re.findall(r"^  pub \w+ : (\w+)\.0 ≡ 0x([0-9A-F_]+)$", text, re.M)
    return numbers_of("lpc_base"), {name: it.replace("_", "") for name, it in statuses}


def numbers_of(crate):
    """The numbers behind the names of a crate's profile."""
    text = text_of(crate, "specs", "antt")
    limits = re.findall(r"^  pub \w+ : (\w+) ≡ (0x[0-9A-F_]+|[\d_]+(?: \* [\d_]+)*)$", text, re.M)
    return {name: math.prod(int(factor, 0) for factor in it.split(" * ")) for name, it in limits}


def bodies(crate):
    """The definitions of a crate by their names: of each its type, and the text behind that."""
    found, name = {}, None
    for line in text_of(crate, "specs", "antt").splitlines():
        head = SIGNATURE.match(line)
        if head:
            name = head[1]
            found[name] = (head[2], [])
        elif name and line and not line.startswith(("--", "use ", "pub ", "module ")):
            found[name][1].append(line)
        elif not line:
            name = None
    return {it: (head, "\n".join(lines)) for it, (head, lines) in found.items()}


class Refusals:
    """The statuses that definitions refuse with, in the order of their tests."""

    def __init__(self):
        self.statuses = profile()[1]
        self.bodies = bodies("lpc_model")
        faults = re.findall(r"^status_of (\w+) = (\w+)$", text_of("lpc_names", "specs", "antt"), re.M)
        self.faults = {fault: self.statuses[name] for fault, name in faults}

    def of(self, name):
        """Those of a definition, by their numbers; each that stands again behind itself once."""
        found = []
        for word in re.findall(r"[\w.]+", STANDING_ROW.sub("", self.bodies[name][1])):
            if word in NAME_CALLS:
                found += [self.faults[it] for it in NAME_CALLS[word]]
            elif word in self.statuses and word != "SUCCESS":
                found.append(self.statuses[word])
            elif word != name and self._refuses(word):
                found += self.of(word)
        return once(found)

    def _refuses(self, word):
        """Whether a word is a definition that may refuse: what it gives has statuses."""
        return re.search(r"\bResult\b.* Status$", self.bodies.get(word, ("",))[0]) is not None

    def used(self):
        """The numbers of all statuses that a definition of the model names, and those of the name space's faults."""
        words = set(re.findall(r"\w+", "\n".join(text for _, text in self.bodies.values())))
        return {self.statuses[it] for it in words & set(self.statuses)} | set(self.faults.values())


def message_types():
    """The numbers of the types of messages by their names, `PORT_CLOSED`, and the names of those that the model has, in
    the order of their numbers."""
    numbers = numbers_of("lpc_message")
    words = set(re.findall(r"\w+", "\n".join(text for _, text in bodies("lpc_model").values())))
    return numbers, sorted(words & set(numbers), key=numbers.get)


def fault_kinds():
    """The numbers of the kinds of faults by their names, `Long`."""
    found = re.findall(r"^kind_number fault\.(\w+) = (\d+)$", text_of("lpc_model", "specs", "antt"), re.M)
    return {name: int(number) for name, number in found}


class Levels:
    """The levels at which a server may act as its client, by their names, and what the definitions make of them."""

    def __init__(self):
        found = re.findall(r"^pub const (\w+): Level = (\d+);$", text_of("lpc_tokens", "src", "rt"), re.M)
        self.numbers = {name: int(number) for name, number in found}
        self.words, self.statuses = text_of("lpc_model", "specs", "antt"), profile()[1]
        tokens = text_of("lpc_tokens", "specs", "antt")
        own = re.search(r"^counts_as token = unwrap_or token\.level (\w+)$", tokens, re.M)
        self.of_processes, self.most = self.numbers[own[1]], self._named(r"nat_lt (\w+) level\) fault")[0]
        # As which level one can't be known, and below which one connects nowhere, with what is answered.
        self.unknown, self.unknown_status = self._named(r"own\.level == (\w+)\) (\w+)$")
        self.connecting, self.connecting_status = self._named(r"nat_lt \(counts_as .*\) (\w+)\) (\w+)$")
        default = re.search(r"^default_quality = record { level = (\w+); tracking = (\w+) }$", self.words, re.M)
        self.default, self.tracking = self.numbers[default[1]], default[2].lower()

    def _named(self, pattern):
        """The level that a definition names, and the status where it names one."""
        level, *status = re.search(pattern, self.words, re.M).groups()
        return self.numbers[level], *(self.statuses[it] for it in status)


class Chances:
    """The chances of an exception: their order, and of each its port and what its event shows."""

    def __init__(self):
        self.bodies, self.types = bodies("lpc_model"), numbers_of("lpc_message")
        start = re.search(r"\((from_\w+) ", self.bodies["raise_exception"][1])[1]
        # In between the word of the frame handlers, `Handled`.
        self.order = self._from(start)
        behind = re.findall(r"^behind_chance w pid handled (\w+) = (\w+)", self.bodies["behind_chance"][1], re.M)
        self.behind = {chance: self._from(name) for chance, name in behind}

    def _from(self, name):
        """What comes from a definition on, until nothing handles the exception."""
        if name not in self.bodies:
            return []
        pattern = r"(?:hearing_at w pid|if handled then) (\w+)\W+(?:else )?(\w+)"
        first, then = re.search(pattern, self.bodies[name][1]).groups()
        return [first, *self._from(then)]

    def _case(self, name, chance):
        """What a definition by cases gives for a chance."""
        cases = dict(re.findall(r"^  \| (\w+) ↦ ([\w.]+)$", self.bodies[name][1], re.M))
        return cases.get(chance, cases["_"])

    def port(self, chance):
        """The port that is asked, as `debug port`."""
        return self._case("event_port", chance).removeprefix("p.").replace("_", " ")

    def event(self, chance):
        """The type of the event, and the number of the chance in it."""
        return self.types[self._case("event_kind", chance)], int(self._case("chance_number", chance))


def once(found):
    """A list without what stands again right behind itself."""
    return [it for at, it in enumerate(found) if at == 0 or found[at - 1] != it]


def services():
    """The definition of each call by the call's name, `NtClose`, and of each directive by its word."""
    text = text_of("lpc_model", "specs", "antt")
    calls = re.findall(r"^service_of w by \(?[\w ]+\)? =\s+(\w+) w by", text, re.M)
    lines = re.findall(r"^own_steps \((\w+) [\w ]+\) w = directed word\.\w+ \((\w+) w ", text, re.M)
    return {camel(it): it for it in calls}, dict(lines) | RESIDENT_LINES


def camel(name):
    """A service's name as a script spells it: as Windows NT does, but for a raise."""
    return "raise" if name == "raise_exception" else "".join(it.capitalize() for it in name.split("_"))


def contracts(crate):
    """The clauses that each function of a crate promises, by its name: `read`, and with its type `MemSource::read`."""
    return {name: {it for word, it in found if word == "ensures" and it} for name, found in clauses(crate).items()}


def clauses(crate):
    """What each function of a crate promises and asks, by its name as above: each clause with its word, `ensures` or
    `requires`, and its name, which is empty for one clause alone."""
    found = {}
    for file in sorted((CRATES / crate / "src").rglob("*.rt")):
        owner, names = "", []
        for line in file.read_text(encoding="utf-8").splitlines():
            head, of = FUNCTION.search(line.split("//")[0]), OWNER.match(line)
            if of:
                owner = of[1]
            elif line.startswith("}"):
                owner = ""
            if head and "ensures" not in line:
                names = [head[1], f"{owner}::{head[1]}"]
                for name in names:
                    found.setdefault(name, set())
            clause = CLAUSE.match(line)
            for name in names if clause else []:
                found[name].add(clause.groups())
    return found
