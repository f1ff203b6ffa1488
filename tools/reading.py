"""A second reading of domains and problems, apart from the program, after docs/MANUAL.md alone.

fault_of(domain, problem) is the line that `ground` answers to two texts of which one is at fault, and None where both
are accepted. tools/hostile compares the program with it. Limits of the ground task are not looked at.
"""
import collections
import re

BLANKS, MOST_GROUPS, MOST_OBJECTS, MOST_VARIABLES, MOST_ATOMS = b" \t\r\n", 64, 4096, 16, 64
NO_PREDICATES = {"and", "or", "not", "imply", "when", "forall", "exists", "preference", "over", "="}
FEATURES = {"when": "conditional", "forall": "quantifier", "exists": "quantifier", "or": "disjunction",
            "imply": "disjunction", "preference": "preference",
            **dict.fromkeys(["<", "<=", ">", ">=", "increase", "decrease", "assign", "scale-up"], "numeric"),
            "scale-down": "numeric"}
COMPOUND = {"and", "or", "not", "imply", "when", "forall", "exists", "preference"}
SECTIONS = {":requirements", ":types", ":constants", ":predicates", ":functions"}
OTHER_SECTIONS = {":derived", ":constraints", ":process", ":event"}

Word = collections.namedtuple("Word", "text place")


class Fault(Exception):
    """A fault: a word and its byte, or the name of a limit."""

    def __init__(self, word, place=None):
        super().__init__(word)
        self.word, self.place = word, place

    def line(self, kind):
        return f"fault: limit {self.word}" if self.place is None else f"fault: {kind} byte {self.place}: {self.word}"


class Group:
    """A group, with its items and the bytes of its parentheses."""

    def __init__(self, place):
        self.place, self.items, self.end = place, [], None

    def begins(self):
        """The text of its first item, where that is a word."""
        return text_of(self.items[0]) if self.items else ""


class Items:
    """What is left of a group's items."""

    def __init__(self, group):
        self.group, self.at = group, 0

    def next(self):
        if self.at == len(self.group.items):
            raise Fault("shape", self.group.end)
        self.at += 1
        return self.group.items[self.at - 1]

    def peek(self):
        """The text of the next item, where that is a word."""
        return text_of(self.group.items[self.at]) if self.more() else ""

    def more(self):
        return self.at < len(self.group.items)

    def word(self, fits=lambda text: True):
        item = self.next()
        if not isinstance(item, Word) or not fits(item.text):
            raise Fault("shape", item.place)
        return item

    def group_of(self):
        item = self.next()
        if not isinstance(item, Group):
            raise Fault("shape", item.place)
        return item

    def takes(self, text):
        """Whether the next item is this word, which is then read."""
        is_it = self.peek() == text
        self.at += is_it
        return is_it

    def end(self):
        if self.more():
            raise Fault("shape", self.group.items[self.at].place)


def text_of(item):
    """The text of a word, and nothing for a group."""
    return item.text if isinstance(item, Word) else ""


def is_name(text):
    return text[0].isalpha()


def is_variable(text):
    return text[0] == "?" and len(text) > 1


def is_number(text):
    return re.fullmatch(r"\d+(\.0+)?", text) is not None


def within(text, least, most):
    """Whether a word is a number in a range."""
    return is_number(text) and least <= int(text.split(".")[0]) <= most


def is_term(text):
    return is_variable(text) or is_name(text)


def head(group):
    """A group's first item, which has to be a word, and what is left."""
    items = Items(group)
    return items.word(), items


# The parse.


def pieces(text):
    """Parentheses and words with their places, without comments; a byte that may not stand is a piece of its own."""
    for found in re.finditer(rb";[^\n]*|[()]|[!-'*-:<-~]+|[^ \t\r\n]", text):
        if not found[0].startswith(b";"):
            yield found[0], found.start()


def first_unclosed(text):
    """The place of the first opening parenthesis whose group is not closed."""
    groups = []
    for piece, place in pieces(text):
        if piece == b"(":
            groups.append(place)
        elif piece == b")" and groups:
            groups.pop()
    return groups[0] if groups else None


def parsed(text):
    """The items of a text, as a group that has the whole text in it."""
    groups, unclosed = [Group(-1)], first_unclosed(text)
    for piece, place in pieces(text):
        if unclosed is not None and place >= unclosed:
            raise Fault("unclosed", unclosed)
        if piece == b"(":
            if len(groups) > MOST_GROUPS:
                raise Fault("nesting")
            group = Group(place)
            groups[-1].items.append(group)
            groups.append(group)
        elif piece == b")":
            if len(groups) == 1:
                raise Fault("unopened", place)
            groups.pop().end = place
        elif re.fullmatch(rb"[!-~]+", piece):
            groups[-1].items.append(Word(piece.decode().lower(), place))
        else:
            raise Fault("bad-byte", place)
    groups[0].end = len(text)
    return groups[0]


# What is declared.


class Domain:
    """What a domain declares."""

    def __init__(self):
        self.name, self.parents, self.objects = "", {}, {}
        self.predicates, self.functions, self.actions, self.in_durations = {}, {}, set(), set()

    def is_below(self, kind, other):
        while kind != other and kind != "object":
            kind = self.parents.get(kind, "object")
        return kind == other


def typed(items, fits, enter, put, kind_of):
    """Reads runs of words, each ended by a dash and a type: enter takes a word, put a run with its type."""
    while items.more():
        run = []
        while items.more() and items.peek() != "-":
            word = items.word(fits)
            enter(word)
            run.append(word.text)
        if not items.more():
            return put(run, "object")
        dash = items.next()
        if not run:
            raise Fault("shape", dash.place)
        put(run, kind_of(items))
    return None


def kind_at(items):
    """The word of a type."""
    item = items.next()
    if isinstance(item, Group) and item.begins() == "either":
        raise Fault("feature either", item.place)
    if isinstance(item, Group) or not is_name(item.text):
        raise Fault("shape", item.place)
    return item


def declared(domain, table, fits, most, limit):
    """The functions that `typed` takes to enter words into a table, which has so many at most."""
    def enter(word):
        if word.text in table:
            raise Fault("twice", word.place)
        if len(table) == most:
            raise Fault(limit)
        table[word.text] = "object"

    def put(run, kind):
        table.update(dict.fromkeys(run, kind))

    def kind_of(items):
        kind = kind_at(items)
        if kind.text != "object" and kind.text not in domain.parents:
            raise Fault("name", kind.place)
        return kind.text
    return fits, enter, put, kind_of


def variables(domain, items):
    """The variables of a list, with their types."""
    table = {}
    typed(items, *declared(domain, table, is_variable, MOST_VARIABLES, "parameters"))
    return table


def types(domain, items, place):
    """Reads the section of types."""
    entries, above, circles = set(), {}, []

    def enter(word):
        if word.text in entries and word.text != "object":
            raise Fault("twice", word.place)
        entries.add(word.text)

    def put(run, kind):
        circles.extend(it for it in run if it == "object" != kind)
        above.update((it, kind) for it in run if it != "object")

    typed(items, is_name, enter, put, lambda rest: kind_at(rest).text)
    for kind in list(above.values()):
        if kind != "object":
            above.setdefault(kind, "object")
    for kind in above:
        for _ in range(len(above) + 1):
            kind = above.get(kind, "object")
        circles += [kind] * (kind != "object")
    if circles:
        raise Fault("type", place)
    domain.parents = above


def predicates(domain, items):
    while items.more():
        word, rest = head(items.group_of())
        if word.text in NO_PREDICATES:
            raise Fault("name", word.place)
        if not is_name(word.text):
            raise Fault("shape", word.place)
        if word.text in domain.predicates:
            raise Fault("twice", word.place)
        domain.predicates[word.text] = variables(domain, rest)


def functions(domain, items):
    while items.more():
        rest = Items(items.group_of())
        word = rest.word(is_name)
        if word.text in domain.functions:
            raise Fault("twice", word.place)
        domain.functions[word.text] = variables(domain, rest)
        if items.takes("-"):
            items.word(lambda text: text == "number")


# Atoms, conditions and effects.


class Place:
    """Where atoms stand: the domain, the variables (none in a problem), and how many atoms there are of each kind."""

    def __init__(self, domain, names=None):
        self.domain, self.names, self.counts, self.tagged = domain, names or {}, collections.Counter(), []

    def term(self, word):
        """The type of a term."""
        table = self.names if is_variable(word.text) else self.domain.objects
        if word.text not in table:
            raise Fault("name", word.place)
        return table[word.text]

    def terms(self, group, items, wanted):
        """Reads the terms of an atom or a function."""
        found = []
        while items.more():
            word = items.word(is_term)
            if len(found) == len(wanted):
                raise Fault("arity", group.place)
            if not self.domain.is_below(self.term(word), wanted[len(found)]):
                raise Fault("type", word.place)
            found.append(word.text)
        if len(found) < len(wanted):
            raise Fault("arity", group.place)
        return found

    def atom(self, group, kind=None):
        """Reads an atom, one more of its kind."""
        items = Items(group)
        word = items.word(is_name)
        self.counts[kind] += kind is not None
        if self.counts[kind] > MOST_ATOMS:
            raise Fault("list")
        if word.text not in self.domain.predicates:
            raise Fault("name", word.place)
        return (word.text, *self.terms(group, items, list(self.domain.predicates[word.text].values())))

    def function(self, group):
        """Reads a function with its terms."""
        items = Items(group)
        word = items.word(is_name)
        if word.text not in self.domain.functions:
            raise Fault("name", word.place)
        return (word.text, *self.terms(group, items, list(self.domain.functions[word.text].values())))


def opened(item):
    """A group that may be empty, with its first word and what is left; None where it is empty."""
    if not isinstance(item, Group):
        raise Fault("shape", item.place)
    if not item.items:
        return None
    word, items = head(item)
    if word.text in FEATURES:
        raise Fault(f"feature {FEATURES[word.text]}", item.place)
    return word, items


def condition(place, item, is_goal=False):
    found = opened(item)
    if not found:
        return
    word, items = found
    if word.text == "and":
        while items.more():
            condition(place, items.next(), is_goal)
    elif word.text == "not":
        inner = items.group_of()
        if inner.begins() in COMPOUND:
            raise Fault("feature negative", item.place)
        equality(place, inner, is_goal) if inner.begins() == "=" else place.atom(inner, "needs")
        items.end()
    elif word.text == "=":
        equality(place, item, is_goal)
    else:
        place.atom(item, None if is_goal else "needs")


def equality(place, group, is_goal):
    if is_goal:
        raise Fault("feature goal-equality", group.place)
    if any(isinstance(side, Group) for side in group.items[1:3]):
        raise Fault("feature numeric", group.place)
    _, items = head(group)
    for _ in range(2):
        place.term(items.word(is_term))
    items.end()


def effect(place, item, tag=None):
    found = opened(item)
    if not found:
        return
    word, items = found
    if word.text == "and":
        while items.more():
            effect(place, items.next(), tag)
    elif word.text == "not":
        note(place, place.atom(items.group_of(), "deletes"), False, tag)
        items.end()
    elif word.text == "=":
        raise Fault("shape", word.place)
    else:
        note(place, place.atom(item, "adds"), True, tag)


def note(place, atom, is_added, tag):
    """Notes an effect under a tag, and looks for an atom that is added at the start and deleted at the end."""
    if tag is None:
        return
    window = {("start", True), ("end", False)}
    for other, was_added, (when, where) in place.tagged:
        if other == atom and {(when, was_added), (tag[0], is_added)} == window:
            raise Fault("window", max(where, tag[1]))
    place.tagged.append((atom, is_added, tag))


def tagged(place, item, tags, inside):
    """Reads a condition or an effect of an action that lasts: each part has a tag."""
    found = opened(item)
    if not found:
        return
    word, items = found
    if word.text == "and":
        while items.more():
            tagged(place, items.next(), tags, inside)
    elif word.text in tags:
        when = items.word(lambda text: text in tags[word.text])
        inside(items.next(), (when.text, item.place))
        items.end()
    elif word.text == "=" and "over" in tags and any(isinstance(side, Group) for side in item.items[1:3]):
        raise Fault("feature numeric", item.place)
    else:
        raise Fault("shape", word.place)


# Actions, domains, problems.


def duration(place, group):
    if [text_of(it) for it in group.items[:2]] != ["=", "?duration"]:
        raise Fault("feature duration", group.place)
    items = Items(group)
    items.at = 2
    item = items.next()
    begins = item.text[0] if isinstance(item, Word) else item.begins()
    if isinstance(item, Word) and begins == "?" or isinstance(item, Group) and begins in ("+", "-", "*", "/"):
        raise Fault("feature duration", group.place)
    if isinstance(item, Group):
        place.domain.in_durations.add(place.function(item)[0])
    elif not within(item.text, 1, 100000):
        raise Fault("duration", item.place)
    items.end()


def action(domain, items, lasts):
    word = items.word(is_name)
    if word.text in domain.actions:
        raise Fault("twice", word.place)
    domain.actions.add(word.text)
    place = Place(domain, variables(domain, Items(items.group_of())) if items.takes(":parameters") else {})
    if lasts:
        items.word(lambda text: text == ":duration")
        duration(place, items.group_of())
    if items.takes(":condition" if lasts else ":precondition"):
        item, tags = items.next(), {"at": ("start", "end"), "over": ("all",)}
        tagged(place, item, tags, lambda its, tag: condition(place, its)) if lasts else condition(place, item)
    if items.takes(":effect"):
        item, tags = items.next(), {"at": ("start", "end")}
        tagged(place, item, tags, lambda its, tag: effect(place, its, tag)) if lasts else effect(place, item)
    items.end()


def entry(items, first, fits):
    """Reads the group at which a text or a section begins: a word, and one more."""
    rest = Items(items.group_of())
    rest.word(lambda text: text == first)
    word = rest.word(fits)
    return word, rest


def section(domain, group, word, items):
    """Reads a section of a domain."""
    if word.text == ":requirements":
        while items.more():
            items.word()
    elif word.text == ":types":
        types(domain, items, group.place)
    elif word.text == ":constants":
        typed(items, *declared(domain, domain.objects, is_name, MOST_OBJECTS, "objects"))
    elif word.text == ":predicates":
        predicates(domain, items)
    else:
        functions(domain, items)


def domain_of(text):
    """The domain of a text."""
    domain, whole, seen = Domain(), Items(parsed(text)), set()
    parts = Items(whole.group_of())
    parts.word(lambda it: it == "define")
    word, rest = entry(parts, "domain", is_name)
    domain.name = word.text
    rest.end()
    while parts.more():
        group = parts.group_of()
        word, items = head(group)
        if word.text in (":action", ":durative-action"):
            action(domain, items, word.text == ":durative-action")
        elif word.text in OTHER_SECTIONS and not domain.actions:
            raise Fault("feature section", group.place)
        elif word.text not in SECTIONS or domain.actions:
            raise Fault("shape", word.place)
        elif word.text in seen:
            raise Fault("twice", group.place)
        else:
            seen.add(word.text)
            section(domain, group, word, items)
    whole.end()
    return domain


def part(parts, *words):
    """The next section of a problem, which has to be one of these."""
    group = parts.group_of()
    word, items = head(group)
    if word.text in OTHER_SECTIONS or word.text == ":functions":
        raise Fault("feature section", group.place)
    if word.text not in words:
        raise Fault("shape", word.place)
    return word.text, group, items


def value(place, group, items, seen):
    """Reads the value of a function."""
    if not items.more() or items.peek():
        raise Fault("feature numeric", group.place)
    function = place.function(items.group_of())
    if function in seen:
        raise Fault("twice", group.place)
    seen.add(function)
    word, named = items.word(), function[0] in place.domain.in_durations
    if not (within(word.text, 1, 100000) if named else within(word.text, 0, 4294967295)):
        raise Fault("duration", word.place)
    items.end()


def initial(place, items):
    seen = set()
    while items.more():
        group = items.group_of()
        word, rest = head(group)
        if word.text == "not":
            raise Fault("feature negative", group.place)
        if word.text == "=":
            value(place, group, rest, seen)
        elif word.text == "at" and is_number(rest.peek() or "x"):
            raise Fault("feature timed", group.place)
        else:
            place.atom(group)


def metric(group):
    """Reads a metric."""
    texts = [text_of(it) or [text_of(its) for its in it.items] for it in group.items[1:]]
    if texts not in (["minimize", "total-time"], ["minimize", ["total-time"]]):
        raise Fault("feature metric", group.place)


def read_problem(text, domain):
    """Reads a problem over a domain."""
    whole, place = Items(parsed(text)), Place(domain)
    parts = Items(whole.group_of())
    parts.word(lambda it: it == "define")
    entry(parts, "problem", is_name)[1].end()
    _, _, items = part(parts, ":domain")
    word = items.word(is_name)
    if word.text != domain.name:
        raise Fault("other-domain", word.place)
    items.end()
    kinds = [":requirements", ":objects", ":init"]
    kind, _, items = part(parts, *kinds)
    while kind != ":init":
        if kind == ":objects":
            typed(items, *declared(domain, domain.objects, is_name, MOST_OBJECTS, "objects"))
        while items.more():
            items.word()
        kinds = kinds[kinds.index(kind) + 1:]
        kind, _, items = part(parts, *kinds)
    initial(place, items)
    _, _, items = part(parts, ":goal")
    condition(place, items.next(), True)
    items.end()
    if parts.more():
        metric(part(parts, ":metric")[1])
    parts.end()
    whole.end()


def fault_of(domain, problem):
    """The line of the first fault of two texts, if they have one."""
    kind = "domain"
    try:
        found = domain_of(domain)
        kind = "problem"
        read_problem(problem, found)
    except Fault as fault:
        return fault.line(kind)
    return None
