"""Which form of the map has which call, by the headers, the Rust crate and the faces in Rattle, as a table of docs/USING.md.

tools/dev/make-pages writes the table, and tools/dev/try-facts compares it. A call that a form lacks needs a word that tells why, and
each public call is in a row, or in the list of calls that are a language's own.
"""
import functools
import re
import textwrap

from sources import files, named, text_of

FORMS = ("Map", "Frozen", "Shared", "Sharded", "Live")
LANGUAGES = ("C", "C++", "Rust", "Rattle")
# The forms that a language has.
HAS = {"C": FORMS, "C++": ("Map", "Shared", "Sharded", "Live"), "Rust": FORMS, "Rattle": ("Map", "Shared", "Sharded", "Live")}
THREADS = ("Shared", "Sharded", "Live")


# The sources.


def of_header(name, prefix):
    found = re.findall(r"(?m)^static inline .*?\b(congee_\w+)\(", text_of(f"include/{name}.h"))
    return {it.removeprefix(prefix) for it in found if it.startswith("congee_frozen_") == (prefix == "congee_frozen_")}


def of_class(name):
    """The public functions of a class of congee.hpp, with `constructor` for those that make a map, and `copy constructor`."""
    text = text_of("include/congee.hpp")
    body = re.search(rf"(?ms)^(?:template <class \w> )?class {name}(?: : public [^{{]*)? \{{$(.*?)^\}};$", text)[1]
    # (what is private, and the classes within)
    body = re.sub(r"(?ms)^    class \w+ \{$.*?^    \};$", "", body)
    public = re.split(r"(?m)^(?:private|protected):$", body)[0].partition("public:\n")[2]
    names = {*re.findall(r"(?m)^    (?![\s/*]|friend\b)(?:[^\n(]*?[\s*&~])?(\w+)\(", public)}
    makes = {"constructor"} if name in names else set()
    return names - {name} | makes | ({"copy constructor"} if f"{name}(const {name} &other)" in public else set())


def of_rust(file, *kinds):
    text, found = text_of(f"rust/src/{file}.rs"), set()
    for kind in kinds:
        for block in re.findall(rf"(?ms)^impl(?:<K: Word, V: Word>)? {kind}(?:<K, V>)? \{{$(.*?)^\}}$", text):
            block = re.sub(r"(?s)#\[deprecated\b[^\]]*\]\s*pub fn \w+", "", block)
            found |= {*re.findall(r"(?m)^    pub (?:const )?fn (\w+)", block)}
        if re.search(rf"(?m)^#\[derive\([^)]*\bClone\b[^)]*\)\]\npub struct {kind}\b", text):
            found.add("clone")
    return found


def of_face(crate, guard=None):
    """The calls of a face's `Congee` in Rattle, and the functions beside it. Those of its guards are in another crate."""
    found = set()
    for path in [f"crates/{crate}/src/typed_congee.rt", *files(f"crates/{crate}/src/typed_congee", ".rt")]:
        text = text_of(path)
        for block in re.findall(r"(?ms)^impl<[^{]*?> Congee<[^{]*?\{$(.*?)^\}$", text):
            found |= {*re.findall(r"(?m)^    pub fn (\w+)", block)}
        found |= {*re.findall(r"(?m)^pub fn (\w+)", text)}
    for path in files(f"crates/{guard}/src", ".rt") if guard else []:
        if "tests" not in path:
            found |= {*re.findall(r"(?m)^    pub fn (meet|note|learn)\(&mut self", text_of(path))}
    return {it for it in found if not it.startswith("law_")}


# The typed maps of Rust, and what each is over.
TYPED = (
    (("keyed/map", "OrdMap"), ("map", "Map")),
    (("keyed/shared", "OrdGuard"), ("shared", "Guard")),
    (("keyed/live", "OrdLiveGuard"), ("live", "LiveGuard")),
    (("keyed/shared", "OrdSharedMap"), ("shared", "SharedMap")),
    (("keyed/live", "OrdLiveMap"), ("live", "LiveMap")),
)
# The calls of numbers that typed maps lack, beside those of guards with `try_`: sums, pages of numbers, and readers.
UNTYPED = "add freeze read_range read_range_descending read_range_inclusive".split()


def untyped():
    """Which calls the typed maps lack."""
    for typed, of in TYPED:
        found = of_rust(*of) - of_rust(*typed) - {"clone"}
        yield from (it for it in found if not it.startswith("try_"))


@functools.cache
def sources():
    """For each language and form the calls that it has."""
    handles = of_class("handle") - {"constructor"}
    thaws = {"thaw"}
    shared = of_header("congee_shared", "congee_shared_")
    guard = of_rust("shared", "Guard", "SharedMap")
    return {
        ("C", "Map"): of_header("congee", "congee_") - thaws,
        ("C", "Frozen"): of_header("congee", "congee_frozen_") | thaws,
        ("C", "Shared"): shared - {"new_sharded"},
        ("C", "Sharded"): shared - {"new", "new_with_limit"},
        ("C", "Live"): of_header("congee_live", "congee_live_"),
        ("C++", "Map"): of_class("map"),
        ("C++", "Shared"): handles | of_class("shared_map") - {"sharded"},
        ("C++", "Sharded"): handles | {"sharded"},
        ("C++", "Live"): handles | of_class("live_map"),
        ("Rust", "Map"): of_rust("map", "Map"),
        ("Rust", "Frozen"): of_rust("frozen", "Frozen"),
        ("Rust", "Shared"): guard - {"sharded", "sharded_with_limit"},
        ("Rust", "Sharded"): guard - {"new", "with_limit"},
        ("Rust", "Live"): of_rust("live", "LiveGuard", "LiveMap"),
        ("Rattle", "Map"): of_face("face_typed"),
        ("Rattle", "Shared"): of_face("share_faces", "share_guards"),
        ("Rattle", "Sharded"): of_face("share_sharded", "share_calls"),
        ("Rattle", "Live"): of_face("live_faces"),
    }


# The rows: what a call is known by, and its name in each language. A name may differ by form.


def row(c, cpp="", rust="", rattle=""):
    """An empty name is that of C, and `-` is none."""
    names = {"C": c, "C++": cpp or c, "Rust": rust or c, "Rattle": rattle or c}
    return {of: {form: it.get(form, it.get("", "-")) if isinstance(it, dict) else it for form in FORMS} for of, it in names.items()}


ROWS = (
    row(
        {"": "new", "Sharded": "new_sharded"},
        {"": "constructor", "Sharded": "sharded"},
        {"": "new", "Sharded": "sharded"},
        "new",
    ),
    row(
        {"": "new_with_limit", "Sharded": "new_sharded"},
        {"": "constructor", "Map": "with_limit", "Sharded": "sharded"},
        {"": "with_limit", "Sharded": "sharded_with_limit"},
        {"": "new", "Live": "with_limit"},
    ),
    row("another", {"": "copy constructor", "Map": "-"}, {"": "pin", "Map": "-", "Frozen": "try_clone"}, {"": "pin", "Map": "-"}),
    row("get"),
    row("-", "contains", "contains_key", "-"),
    row("insert", "insert_or_assign"),
    row("remove", "take"),
    row("get_or_insert", "try_emplace"),
    row("-", "-", "insert_absent", "-"),
    row("-", "-", "get_or_insert_with", "-"),
    row("add", "fetch_add"),
    row("compute", "", "", "compute_or_insert"),
    row("compare_exchange"),
    row("compare_remove", "compare_erase", "", "compare_exchange"),
    row("first", {"": "first", "Map": "begin"}),
    row("last"),
    row("ceiling", {"": "ceiling", "Map": "lower_bound"}),
    row("above", {"": "above", "Map": "upper_bound"}),
    row("floor"),
    row("below"),
    row("pop_first"),
    row("pop_last"),
    row("pop_first_to"),
    row("pop_last_from"),
    row("range", "-", "read_range"),
    row("range_inclusive", "-", "read_range_inclusive"),
    row("range_descending", "-", "read_range_descending"),
    row("each", "", "range", {"": "-", "Map": "iter", "Live": "iter"}),
    row("each_descending", "", "range", {"": "-", "Live": "iter_descending"}),
    row("-", "keys", "keys", "keys"),
    row("-", "values", "values", "-"),
    row("insert_many", "insert", "extend"),
    row("remove_range_inclusive", "erase_range", "remove_range"),
    row("retain"),
    row("clear"),
    row("shrink_to_fit"),
    row("snapshot", {"": "snapshot", "Map": "copy"}, {"": "snapshot", "Map": "try_clone"}),
    row("snapshot_frozen", "-", "-", "-"),
    row("is_empty", "empty"),
    row("count", "size", "len", "value_count"),
    row("charged"),
    row("limit"),
    row("usage"),
    row("meet"),
    row("note"),
    row("learn"),
    row("freeze", "-", "", "-"),
    row("thaw", "-", "", "-"),
)

# Calls of a language alone, in no row. They are listed below the table.
OWN = {
    "C": "free note_free version",
    "C++": """at begin cbegin cend count emplace end equal_range erase find native swap try_insert_or_assign try_new""",
    "Rust": "clone iter into_keys into_values try_append try_clone try_extend try_from_iter try_split_off",
    "Rattle": """allocator compute_if_present drain extract_range extract_range_inclusive from_owned get_gated insert_counted
        insert_gated insert_numbers into_owned is_empty_recorded iter_range iter_range_descending iter_range_inclusive keys_recorded new_with_drainer pin_waiting range_descending_of
        range_inclusive_of range_of range_recorded range_recorded_of remove_counted remove_gated remove_range settle settle_recorded
        stats unpin value_count_recorded""",
}

# Names of what isn't a function.
PLAIN = ("constructor", "copy constructor")

# Why a call is missing: rows (by their first name), languages and forms, each `*` for all, and the word. The first that fits counts.
CHANGES = """new new_with_limit insert remove get_or_insert insert_absent get_or_insert_with add compute compare_exchange compare_remove pop_first
    pop_last pop_first_to pop_last_from insert_many remove_range_inclusive retain clear shrink_to_fit"""
WHY = (
    ("freeze", "C Rust", "Frozen", "frozen"),
    ("freeze", "C++", "Map", "native"),
    ("thaw", "*", "Map", "not frozen"),
    ("freeze thaw", "Rattle", "*", "lent"),
    ("freeze thaw", "*", "Shared Sharded Live", "`snapshot`"),
    (CHANGES, "*", "Frozen", "frozen"),
    ("another meet note learn", "*", "Map", "one owner"),
    ("meet note learn", "*", "Frozen", "frozen"),
    ("charged limit usage", "C", "Frozen", "no export"),
    ("contains_key", "C Rattle", "*", "`get`"),
    ("insert_absent", "Rattle", "Map Shared", "`compute_or_insert`"),
    ("insert_absent", "C Rattle", "*", "`get_or_insert`"),
    ("insert_absent", "C++", "*", "`try_emplace`"),
    ("get_or_insert_with", "C C++", "*", "`compute`"),
    ("get_or_insert_with", "Rattle", "Sharded", "`get_or_insert`"),
    ("get_or_insert_with", "Rattle", "*", "`compute_or_insert`"),
    ("get_or_insert add", "Rattle", "Map Shared", "`compute_or_insert`"),
    ("compute", "Rattle", "Sharded", "`compare_exchange`"),
    ("range range_inclusive", "C++", "*", "`each`"),
    ("range_descending", "C++", "*", "`each_descending`"),
    ("each", "Rattle", "Shared Sharded", "`range`"),
    ("each_descending", "Rattle", "*", "`range_descending`"),
    ("keys values", "C", "*", "`each`"),
    ("keys", "Rattle", "Sharded", "`range`"),
    ("values", "Rattle", "*", "`range`"),
    ("insert_many remove_range_inclusive clear", "Rattle", "Sharded", "loop"),
    ("retain", "Rattle", "Sharded", "loop"),
    ("pop_first_to", "Rattle", "*", "`first`"),
    ("pop_last_from", "Rattle", "*", "`last`"),
    ("shrink_to_fit", "*", "Shared Sharded", "by removals"),
    ("shrink_to_fit", "*", "Live", "segments"),
    ("snapshot_frozen", "C Rust", "Map", "`freeze`"),
    ("snapshot_frozen", "*", "Frozen", "frozen"),
    ("snapshot_frozen", "C++", "*", "native"),
    ("snapshot_frozen", "Rust", "*", "`snapshot`"),
    ("snapshot_frozen", "Rattle", "*", "lent"),
    ("snapshot", "Rattle", "*", "loop"),
    ("limit usage", "Rattle", "Map", "`allocator`"),
    ("limit usage", "Rattle", "Shared", "budget"),
    ("charged", "Rattle", "Shared", "`sharded`"),
    ("usage", "Rattle", "Sharded", "`charged`, `limit`"),
)
WORDS = {
    "a name": "the call to make in its place",
    "`sharded`": "`congee::sharded` with one shard has the call",
    "frozen": "nobody changes a frozen map",
    "not frozen": "only a frozen map can thaw",
    "one owner": "nobody else calls the map",
    "native": "`native()` lends the map of C, which has the call, and the calls with `try_`",
    "lent": "in Rattle threads read a map that is lent by `&`, so nothing is frozen",
    "loop": "a loop over the calls that are there",
    "no export": "the library has no such function yet",
    "budget": "the map has its budget to itself, and lends it to nobody",
    "by removals": "a removal does it, where three quarters are free",
    "segments": "the map keeps its segments",
}
WAITING = {
    "a name": "the call to make in its place, which doesn't wait",
    "never busy": "the call waits for nobody",
    "closure": "the call makes several calls, and calls your function in between",
    "many pairs": "a call that gives up may have changed some pairs, or read a part",
}
# Why a call for threads has no form with `try_`, as above.
WHY_WAITS = (
    ("another", "Rust", "*", "`try_clone`"),
    ("new new_with_limit another meet note learn", "*", "*", "never busy"),
    ("charged limit usage", "*", "Live", "never busy"),
    ("limit", "Rust Rattle", "*", "never busy"),
    ("*", "Rattle", "Shared", "`sharded`"),
    ("contains_key", "*", "*", "`try_get`"),
    ("get_or_insert_with", "*", "*", "closure"),
    ("each each_descending keys values insert_many remove_range_inclusive retain clear snapshot snapshot_frozen", "*", "*", "many pairs"),
)


def id_of(row_of_it):
    """What a row is known by: its name in C, or else in Rust."""
    for language in ("C", "Rust"):
        for form in FORMS:
            if row_of_it[language][form] != "-":
                return row_of_it[language][form]
    raise ValueError(row_of_it)


def fits(words, it):
    return words == "*" or it in words.split()


def word_for(name, language, form):
    """Why there is no such call, or None."""
    return next((it[3] for it in WHY if fits(it[0], name) and fits(it[1], language) and fits(it[2], form)), None)


def has(name, language, form, before=""):
    return name != "-" and before + name in sources()[language, form]


def cell(of, form):
    """The languages that have the call, with the word for those that lack it."""
    name = id_of(of)
    there = [it for it in LANGUAGES if form in HAS[it]]
    have = [it for it in there if has(of[it][form], it, form)]
    lack = {it: word_for(name, it, form) or "?" for it in there if it not in have}
    usual = usual_names(of)
    shown = [it if of[it][form] == usual[it] else f"{it} {shown_name(of[it][form])}" for it in have]
    if not lack and shown == have:
        return "all"
    return joined(shown, lack)


def joined(have, lack):
    """What languages have, and why others lack it."""
    words = [*dict.fromkeys(lack.values())]
    why = ", ".join(f"{' and '.join(it for it in lack if lack[it] == word)}: {word}" for word in words)
    if not have:
        return words[0] if len(words) == 1 else why
    return ", ".join(have) + (f" ({why})" if lack else "")


def shown_name(name):
    return name if name in PLAIN else f"`{name}`"


def usual_names(of):
    """The name of a call in each language, which most forms have."""
    found = {}
    for language in LANGUAGES:
        names = [of[language][form] for form in HAS[language] if of[language][form] != "-"]
        found[language] = max(names, key=names.count) if names else "-"
    return found


def call_of(of):
    """The first cell of a row: the name, and the names in other languages."""
    name, usual = id_of(of), usual_names(of)
    others = {}
    for language in LANGUAGES:
        if usual[language] not in ("-", name):
            others.setdefault(usual[language], []).append(language)
    names = ", ".join(f"{' and '.join(languages)} {shown_name(it)}" for it, languages in others.items())
    return f"`{name}` ({names})" if names else f"`{name}`"


def tries_of(of, form):
    """The languages in which a call for threads has a form with `try_`, with the word for those in which it has none."""
    name = id_of(of)
    there = [it for it in LANGUAGES if it != "C++" and has(of[it][form], it, form)]
    have = [it for it in there if has(of[it][form], it, form, "try_")]
    lack = {it: next((why[3] for why in WHY_WAITS if all(map(fits, why, (name, it, form)))), "?") for it in there if it not in have}
    return joined(have, lack)


def grouped(rows):
    """Rows of which all cells but the first are the same as one row, in the order of the first of them."""
    found = {}
    for first, *cells in rows:
        found.setdefault(tuple(cells), []).append(first)
    return [(", ".join(firsts), *cells) for cells, firsts in found.items()]


def lines(heads, rows):
    yield f"| {' | '.join(heads)} |\n"
    yield "|---" * len(heads) + "|\n"
    for it in rows:
        yield f"| {' | '.join(it)} |\n"


def table():
    """All of the section, from its first table on."""
    found = [*lines(("Call", *FORMS), grouped([(call_of(it), *(cell(it, form) for form in FORMS)) for it in ROWS]))]
    found.append("\nWhere a language or a form lacks a call, a word gives the reason:\n\n")
    found += [f"- *{word}*: {meaning}\n" for word, meaning in WORDS.items()]
    found.append("\nThese calls also have a form with `try_` before the name, which doesn't wait:\n\n")
    rows = [(f"`{id_of(it)}`", *(tries_of(it, form) for form in THREADS)) for it in ROWS]
    found += lines(("Call", *THREADS), grouped([it for it in rows if any(it[1:])]))
    found.append("\n")
    found += [f"- *{word}*: {meaning}\n" for word, meaning in WAITING.items()]
    found.append(f"\nThe typed maps of Rust (`keyed`) lack {', '.join(f'`{it}`' for it in UNTYPED)},\n")
    found.append("and their guards the calls with `try_`: `as_map`, `into_map` and `as_guard` lend or return what has them.\n")
    found.append("\nIn no row are calls that a language has for itself:\n\n")
    found += ["\n".join(textwrap.wrap(own(it), 116, subsequent_indent="  ", break_on_hyphens=False)) + "\n" for it in LANGUAGES]
    return "".join(found)


def own(language):
    return f"- {language}: {', '.join(f'`{it}`' for it in OWN[language].split())}"


# What is at fault.


def missing_words():
    for of in ROWS:
        for form in FORMS:
            for language in LANGUAGES:
                if form in HAS[language] and not has(of[language][form], language, form) and not word_for(id_of(of), language, form):
                    yield f"{id_of(of)} of {form} isn't there in {language}, and no word tells why"


def lost_names():
    """Words that name a call which the form hasn't either."""
    for of in ROWS:
        for form in FORMS:
            for language in LANGUAGES:
                is_missing = form in HAS[language] and not has(of[language][form], language, form)
                for name in named(word_for(id_of(of), language, form) or "") if is_missing else []:
                    if name != "sharded" and not has(name, language, form):
                        yield f"{id_of(of)} of {form} in {language} names {name}, which isn't there"


def idle_words():
    """Words for calls that are there."""
    for names, languages, forms, word in WHY:
        used = False
        for of in ROWS:
            for form in FORMS:
                for language in LANGUAGES:
                    fit = fits(names, id_of(of)) and fits(languages, language) and fits(forms, form) and form in HAS[language]
                    used = used or (fit and not has(of[language][form], language, form) and word_for(id_of(of), language, form) == word)
        if not used:
            yield f"{word} is the word for no call that is missing ({names[:40]})"
    known = {it[3] for it in WHY}
    yield from (f"{it} isn't explained" for it in sorted(known) if it not in WORDS and not named(it))


def unlisted():
    """Public calls in no row and in no list, and those of a list that aren't there."""
    for language in LANGUAGES:
        listed = {*OWN[language].split()}
        for form in HAS[language]:
            rows = {it[language][form] for it in ROWS}
            for name in sorted(sources()[language, form] - rows - listed):
                if name.removeprefix("try_") not in rows | listed - {"new"}:
                    yield f"{name} of {form} in {language} is in no row"
        there = set().union(*(sources()[language, form] for form in HAS[language]))
        yield from (f"{it} is listed for {language}, and isn't there" for it in sorted(listed - there))


def waiting_ones():
    """Calls for threads without `try_` for which no word tells why."""
    for of in ROWS:
        for form in THREADS:
            if "?" in tries_of(of, form):
                yield f"{id_of(of)} of {form} has no form with try_, and no word tells why"


def faults():
    yield "docs/USING.md, calls that are missing", [*missing_words(), *idle_words(), *lost_names()]
    yield "docs/USING.md, calls in no row", [*unlisted()]
    yield "docs/USING.md, calls without try_", [*waiting_ones()]
    yield "docs/USING.md, typed maps", [f"{it} is lacking on one side alone" for it in sorted({*untyped()} ^ {*UNTYPED})]
    yield "docs/USING.md, the table of calls", ["run tools/dev/make-pages"] * (table() not in text_of("docs/USING.md"))
