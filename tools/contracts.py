"""What the code says of its functions: who may call them, what they ask, what their contracts say, whom they call, and in which of them a place of a file stands.
For tests/promises. Every path is from the repository's root, at which the caller stands."""
import functools
import glob
import re
from typing import Dict, List, NamedTuple, Tuple

HEAD = re.compile(r"^( *)(pub )?(extern \"C\" )?fn (\w+)(?:<[^>]*>)?\(((?:[^()]|\([^()]*\))*)\)( ->(?:[^\n{;\[]|\[[^\n\]]*\])*)?(?:;| \{|$((?:(?!^\1\{|;$).)*?)(?:^\1\{|;$))", re.M | re.S)
CLAUSE = re.compile(r"(ensures|requires)(?: \w+)? \{((?:[^{}]|\{(?:[^{}]|\{[^{}]*\})*\})*)\}")  # it has a name if there are several of its kind; records stand in braces, too
LOGIC = re.compile(r"[∨∧→↔⊤⊥×⊎≡≢λ∀∃]")
RESULT = "result"
LIBRARY = ("length",)  # what a public contract may name beside definitions of the project
SIGNS = ("◌≡◌", "◌×◌", "◌≤◌", "◌<◌", "now", "old", "new", RESULT, *LIBRARY)  # what no file of code may take from the project: it would have another meaning


class Function(NamedTuple):
    path: str
    public: bool
    exported: bool
    asks: bool  # by `requires`, or by a type that holds a fact
    given: Dict[str, str]  # its parameters, each with its type
    answers: bool
    ensures: List[str]  # what stands in its clauses `ensures`; nothing of one that is not understood, which `strange` has
    strange: str  # what else stands in its contract
    calls: List[str]
    span: Tuple[int, int, int]  # in its file: where it starts, where its body does, where it ends


@functools.lru_cache(None)
def of_traits():
    """The functions of the project that are a trait's."""
    return {name for name in functions(sources()) if name.count("::") == 2}


def source(path):
    """The text of a file of code, with spaces for its comments: each place is that of the file."""
    text = open(path, encoding="utf-8").read()
    assert "/*" not in text, "%s: a comment that is not read here" % path
    return re.sub(r"//[^\n]*", lambda comment: " " * len(comment[0]), text)


def sources():
    return {path: source(path) for path in sorted(glob.glob("crates/*/src/**/*.rt", recursive=True))}


def crate_of(path):
    return path.split("/")[1]


@functools.lru_cache(None)
def own_crates():
    return set(re.findall(r"^(\w+)[^#:\n]*:", open("crates.txt", encoding="utf-8").read(), re.M))


@functools.lru_cache(None)
def cited(crate):
    """The crates that a crate cites, and theirs."""
    near = re.search(r"^%s(?: [^:\n]*)?:(.*)$" % crate, open("crates.txt", encoding="utf-8").read(), re.M)[1].split()
    return {*near, *(below for one in near for below in cited(one))}


# ---- Functions ---------------------------------------------------------------------------------------------------------------------


def parameters(text):
    """The parameters of a function by name, each with its type, without the commas that stand within a type; `self` has the type that its signs say."""
    parts = [part.strip() for part in re.split(r",(?![^<>]*>|[^()]*\))", text) if part.strip()]
    own = next((part for part in parts if re.fullmatch(r"(&('\w+ )?)?(mut )?self", part)), None)
    found = {"self": own.replace("self", "Self")} if own else {}
    found.update((name.strip().removeprefix("mut "), kind.strip()) for name, _, kind in (part.partition(":") for part in parts if part != own))
    return found


def heads(path, text):
    """The heads of the functions of a file, with the place after each one's closing brace."""
    found = []
    for head in HEAD.finditer(text):
        if head[0].endswith(";"):
            found.append((head, head.end()))  # a trait's, without a body
            continue
        end = re.compile(r"^%s\}$" % head[1], re.M).search(text, head.end())
        assert end, "%s: where %s ends is not understood" % (path, head[4])
        found.append((head, end.end()))
    assert len(found) == len(re.findall(r"\bfn \w", text)), "%s: a function whose head is not understood" % path
    return found


OWN = re.compile(r"^impl(?:<[^\n]*?>)? (\w+)(?:<[^\n]*>)? \{$.*?^\}", re.M | re.S)
STRUCT = re.compile(r"^pub struct (\w+)(?:<[^\n]*>)? \{$(.*?)^\}", re.M | re.S)
IMPL = re.compile(r"^impl(?:<[^\n]*?>)? ([^\n]*?) for ([^\n{]*?)(?:<[^\n]*>)? \{$(.*?)^\}", re.M | re.S)
TRAIT = re.compile(r"^pub trait [^\n]*\{$.*?^\}", re.M | re.S)
GIVES = re.compile(r"^    ghost from_gives = \{ λ (\w+) (\w+)\. (.*) \};$", re.M)  # the contract of `from`


def around(form, text, place):
    """What of this form stands around a place; None if nothing does."""
    return next((one for one in form.finditer(text) if one.start() <= place < one.end()), None)


def impl_around(text, place):
    """The name that the prover gives the `impl TRAIT for TYPE` around a place, as `ExitCodeFromStatus::`; nothing if there is none."""
    found = around(IMPL, text, place)
    return "".join(word[0].upper() + word[1:] for word in re.findall(r"\w+", found[2] + " " + found[1])) + "::" if found else ""


def with_facts(texts):
    """The types of the project that hold a fact, a `ghost` field, or a value of such a type: whoever gives one has shown it."""
    inside = {kind: fields for text in texts.values() for kind, fields in STRUCT.findall(text)}
    found = {kind for kind, fields in inside.items() if re.search(r"^    ghost ", fields, re.M)}
    while more := {kind for kind in inside.keys() - found if found & set(re.findall(r"\w+", inside[kind]))}:
        found |= more
    return found


def asked_by_type(text, place, given, held):
    """Whether a function at a place is given a value of a type that holds a fact."""
    own, of = around(OWN, text, place), around(IMPL, text, place)
    selves = {own[1]} if own else {re.match(r"\w+", of[2])[0]} if of else set()
    kinds = {word for kind in given.values() for word in re.findall(r"\w+", kind)} | (selves if "self" in given else set())
    return bool(kinds & held)


def public_by_trait(text, place):
    """Whether the function at a place is as public as a trait: one of a trait that is `pub`, or of an impl for a type that is, or that is not of this file."""
    found = around(IMPL, text, place)
    hidden = found and re.search(r"^(?!pub )[^\n]*\b(?:struct|enum) %s\b" % re.escape(found[2]), text, re.M)
    return bool(found and not hidden or around(TRAIT, text, place))


def given_by_impl(text, place, given):
    """What an impl of `From` says of the function at a place, as its `ensures`."""
    found = around(IMPL, text, place)
    for taken, made, said in GIVES.findall(found[3] if found else ""):
        yield re.sub(r"(?<![\w.])%s(?![\w'-])" % taken, next(iter(given)), re.sub(r"(?<![\w.])%s(?![\w'-])" % made, RESULT, said))


def functions(texts) -> Dict[str, Function]:
    """Every function of the code by its name, crate::name, and that of a trait by crate::impl::name."""
    found, held = {}, with_facts(texts)
    for path, text in texts.items():
        for head, end in heads(path, text):
            name, contract = "%s::%s%s" % (crate_of(path), impl_around(text, head.start()), head[4]), head[7] or ""
            assert name not in found, "%s: two functions %s" % (path, head[4])
            marked = re.search(r"#\[(?:unsafe\()?(no_mangle|export_name)[^\n]*\n(\s*#\[[^\n]*\n)*\s*\Z", text[: head.start()])
            ensures = [" ".join(said.split()) for word, said in CLAUSE.findall(contract) if word == "ensures"]
            strange = " ".join(CLAUSE.sub("", contract).split())
            span = (head.start(), head.end(), end)
            given = parameters(head[5])
            ensures += given_by_impl(text, head.start(), given)
            asks = "requires" in contract or asked_by_type(text, head.start(), given, held)
            found[name] = Function(path, bool(head[2]) or public_by_trait(text, head.start()), bool(head[3] or marked), asks, given, bool(head[6]), ensures, strange, [], span)
    for name, calls in called(texts, found).items():
        found[name].calls.extend(calls)
    return found


def brought(text):
    """The names that a file of code imports, each with its crate."""
    found = {last: path.split("::")[0] for path, last in re.findall(r"^use ((?:\w+::)*(\w+));", text, re.M)}
    found.update((last, crate) for crate, some in re.findall(r"^use (\w+)::(?:\w+::)*\{([^{}]*)\};", text, re.M) for last in re.findall(r"\w+", some))
    return found


def called(texts, found):
    """The functions of the project that each function calls: by its crate, a module of its own crate, a type that has it, a name that is imported, or as a method of a
    crate that stands below its own, one of a trait only if the file that calls names the type that has it; `into` calls each `from` of an impl for a type that it names, and a macro that writes calls `write`."""
    types, methods, made, of_type = {}, {}, {}, {}
    for name in found:
        if "self" in found[name].given:
            methods.setdefault(name.split("::")[-1], set()).add(name)
    for path, text in texts.items():
        for one in IMPL.finditer(text):
            inside = {name for name in found if found[name].path == path and one.start() <= found[name].span[0] < one.end()}
            made.setdefault(re.match(r"\w+", one[2])[0], set()).update(inside)
            of_type.update((name, re.match(r"\w+", one[2])[0]) for name in inside)
    for path, text in texts.items():
        for kind in re.findall(r"^impl(?:<[^\n]*?>)? (\w+)(?:<[^\n]*>)? \{", text, re.M):
            assert kind not in types, "%s: a second crate has functions of a type %s" % (path, kind)
            types[kind] = crate_of(path)
    crates, calls = {name.split("::")[0] for name in found}, {}
    for name, function in found.items():
        own, text = name.split("::")[0], texts[function.path]
        uses = brought(text)
        uses.update((other, crate) for crate, other in re.findall(r"^use (\w+) as (\w+);", text, re.M))
        calls[name] = set()
        near, named = {own, *cited(own)}, set(re.findall(r"\w+", text))
        whole, body = text[function.span[0] : function.span[2]], text[function.span[1] : function.span[2]]
        for dot, way, last in re.findall(r"(\.?)((?:\b\w+::)*)\b(\w+)(?:::<[^()]*?>)?\(", re.sub(r"\bwrite(ln)?!\(", ".write(", body)):
            of = way[:-2].split("::")[-1] or ("" if "%s::%s" % (own, last) in found else last)
            home = of if of in crates else types.get(of) or uses.get(of, own)
            if dot:
                others = {one for one in methods.get(last, ()) if one.split("::")[0] in near and (one not in of_type or of_type[one] in named)}
            else:
                others = {"%s::%s" % (own if home == "crate" else home, last)}
            kinds = re.findall(r"\w+", whole) if dot and last == "into" else [of]
            others |= {one for kind in kinds for one in made.get(kind, ()) if one.endswith("::from" if dot else "::" + last)}
            calls[name] |= others & set(found)
    return {name: sorted(others) for name, others in calls.items()}


def standing(code, texts, path, place):
    """The functions of its crate that a change at a place of a file is a change of, each with whether it is one of its head or contract: the function around it, or of a constant
    those that use it. Nothing if it is not known: a type, an import."""
    for name, function in code.items():
        start, body, end = function.span
        if function.path == path and start <= place < end:
            return {name: place < body}
    constants = re.finditer(r"^ *(?:pub )?(?:const|static) (\w+):.*?;$", texts[path], re.M | re.S)
    constant = next((one for one in constants if one.start() <= place < one.end()), None)
    found = {}
    for other in texts if constant else ():
        for use in re.finditer(r"^(?!use )[^\n]*?\b(%s)\b" % constant[1], texts[other], re.M) if crate_of(other) == crate_of(path) else ():
            if (other, use.start(1)) == (path, constant.start(1)):
                continue
            using = standing(code, texts, other, use.start(1))
            if not using:
                return {}
            found.update((name, head or found.get(name, False)) for name, head in using.items())
    return found


# ---- Contracts ---------------------------------------------------------------------------------------------------------------------


def lent(function):
    """The parameters whose bytes, entries, numbers or record a function may change."""
    return [name for name, kind in function.given.items() if re.match(r"&('\w+ )?mut ", kind)]


def parted(text, sign):
    """The parts of a text between the signs that stand in no parentheses."""
    parts, depth = [""], 0
    for word in re.findall(r"[()]|[^()\s]+|\s+", text):
        depth += {"(": 1, ")": -1}.get(word, 0)
        if word == sign and depth == 0:
            parts.append("")
        else:
            parts[-1] += word
    return [part.strip() for part in parts]


def factors(text):
    """The parts of a product, and theirs, without the parentheses around each."""
    parts = parted(text, "×")
    if len(parts) > 1:
        return [one for part in parts for one in factors(part)]
    inner = parts[0][1:-1]
    depths = [inner.count("(", 0, end) - inner.count(")", 0, end) for end in range(len(inner) + 1)]
    return factors(inner) if parts[0].startswith("(") and parts[0].endswith(")") and min(depths) == 0 else parts


def equations(function):
    """What a contract says of the answer, "", and of each lent parameter: the text after `≡`. Raises ValueError with the reason if it leaves anything of these open."""
    if not function.ensures or function.strange:
        raise ValueError("its contract is not made of `ensures` with a proposition each" + (": " + function.strange if function.strange else ""))
    sides = {RESULT: "", RESULT + ".now": ""}
    sides.update((name + ".new", name) for name in lent(function))
    found = {}
    for factor in (one for text in function.ensures for one in factors(text)):
        left, *right = parted(factor, "≡")
        if not right and re.fullmatch(r"%s [<≤] [^<≤]+" % RESULT, factor) and not LOGIC.search(factor):
            continue  # a bound of the answer beside its equation
        if len(right) != 1 or left not in sides or sides[left] in found:
            raise ValueError("`%s` is no equation of its answer or of what is lent, or a second one" % factor)
        if LOGIC.search(right[0]) or re.search(r"(?<![\w.])%s(?![\w'-])|\.new\b" % RESULT, right[0]):
            raise ValueError("what stands after `%s ≡` names the result, or is no value" % left)
        found[sides[left]] = right[0]
    missing = [name for name in ([""] if function.answers else []) + lent(function) if name not in found]
    if missing:
        raise ValueError("it has no equation for %s" % ", ".join(name or "its answer" for name in missing))
    return found


def still_open(function):
    """Why a contract leaves something open, or nothing."""
    try:
        equations(function)
    except ValueError as why:
        return str(why)
    return ""


def imports(text, word="ghost use"):
    """What the contracts of a file of code may name, or with the word `use` a file of antt, each with where it is declared: crate:Module.name, or crate::name if code
    declares it; nothing for a library's. Of a module that is imported as a whole the home ends with '.'."""
    found = {}
    for way, some, other in re.findall(r"^ *%s ([^;{\n]*?)(?:\.\{([^}]*)\}| as (\w+))?;?$" % word, text, re.M):
        home = re.fullmatch(r"Rattle\.(\w+)\.(?:specs|proofs)\.(.*)", way)
        home = home if home and home[1] in own_crates() else None
        module = way.split(".")[-1]
        if home and word == "ghost use":
            assert ".specs." in way and ("." not in home[2] or home[2].startswith("declared.")), "%s: a contract names only what stands in specs/ itself" % way
        start = "" if not home else "%s::" % home[1] if home[2].startswith("declared.") else "%s:%s." % (home[1], module)
        if not some:
            found[other or module] = start
        for name, _, renamed in (name.strip().partition(" as ") for name in some.split(",") if name):
            assert word == "use" or (renamed or name) not in found, "%s is imported twice by a file of code" % name
            assert word == "use" or not start or (renamed or name) not in SIGNS, "%s is not the library's in a file of code" % (renamed or name)
            found[renamed or name] = start and start + name
    return found


def home_in(word, known):
    """Where a word of antt is declared, by what is imported; nothing if it is not of the project."""
    first, _, last = word.partition(".")
    return known[first] + last if last and known.get(first, "").endswith(".") else not last and known.get(first, "") or ""


def defined(right, function, text):
    """The definitions that the right side of an equation names, and the words of it that are neither these nor parameters, fields, numbers or `length`."""
    known = imports(text)
    coded = brought(text)
    names, strange = set(), []
    held = {name: ".old" if re.match(r"&('\w+ )?mut ", kind) else ".now" if kind.startswith("&") else "" for name, kind in function.given.items()}
    for word in re.findall(r"[^\s()]+", right):
        first, _, last = word.partition(".")
        if word in LIBRARY or re.fullmatch(r"\d+|\.(?!now$|old$|new$)[\w-]+", word):
            continue
        if first in held and re.fullmatch(r"%s(\.(?!now\b|old\b|new\b)[\w-]+)*" % re.escape(first + held[first]), word):
            continue  # a parameter as it comes, or a field of it
        if home_in(word, known):
            names.add(home_in(word, known))
        elif last and first in coded:
            names.add("%s::%s" % (coded[first], last))
        else:
            strange.append(word)
    return names, strange
