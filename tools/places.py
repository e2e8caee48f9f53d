#!/usr/bin/env python3
"""Counts, by text, the places of crates/*/src and crates/*/proofs that stand in an older form of the language (docs/DESIGN-PASS.md).

usage: python3 tools/places.py [POINT] [-v]    at the top of the repository; POINT is 1 to 8; -v prints each place as `crate file:line: text`
A row in brackets is shown and not counted. The lists of names are from reading: a name that is gone counts 0, and a new one has to be added;
a name without a crate is of the crate before it.
"""

import collections, glob, itertools, re, sys

Fn = collections.namedtuple("Fn", "crate path line name params result clauses start end text")
SOURCES = {p: re.sub(r"[ \t]*//.*", "", open(p).read()) for p in sorted(glob.glob("crates/*/src/**/*.rt", recursive=True))}
PROOFS = {p: open(p).read() for p in sorted(glob.glob("crates/*/proofs/**/*.antt", recursive=True))}
depths = lambda text, opens, closes: itertools.accumulate((ch in opens) - (ch in closes) for ch in text)
NEITHER = "Choice"  # an enum that is neither an Option nor a Result: a choice of three rules
TWINS = """records::get0 get1 get2 get3; words::word index; branches::load_p load_q; changes::remove_p remove_q; puts::put_p put_q; turns::drop list
stored::skip finding::contains heads::has_zero has_one highest_leader search::pivot_place other_from chains::write_heads
checking::check_terms reading::check_heads systems::check_triangle check_systems extent::chain_last
evaluation::value_at all_match lists::first_solved loading::load_head put_heads; terms::leader heads::leader_at systems::leader_at
gathering_apart::gather_apart gather_large; scratch::run_short run_long; rounds::round_apart polynomial_jobs::round; moves::move_up move_down
sums::difference division::subtract_row; monomials::packed stored::monomial; moves::clear elimination_job::fill; polynomials::copy polynomial_jobs::copy
branches::is_one heads::one_at; forms::equal finding::equal_at; points::try_table lists::try_list; lines::put_line print_line
numbers::reading_line trial_line place_line; elimination_job::head_of elimination_bench::outcome_number responses::put_answer
table_jobs::print tries::print elimination_job::print; elimination_job::shorter elimination_bench::least
table_jobs::run_jobs elimination_jobs::run_jobs elimination_bench::run_jobs tries::run_all; elimination_jobs::run_job elimination_bench::run_job
table_jobs::main elimination_jobs::main elimination_bench::main"""
TWIN_TYPES = "Checked ReadOutcome TrialOutcome PlaceOutcome Counted Outcome; Word Filled Words Job; Formed Gathered; Reading Trial Placing"
ORDER = "monomials::at_most elimination_job::shorter elimination_bench::least at_least_one batches_of branches::count_records"
COPY = "polynomials::copy polynomial_jobs::copy records::copy moves::move_up move_down append_block clear storing::append_block elimination_job::fill"
CONVERT = """numbers::number accepted refused reading_line trial_line place_line decoding::from_bytes word_at decode words::index input::size
monomials::packed stored::monomial elimination_job::head_of elimination_bench::outcome_number polynomial_jobs::truth"""
PRINT = """lines::put_byte put_digits put_number put_line print_line responses::put_records put_answer table_jobs::print tries::print
elimination_job::print elimination_bench::print polynomial_jobs::line number polynomial terms formed refusal"""
TOGETHER = """table p n; table p point; table work output; reader bytes from; reader buffer input; text end; out tag; w at k; w place; p q t; p f g
p k d; i t r; r n; x z"""


def places():
    """Each row: its point, what it counts, and the places."""
    enums = [x for x in grep(r"^(pub )?enum \w+ \{\n.*\n.*,\n[^}]*\}") if name(x) not in NEITHER and re.search(r"enum %s \{[^}]*\(" % name(x), SOURCES[x[1]])]
    structs = [x for e in enums for x in grep(r"^(pub )?struct \w+ \{\s*(pub )?\w+: %s,\s*\}" % name(e))]
    room = where(lambda f: f.result == "bool" and any("&mut" in t for _, t in f.params))
    yield 1, "enums of the shape of Option or Result", enums
    yield 1, "structs that only wrap one", structs
    yield 1, "functions that answer one", where(lambda f: set(re.findall(r"\w+", f.result)) & set(map(name, enums + structs)))
    yield 1, "functions that change a lent buffer and answer whether there was room, a bool", room
    yield 1, "refusals and ends handed on by hand", grep(
        r"^ *(if let \w+::Refused\(|let \w+::\w+(\(.*\))? = .* else \{|(Formed|Gathered|Counted)::\w+.* => (return )?[A-Z]\w+::|Formed::\w+ => \{\n *break"
        r"|Prepared::(Stop|Crowded).* => \{|Next::Astray => |Turn::End\(\w+\) => |if !?(\w+::)?(%s)\()" % ("|".join(map(name, room)) or "-"))
    yield 1, "numbers for none", named("terms::leader monomials::highest heads::leader_at highest_leader systems::leader_at search::rank_at"
        " lists::first_solved extent::chain_last elimination_bench::now")
    yield 1, "bools and numbers for kinds", grep(r"^ *pub \w+: bool,$|^ *let mut \w+ = false;") + [
        (*f[:3], "%s of %s" % (n, f.name)) for f in FNS for n, t in f.params if t == "bool" and n != "b" or n in ("kind", "reason") and t in ("u32", "u64")]
    yield 1, "refusals as numbers", named("numbers::number elimination_bench::outcome_number polynomial_jobs::refusal") + grep(
        r"^ *pub outcome: u32|^ *outcome: 0,|Line \{ outcome: 0|refusal\(out, tag, \d+\)|= \[[01], (0|answer)")
    yield 2, "functions that have a twin", twins(TWINS, named)
    yield 2, "types that have a twin (at point 1 too)", twins(TWIN_TYPES, lambda g: grep(r"^(pub )?(enum|struct) (%s)\b(?!<)" % "|".join(g.split())))
    yield 2, "statements written again for each constant", grep(r"if p % (\d|d|\(d \+ \d+\)) == 0|= montgomery::multiply_reduced")
    loops = list(all_loops())
    yield 3, "loops that count an index", [x for kind, x in loops if kind == "counts"]
    yield 3, "loops that walk along a chain or from head to head", [x for kind, x in loops if kind == "walks"]
    yield 3, "[other loops: of numbers, reads, rounds, the run]", [x for kind, x in loops if kind == "other"]
    yield 4, "equality", named("forms::equal finding::equal_at branches::is_one heads::one_at") + grep(r"i\[0\] == 1 && i\[1\] == 0")
    yield 4, "order: the lesser, the greatest, the least", named(ORDER) + grep(r"^ *if (\w+) < (\w+) \{\n(\s+\w+ = \w+;\n)?\s+(\1 = \2|\2 = \1);")
    yield 4, "copying and filling: functions, and calls of the copy", named(COPY) + grep(r"polynomials::copy\(")
    yield 4, "conversion", named(CONVERT) + grep(r"4294967296\) as u32|refusal\(out, tag, \d+\)")
    yield 4, "printing", [x for x in named(PRINT) if "operands" not in x[1]]
    yield 4, "[lines with casts by `as`]", grep(r"^.* as ([ui]\d|usize).*$")
    stands = collections.defaultdict(set)
    for f, fact in ((f, fact) for f in FNS for c in f.clauses for fact in facts(c)):
        stands[fact].add((*f[:3], "%s: %s" % (f.name, fact)))
    often = [at for at in stands.values() if len(at) > 2]
    yield 5, "%d facts that stand in the contracts of three functions or more, once for each such function" % len(often), set().union(*often)
    for g in re.split("[;\n]", TOGETHER):
        yield 5, "functions with the parameters " + g.strip(), where(lambda f: set(g.split()) <= set(dict(f.params)))
    lent = lambda f: any("&mut [" in t and n not in ("w", "work") for n, t in f.params)
    beside = lambda f: any("[" in a[1] and b[0] in ("n", "l", "m", "end") and b[1] == "usize" for a, b in zip(f.params, f.params[1:]))
    yield 6, "a slice with its length beside it", where(beside)
    yield 6, "bytes with the place reached beside them, and its type", where(lambda f: "Input" in dict(f.params).values()) + grep(r"^pub struct Input\b")
    yield 6, "how many words of a lent slice were written, as an answer", where(lambda f: lent(f) and re.search(r"usize|Formed|Gathered|Turn", f.result))
    yield 6, "polynomials as flat pairs of words: functions that take or give [u64]", where(lambda f: "[u64]" in f.result + str(f.params))
    yield 6, "the work area as an arena of indices: functions that take it", where(lambda f: {"w", "work"} & set(dict(f.params)))
    yield 6, "tables and lists as flat words: functions that take one", where(lambda f: any(
        "[u32]" in t and (n in ("table", "list", "systems") or n == "words" and "Table<" in f.result) for n, t in f.params))
    yield 6, "lists searched by hand", named("finding::contains search::other_from terms::initial_words")
    yield 7, "a switch tested", grep(r"if closing \{|if in_q \{|if crowded \{|root != zero|if kind == \d")
    yield 7, "a switch set, or handed over as a literal", grep(r"closing: (true|false)|, (true|false)\)|crowded = (true|false)")
    old = {p: t for p, t in PROOFS.items() if re.search(r"\.Tie\b", t) or "/Proof/" in p}
    alone = r"^(?:pub )?(\w\S*) : .*\b(?:tie|goal)\..*\n\1( \S+)* = %s$"
    yield 8, "files of the old form", grep(r"\A.*", old)
    yield 8, "[of them, those that walk back through the code by hand]", grep(r"\A.*", {
        p: t for p, t in old.items() if len(re.findall(r"\blet \S+ = [a-z]\w* in\b|\.before\b", t)) > 1})
    yield 8, "answers that only say `search rules`", grep(alone % "search rules", PROOFS)
    yield 8, "[answers that only say `omega arith`]", grep(alone % "omega arith", PROOFS)
    yield 8, "lemmas that no proof, no code and no page cites", uncited()


def where(test):
    return [(*f[:3], f.text) for f in FNS if test(f)]


def named(names):
    crate, wanted = "", set()
    for n in names.split():
        crate = n.split("::")[0] if "::" in n else crate
        wanted.add((crate, n.split("::")[-1]))
    return where(lambda f: (f.crate, f.name) in wanted)


def grep(pattern, files=SOURCES):
    found = [(p, t, m.end() - len(m.group(0).lstrip())) for p, t in files.items() for m in re.finditer(pattern, t, re.M)]
    return [(p.split("/")[1], p, t.count("\n", 0, at) + 1, t[at:].split("\n")[0]) for p, t, at in found]


def twins(text, have):
    """What stands of each group, where two of it stand or more."""
    return [x for found in map(have, re.split("[;\n]", text)) if len(found) > 1 for x in found]


def name(place):
    return re.search(r"(?:enum|struct|fn) (\w+)", place[3]).group(1)


def closing(text, at, opens, closes):
    """The place behind the bracket that closes the one at `at`."""
    return at + 1 + next(i for i, depth in enumerate(depths(text[at:], opens, closes)) if depth == 0)


def split(text, mark, opens="([{", closes=")]}"):
    """The parts of a text between the marks outside of brackets."""
    marks = [i for i, depth in enumerate(depths(text, opens, closes)) if depth == 0 and text[i] == mark]
    return [p for p in (text[a + 1:b].strip() for a, b in zip([-1] + marks, marks + [len(text)])) if p]


def facts(text):
    """The facts of a clause one by one, each lent value written as `_`; a bound name is none."""
    text = re.sub(r"\s+", " ", text).strip()
    while text[0] == "(" and closing(text, 0, "(", ")") == len(text):
        text = text[1:-1].strip()
    parts = split(text, "×")
    if len(parts) > 1:
        return [f for p in parts for f in facts(p)]
    fact = re.sub(r"\b\w+\.(now|old|new|entry)\b", "_", text)
    return [] if re.match(r"\w[\w ]* : |_ ≡ _$", fact) else [fact]


def functions():
    for path, text in SOURCES.items():
        flat = text.replace("->", "  ").replace("=>", "  ")
        for m in re.finditer(r"^ *(?:pub(?:\(\w+\))? )?(?:const )?fn (\w+)", text, re.M):
            at = m.end() if text[m.end()] == "(" else closing(flat, m.end(), "<", ">")
            i = closing(text, at, "(", ")")
            params = [tuple(p.split(": ", 1)) for p in split(flat[at + 1:i - 1], ",", "([{<", ")]}>") if ": " in p]
            head = re.compile(r"(?:\s*-> *([^{\n]+))?(?:\s*where [^{]*?(?=\n *requires|\n *ensures|\{))?").match(text, i)
            clauses, i = [], head.end()
            while c := re.compile(r"\s*(?:requires|ensures|decreases)(?: [\w-]+)? (?=\{)").match(text, i):
                i = closing(text, c.end(), "{", "}")
                clauses.append(text[c.end() + 1:i - 1])
            i, line, result = re.compile("[^{;]*").match(text, i).end(), text.count("\n", 0, m.start()) + 1, (head.group(1) or "").strip()
            end = closing(text, i, "{", "}") if text[i] == "{" else i
            yield Fn(path.split("/")[1], path, line, m.group(1), params, result, clauses, i, end, m.group(0).strip())


def all_loops():
    for f in FNS:
        text = SOURCES[f.path]
        for m in re.compile(r"^( *)(?:let \w+ = )?(?:'\w+: )?(while|loop)\b(.*)\{$", re.M).finditer(text, f.start, f.end):
            body = text[m.end():text.index("\n" + m.group(1) + "}", m.end())]
            counts = any(re.search(r"\b%s [+-]= \d+;" % v, body) for v in re.findall(r"[a-z]\w*", m.group(3)))
            walks = re.search(r"\bfollow\(|readers::step\(|= r\.step\(|word\((table, )?\w, 3\) as|= (i|end) \+ 1 \+ n;|\+= size;", m.group(0) + body)
            yield "walks" if walks else "counts" if counts else "other", (*f[:2], text.count("\n", 0, m.start()) + 1, m.group(0).strip())


def uncited():
    """Top-level names of lemma files: cited is what a file that names the module says outside of the lemma and of its `use` lines, or a page."""
    words = lambda t: collections.Counter(re.split(r"[\s(){}\[\],;.:\"`@|]+", re.sub(r"^ *(pub )?use .*|--.*", "", t, flags=re.M)))
    files = {**PROOFS, **SOURCES}
    said = {p: words(t) for p, t in files.items()}
    pages = words("\n".join(open(p).read() for p in glob.glob("docs/*.md") + ["README.md"] if "DESIGN" not in p))
    for p in (p for p in PROOFS if re.search(r"proofs/(laws/)?\w+\.antt$", p) and not p.endswith("/Lib.antt")):
        kept = [(n, x) for n, x in enumerate(PROOFS[p].split("\n"), 1) if x.strip() and not x.lstrip().startswith("--")]
        near = [q for q in files if q == p or re.search(r"\b%s\b" % p.split("/")[-1][:-5], files[q])]
        for i, (n, x) in enumerate(kept):
            m = re.match(r"( {0,2})(?:(?:pub|abbrev|unfoldable|record|data) )*([^\s:(){}=]+)( [({].*[)}])? : ", x)
            if m and not pages[m.group(2)]:
                inside = re.compile(r"%s( |unfolding\b|[)}]|%s(?!\S))" % (m.group(1), re.escape(m.group(2))))
                end = next((j for j in range(i + 1, len(kept)) if not inside.match(kept[j][1])), len(kept))
                own = words("\n".join(y for _, y in kept[i:end]))[m.group(2)]
                if not any(said[q][m.group(2)] > own * (q == p) for q in near):
                    yield p.split("/")[1], p, n, x.strip()


FNS = list(functions())
rows = [(point, label, sorted(set(found))) for point, label, found in places()]
for wanted in [int(a) for a in sys.argv[1:] if a.isdigit()] or range(1, 9):
    print("%d  %4d" % (wanted, sum(len(found) for point, label, found in rows if point == wanted and label[0] != "[")))
    for _, label, found in (r for r in rows if r[0] == wanted):
        print("   %4d  %s" % (len(found), label))
        for crate, path, line, text in found if "-v" in sys.argv else []:
            print("            %s %s:%d: %s" % (crate, path.split("/", 2)[2], line, text))
