"""What a name in backquotes on a page may be: a path, a crate, a definition of the sources, a command word, a command.

Each page is looked at in paragraphs. Where a page says of which crate a name is (docs/CONTRACTS.md by a bold name, docs/MAP.md by the first
column of its last table), the name has to be declared in that crate or in one that it stands on.
"""
import re
from pathlib import Path

TOP = Path(__file__).resolve().parent.parent
CRATES = TOP / "crates"

# Names that stand in no source of this repository, by the reason.
ELSEWHERE = {
    "Rattle, its std and its kit's crates": """
        abbrev as assert! bool Box const Copy derive drop dyn enum fn for if impl len let loop match None Ok Option Rc Result Some
        struct trait u64 u128 unreachable! usize Vec where as_slice clamp contains const get get_or is_ascii_digit is_err
        push_reserved split_at use env::args AllocError AllocFailed Ok(None) Ok(Added::New(id)) partition_point unwrap assert_eq!
        return ensures.ok Prelude IfOk IfSome MatchOption OnOk IsPermutation IsPartitionPoint-from_clause Nat.Bits ArgAction::Set
        decimal yielded strip_prefix_is option_map_or err_from_is_err_and lt-ltb ne_eqb cases_lt cases_eq truncate overflow_cast""",
    "antt and its tactics": "cc omega rw search subst unfoldable unfolding ap refl open in yes no .antt",
    "the kit: its programs, files, options": """rt rattle std_alloc std_heap liblibc_c.a clap hex itoa arrayvec memchr lru rattle-kit-13f met-1 Kept.key Kept.give RT_JOBS out/rlib proofs/Lib.antt
        ./proofs/ --allow-holes --incremental --statements --only --start --fix-imports""",
    "git and what git segdag makes in a repository": """git segdag/log segdag/lock objects objects/info/segdag heads/master set:master main topic release HEAD cat-file core.hooksPath
        publish segdag.publish for-each-ref core.sharedRepository --branches --tags --remotes --glob= --fork-point --candidates -n""",
    "Linux and its programs": """make sh cc ld ar objcopy nc buildah debootstrap stunnel openssl SO_PEERCRED python3 strace valgrind perf flock fsync mv cp ssh curl socat renice nice sync sched_autogroup_enabled net.core.somaxconn LISTEN_FDS TMPDIR
        ExecStart ConnectTimeout ServerAliveInterval KillMode=mixed StreamLocalBindMask Accept=yes StandardInput=socket""",
    "PostgreSQL, and what is in a database of it": """psql pg_rewind pg_dump patroni repmgr synchronous_mode synchronous_standby_names lock_timeout listen_addresses libpq5
        SIGXFSZ idle_in_transaction_session_timeout target_session_attrs=read-write connect_timeout=10 libsegdag_postgres.so libsegdag_postgres.a segdag-postgres store_engine
        CONNINFO CHAIN copier schema.sql watch export import create follow localhost""",
    "words of the program with a place to fill in": "bundle: pipe: socket:PATH ./bundle:.. ./pipe:.. TYPETRAIT .max(..) LOG REMOTE MODE TO FROM PATH",
    "installed": """SEGDAG_0.1 segdag.pc libsegdag.so.0 bin/segdag lib/segdag share/doc/segdag NOTICES segdag/ segdag segdagd bin SEGDAG segdag_tools.lines
        segdag-VERSION-linux-x86_64.tar.gz segdag_VERSION_amd64.deb segdag_0.1.0_amd64.deb segdag-postgres_0.1.0_amd64.deb segdag-postgres_VERSION_amd64.deb libsegdag_postgres.so.0 include/segdag_client.h share/segdag/segdag_client.c
        /usr/share/segdag-postgres segdag-VERSION-py3-none-linux_x86_64.whl segdag-VERSION.txt""",
    "built, and in no checkout": "out/dist out/gate out/gate.log out/proved out/libsegdag.proved libsegdag.a libsegdag.so out/libsegdag.a out/libsegdag.so out/segdag.h out/segdag_core.h segdag_core.h out/git-segdag out/segdag out/segdag.by-rattle crates/segdag/out/segdag out out/ log.new",
}
WORDS = {word for words in ELSEWHERE.values() for word in words.split()}

# Goals, steps and arms of proofs, as the prover spells them.
PROVER = re.compile(r"^[clsxitm]\.|^(in|if|then|loop|invariant|returns|c)-|^(in_default|in_ok|in_err|from_residual|unreachable-requires|field-0-0)$|-is$|^[@_◌λ]")
# What is no name: formulas, replies, numbers, ids, bytes.
NO_NAME = re.compile(r".*[^\w./:*<>()\[\]!+-].*|[\d.,:*<a-f-]+|N\d*|[A-Z]{1,2}|\[\w+\]")
TOOLS = {"make", "git", "python3", "sh", "bench/run.sh"}


def read(path):
    return path.read_text(errors="replace")


def rust_names(text):
    """What a Rattle file declares: items, clauses, fields, variants, and the words of its texts."""
    names = set(re.findall(r"\b(?:fn|struct|enum|trait|const|type|mod|static|let|let mut|for)\s+(\w+)", text))
    names |= set(re.findall(r"\b(?:ensures|requires|invariant|ghost|decreases|ghost member|given)\s+(\w+)", text))
    names |= set(re.findall(r"^\s*(?:pub(?:\(\w+\))? )?(\w+):", text, re.MULTILINE)) | set(re.findall(r"[(,] ?(\w+): ", text))
    names |= set(re.findall(r"^\s+([A-Z]\w*)\s*[,({=]", text, re.MULTILINE))
    return names


def antt_names(text):
    """What a file of definitions or proofs declares: definitions, lemmas, fields, constructors."""
    text = re.sub(r"--.*", "", text)
    heads = r"^ *(?:(?:pub|abbrev|record|data|def|unfoldable|section|module|ghost) )*"
    names = set(re.findall(heads + r"([^\s:({=]+)(?: [^:=\n]*)? :", text, re.MULTILINE))
    names |= set(re.findall(r"^(?:(?:pub|abbrev|record|data|def) )+([^\s:({]+)", text, re.MULTILINE))
    for line in re.findall(r"^ +(?:pub )?([\w\- ]+) :", text, re.MULTILINE):
        names |= set(line.split())
    return names


class Sources:
    """The names of each crate, of its definitions, and of files."""

    def __init__(self):
        self.below = {}
        for line in read(TOP / "crates.txt").splitlines():
            crate, _, uses = line.partition(":")
            self.below[crate.split()[0]] = uses.split()
        self.own, self.specs, self.files, self.calls = {}, {}, {}, {}
        for crate in self.below:
            self.add_crate(crate)
        self.all = set().union(*self.own.values(), *self.files.values(), self.below)

    def add_crate(self, crate):
        own, files, specs, calls = set(), set(), set(), set()
        for path in (path for kind in ("src", "specs", "proofs") for path in CRATES.glob(f"{crate}/{kind}/**/*.*") if path.is_file()):
            files |= {path.stem, path.name}
            names = rust_names(read(path)) if path.suffix == ".rt" else antt_names(read(path)) if path.suffix == ".antt" else set()
            own |= names
            if path.suffix == ".rt":
                calls |= set(re.findall(r"\b(?:fn|ensures|requires|ghost|invariant)\s+(\w+)", read(path)))
            if "specs" in path.parts:
                specs |= names | {path.stem}
        self.own[crate], self.specs[crate], self.files[crate], self.calls[crate] = own, specs, files, calls

    def reached(self, crate):
        """The names of a crate and of those that it stands on."""
        found, waiting = set(), [crate]
        while waiting:
            it = waiting.pop()
            if it in self.own and it not in found:
                found.add(it)
                waiting += self.below[it]
        return set().union(*(self.own[it] | self.files[it] for it in found))


def commands():
    """Words that the program, its tools and the gate know."""
    words = set(re.findall(r'"([a-z][a-z-]*)"', read(CRATES / "command_lines/src/command.rt") + read(CRATES / "command_lines/src/words.rt")))
    words |= set(re.findall(r'"([a-z][a-z-]*)"', read(CRATES / "set_expr/src/words.rt") + read(CRATES / "set_expr/src/parse.rt")))
    words |= set(re.findall(r'"([a-z][a-z-]*)"', "".join(read(path) for path in CRATES.glob("program_words/src/*.rt"))))
    words |= set(re.findall(r'b?"([a-z][a-z -]*?) ?"', "".join(read(path) for path in CRATES.glob("command_lines/src/*.rt"))))
    words |= set(re.findall(r"^([\w-]+):", read(TOP / "Makefile"), re.MULTILINE)) | {"--version"}
    text = "".join(read(path) for path in [*TOP.glob("tools/segdag_tools/**/*.py"), *TOP.glob("tools/segdagd_many/*.c")])
    words |= set(re.findall(r'"(?:--)?([a-z][a-z-]*)"', text)) | set(re.findall(r"\b(segdag\.[a-z]+)\b", text))
    words |= set(re.findall(r"\b[a-z]+\b", read(TOP / "bench/run.sh") + read(CRATES / "bench/src/main.rt")))
    words |= set(re.findall(r"\b(?:segdag|SEGDAG)_\w+", "".join(map(read, TOP.glob("bindings/*/segdag*.h"))))) | {"segdag_core_*"}
    for path in [*TOP.glob("tests/*.py"), *TOP.glob("bench/*.py"), *TOP.glob("tools/segdag_tools/**/*.py"), *TOP.glob("docs/pictures/*.py")]:
        words |= set(re.findall(r"^ *(?:class|def) (\w+)", read(path), re.MULTILINE))
    return words


def is_path(word):
    """Whether the path is there: from the top, or from crates/, docs/ or tools/, with or without its ending. `*` stands for any part."""
    word = re.sub(r"^\./|/$", "", word)
    places = [TOP, CRATES, CRATES / "segdag", TOP / "docs", TOP / "tools", TOP / "tools/segdag_tools", TOP / "tools/segdag_tools/git", TOP / "tools/segdag_tools/daemon", TOP / "tests", TOP / "bench"]
    return any(next(place.glob(word + ending), None) for place in places for ending in ("", ".antt", ".rt", ".md"))


class Names:
    def __init__(self):
        self.sources, self.commands = Sources(), commands()

    def is_known(self, word, names):
        """Whether a name is one of these, or its parts are, of which some crate has all."""
        parts = {part for part in re.split(r"::|\.|\(\)|<.*>", word) if len(part) > 1} - WORDS
        return parts <= names and (len(parts) == 1 or any(parts <= own | self.sources.files[crate] | {crate} for crate, own in self.sources.own.items()))

    def is_there(self, span, crate=None):
        """Whether what stands in backquotes is there, in the crate or below it where one is given."""
        if " " in span:
            return span.split()[0] not in TOOLS or self.is_command(span)
        if {span, re.sub(r"\(\)|<.*>", "", span)} & (WORDS | self.commands) or PROVER.search(span) or NO_NAME.fullmatch(span):
            return True
        if span.startswith("--"):
            return span[2:] in self.commands
        if "/" in span:
            return span.startswith("/") or bool(re.search(r"\b[A-Z]+\b", span)) or is_path(span)
        form = re.fullmatch(r"([a-z_]+)\(.*\)", span)
        if form:
            return form[1] in self.commands | self.sources.all
        if re.match(r"(bundle|pipe):", span):
            return True
        if crate:
            return span in self.sources.below or self.is_known(span, self.sources.reached(crate))
        return self.is_known(span, self.sources.all) or is_path(span)

    def is_command(self, span):
        """Whether a command line has a target, a command or a script that is there."""
        first, *words = span.split()
        if first == "make":
            return all("=" in word or word in self.commands for word in words)
        if first == "git" and words[0] == "segdag":
            return len(words) < 2 or words[1] in self.commands
        paths = [word for word in [first, *words] if re.match(r"(tests|bench|tools)/", word)]
        return all(is_path(path) for path in paths)
