"""Compares the documents with the tree: python3 documents_test.py [DOCUMENT]... Ends with a line 'N passed, M failed'.

Each name (in backticks, or one that only code has), each clause in a row of a promise, each link, each command of a console
block and each sentence counts as a test. The documents are README.md, CHANGELOG.md and docs/*.md; of the pages of crates and of
the manuals the names are compared.
A console block is an indented block whose first line begins with '$ ' or '# '.
"""
import fnmatch
import functools
import glob
import os
import re
import subprocess
import sys
import tempfile
import unicodedata

from daemon_clients import check, end_tests

LONGEST_SENTENCE = 40  # words
TIME_LIMIT = 20  # seconds, for one console block

# What documents name in backticks and this tree hasn't, and whose it is.
EXCEPTIONS = {
    "data_packet": "NSCA", "init_packet_struct": "NSCA", "send_nsca.cfg": "NSCA", "--single": "NSCA", "--legacy-2-7-mode": "NSCA",
    "/etc/nftables.conf": "nftables", "cubic": "Linux", "netbase": "Debian", "tokio": "its own crate",
}
# Programs that are not of this tree: their options aren't looked up.
FOREIGN_PROGRAMS = {"rt", "send_nsca"}
# Commands that can't run here, and why: a block that has one of them is skipped. So is one of root, with the prompt '# '.
SKIPPED_COMMANDS = [
    (r"\bserve --config (?!nothing)", "a daemon on its ports"),
    (r"\bsend_nsca\b|\bnc -|\bcurl\b|\bnscagate-(check|stop|restore)\b|\bnscagatectl (?!--)|\bstatus(web|desk) --gateway", "a gateway"),
    (r"^\./package\b|\bgit\b", "the history of this tree"),
    (r"\bbenchmarks/", "a machine with nothing else to do"),
    (r"\brt \w|^\./check\b", "the prover"),
]

# The programs, and the crate that reads the words of each.
PROGRAMS = {"nscagate": "gate_words", "nscagatectl": "operator_words", "statusweb": "statusweb", "statusdesk": "desk_words"}
HELPERS = ("nscagate-stop", "nscagate-restore", "nscagate-check", "nscagate-watch")


def read(path):
    with open(path, encoding="utf-8", errors="replace") as file:
        return file.read()


def documents():
    return [path for path in ["README.md", "CHANGELOG.md", *sorted(glob.glob("docs/*.md"))] if os.path.exists(path)]


def manuals():
    return sorted(glob.glob("packaging/man/*"))


def crate_pages():
    return sorted(glob.glob("crates/*/README.md"))


# ---- what the tree has

def tree_paths():
    """Every file and folder of the tree, without what is built."""
    found = []
    for folder, folders, files in os.walk("."):
        folders[:] = [name for name in folders if name not in (".git", "out", "__pycache__")]
        found += [os.path.join(folder, name)[2:] for name in folders + files]
    return found


class Tree:
    """The names that the tree declares."""

    def __init__(self):
        self.paths = tree_paths()
        self.crates = {}
        for line in read("crates.txt").splitlines():
            if re.match(r"[a-z]", line):
                name, uses = line.split(":")
                self.crates[name] = uses.split()
        self.ends = {"/".join(parts[begin:]) for parts in (path.split("/") for path in self.paths) for begin in range(len(parts))}
        self.libraries = {name for uses in self.crates.values() for name in uses} - set(self.crates)
        self.declared = {}  # of each crate: the names that its sources and definitions declare
        self.all_clauses = set()
        self.contracts = {}  # the clauses of each function, of all that have its name
        self.tests_of = {crate: set() for crate in self.crates}  # its functions after #[test]
        self.code_words = set()  # of sources and definitions, whatever they are there
        self.words = set()  # of scripts, scenarios, examples and packages
        for crate in self.crates:
            self.declared[crate] = self.declare(crate)
        for path in self.paths:
            is_text = path.startswith(("scenarios/", "packaging/", "examples/", "benchmarks/")) or "/" not in path
            if is_text and os.path.isfile(path) and not path.endswith((".md", ".png")) and "documents_test" not in path:
                self.words.update(re.findall(r"\w[\w.-]*\w|\w", read(path)))
        self.tests = {os.path.basename(path).split(".")[0] for path in self.paths if path.startswith(("scenarios/", "examples/"))}
        self.edits = {os.path.basename(path) for path in self.paths if path.endswith(".edit")}
        self.commands = set(re.findall(r'"([A-Z_]+)"', read("crates/gate_grammar/src/commands.rt")))
        self.options = options_of_programs()
        self.all_declared = set().union(*self.declared.values())

    def declare(self, crate):
        names = set()
        for path in self.paths:
            if not path.startswith(f"crates/{crate}/") or not path.endswith((".rt", ".antt")):
                continue
            text = read(path)
            self.code_words.update(re.findall(r"\w+", text))
            if path.endswith(".rt"):
                names.update(re.findall(r"\b(?:fn|struct|enum|trait|type|const|static|mod|ghost)\s+(\w+)", text))
                names.update(re.findall(r"^\s*(?:pub(?:\(\w+\))? )?(\w+)\s*[:,({]", text, re.M))  # fields and variants
                self.tests_of[crate].update(re.findall(r"#\[test\]\s*(?:#\[.*\]\s*)*fn (\w+)", text))
                self.all_clauses.update(re.findall(r"\b(?:ensures|requires|ghost)\s+(\w+)", text))
                parts = re.split(r"\bfn (\w+)", text)
                for name, rest in zip(parts[1::2], parts[2::2]):
                    self.contracts.setdefault(name, set()).update(re.findall(r"\bensures\s+(\w+)", rest))
            else:
                names.update(re.findall(r"^\s*(?:pub\s+)?([\w-]+)\s*[:(]", text, re.M))
                names.update(re.findall(r"\b(?:abbrev|data|record)\s+(?:pub\s+)?([\w-]+)", text))
                names.update(re.findall(r"^\s*pub\s+(?:\w+\s+)?([\w-]+)", text, re.M))
                self.all_clauses.update(re.findall(r"^\s*pub\s+(\w+)\s*:", text, re.M))
                names.add(os.path.basename(path)[:-5])
        return names


def options_of_programs():
    """The options of each program: of a script by its text, of another by its sources."""
    found = {}
    for name, path in [(helper, f"packaging/bin/{helper}") for helper in HELPERS] + [("package", "package")]:
        found[name] = set(re.findall(r"--[a-z][a-z0-9-]*", read(path)))
    for name, crate in PROGRAMS.items():
        text = "".join(read(path) for path in glob.glob(f"crates/{crate}/src/*.rt"))
        found[name] = {f"--{option}" for option in re.findall(r'\b(?:option|list|flag|long)\(\s*(?:alloc,\s*)?"([a-z-]+)"', text)}
    for name in ("nscagatectl", "statusweb", "statusdesk"):
        found[name].update(("--help", "--version"))
    found["the script of all four"] = {"--try"}
    return found


def commands_of_manual():
    text = read("packaging/man/nscagatectl.1")
    part = text[text.index(".SH COMMANDS"):text.index(".SH OPTIONS")]
    return [word.replace("\\-", "-") for word in re.findall(r"^\.B ([a-z\\-]+)", part, re.M)]


# ---- names

PATH_ENDS = (".rt", ".antt", ".edit", ".py", ".script", ".stdout", ".stderr", ".status", ".generate", ".expect", ".table", ".rows",
             ".toml", ".md", ".service", ".timer", ".page", ".query", ".json", ".metrics", ".text", ".txt", ".cfg", ".conf", ".awk",
             ".sh", ".c", ".png", ".logrotate", ".default")


def is_path(name):
    return re.fullmatch(r"[\w./*+<>-]+", name) is not None and ("/" in name.strip("/") or name.endswith(PATH_ENDS))


@functools.cache
def has_path(tree, name):
    """A path of the tree, from its top or from any folder; a word in capitals stands for any name."""
    pattern = re.sub(r"(?<![A-Za-z_])[A-Z][A-Z]+(?![A-Za-z]|\.md)", "*", os.path.normpath(name))
    if pattern.startswith("."):
        pattern = "*" + pattern
    ends = ("", ".script", ".generate") if pattern.startswith("scenarios/") else ("",)
    return any(pattern + end in tree.ends or "*" in pattern and fnmatch.filter(tree.ends, pattern + end) for end in ends)


@functools.cache
def has_installed_path(tree, name):
    """A path of a machine that has the package, or of a web server: its last name or all of it is written somewhere."""
    name = name.rstrip("/")
    base = os.path.basename(name)
    folders = ("packaging/", "examples/", "crates/statusweb/src/", "crates/statusdesk/src/")
    texts = [path for path in tree.paths if path.startswith(folders)]
    return not base or base in tree.words or has_path(tree, base) or any(
        name in read(path) for path in ["package", *texts] if os.path.isfile(path))


def is_declared(tree, name):
    """A name of one crate or of several, as CRATE::NAME, TYPE::NAME or NAME."""
    parts = name.split("::")
    if parts[0] in tree.crates:
        return all(part in tree.declared[parts[0]] for part in parts[1:])
    if len(parts) > 1:
        owners = [crate for crate in tree.crates if parts[0] in tree.declared[crate]]
        return any(part in tree.declared[crate] for crate in owners for part in parts[1:])
    return parts[0] in tree.all_declared


def is_known_word(tree, name):
    name = re.sub(r"\(.*\)$", "", name)
    if "_" in name or re.search(r"[a-z][A-Z]", name) or "::" in name:
        return (name in tree.crates or name in tree.libraries or is_declared(tree, name) or name in tree.tests or
                name in tree.all_clauses or name + ".edit" in tree.edits or name in tree.commands or name in tree.words)
    return name in tree.words or name in tree.code_words or name in tree.libraries


def fault_of_options(tree, program, words):
    known = tree.options.get(program, set()) if program else set().union(*tree.options.values())
    return [word for word in words if word not in known and word not in EXCEPTIONS]


def fault_of_span(tree, span):
    """Why what stands in backticks isn't in the tree; nothing where it is, or where it is no name."""
    span = span.strip()
    if span in EXCEPTIONS or re.fullmatch(r"\W*", span):
        return ""
    first = span.split()[0]
    program = os.path.basename(first)
    options = re.findall(r"(?<![\w-])--[a-z][a-z0-9-]*", span)
    if program in tree.options:
        faults = fault_of_options(tree, program, options)
        words = span.split()[1:]
        if program == "nscagatectl" and words and re.fullmatch("[a-z][a-z-]*", words[0]) and words[0] not in commands_of_manual():
            faults.append(words[0])
        return f"{program} has no {', '.join(faults)}" if faults else ""
    if first.startswith("--"):
        faults = fault_of_options(tree, "", options)
        return f"no program has {', '.join(faults)}" if faults else ""
    if program in FOREIGN_PROGRAMS:
        return ""
    if len(span.split()) > 1:
        faults = fault_of_options(tree, "", options)
        return f"no program has {', '.join(faults)}" if faults else ""
    if re.fullmatch(r"[A-Z]+(_[A-Z.]+)+", span):
        pattern = span.replace("..", "*")
        has = any(fnmatch.fnmatchcase(name, pattern) for name in tree.commands) or span in tree.words or is_declared(tree, span)
        return "" if has else "no such command"
    if span.startswith("/"):
        span = span.partition("?")[0]
        return "" if has_installed_path(tree, span) else "nothing installed has this path"
    if is_path(span):
        return "" if has_path(tree, span) else "no such path"
    if re.fullmatch(r"[A-Za-z_][\w]*(::\w+)*(\(\w*\))?", span):
        return "" if is_known_word(tree, span) else "the tree has no such name"
    return ""


def fault_of_words(tree, span):
    """Why a path among several words isn't in the tree."""
    folders = ("scenarios/", "crates/", "examples/", "docs/", "packaging/", "benchmarks/")
    paths = [word.rstrip(";") for word in span.split() if word.startswith(folders) and "/out" not in word]
    missing = [path for path in paths if not has_path(tree, path)]
    return f"no such path: {missing[0]}" if missing else ""


def fault_of_file(tree, crate, span):
    """Why a file that stands after the name of its crate isn't of this crate."""
    if not crate or not re.fullmatch(r"(src|specs|proofs)/[\w/+-]+\.(rt|antt)", span):
        return ""
    return "" if f"crates/{crate}/{span}" in tree.paths else f"{crate} has no such file"


def spans_of(text):
    """The texts in backticks, without the blocks."""
    return re.findall(r"(?<!`)`([^`\n]+)`(?!`)", text)


def bare_names_of(text):
    """The names without backticks: names_of_crates, ENTRIES_OF_A_LIST and NamesOfOutcomes, but those of documents and in links."""
    plain = re.sub(r"\]\([^)]*\)", "", re.sub(r"`[^`]*`", "", text))
    names = re.findall(r"(?<![\w/.-])(?:[a-z]+(?:_[a-z0-9]+)+|(?:[A-Z][a-z]+){2,}|[A-Z]+(?:_[A-Z]+)+)\b(?![/.]\w)", plain)
    return [name for name in names if not os.path.exists(f"docs/{name}.md")]


def prose_of(text):
    """A document without its blocks: those that are indented or fenced."""
    lines = []
    fenced = False
    before_blank = True
    in_block = False
    for line in text.splitlines():
        if line.startswith("```"):
            fenced = not fenced
            continue
        if fenced:
            continue
        if line.startswith("    ") and (before_blank or in_block):
            in_block = True
            continue
        in_block = in_block and not line.strip()
        before_blank = not line.strip()
        lines.append(line)
    return "\n".join(lines)


def check_names(tree, path):
    text = prose_of(read(path))
    for line in text.splitlines():
        own = re.match(r"crates/(\w+)/", path)
        crate = own[1] if own else ""  # else the one that was named last in this line: files of src/, specs/ and proofs/ are its
        for span in spans_of(line):
            first = span.split("/")[0].split(":")[0]
            crate = first if first in tree.crates and not own else crate
            fault = fault_of_span(tree, span) or fault_of_words(tree, span) or fault_of_file(tree, crate, span)
            check(f"{path}: `{span}`", fault, "")
    for name in bare_names_of(text):
        check(f"{path}: {name}", fault_of_span(tree, name), "")
    for names in re.findall(r"clauses? ((?:`\w+`(?:, | and )?)+)", text):
        for name in re.findall(r"`(\w+)`", names):
            check(f"{path}: clause `{name}`", name in tree.all_clauses, True)
    for test, crate in re.findall(r"`(\w+)` \((test_\w+)\)", text):
        check(f"{path}: test `{test}` of {crate}", test in tree.tests_of.get(crate, ()), True)
    for function, names in re.findall(r"`([\w:]+)`, clauses? ((?:`\w+`(?:, | and )?)+)", text):
        contract = tree.contracts.get(function.split("::")[-1], set())
        for name in re.findall(r"`(\w+)`", names):
            check(f"{path}: clause `{name}` of `{function}`", name in contract, True)


def check_promises(tree, path):
    """In a row 'promise | `CALL`, `CALL`: `clause`, `clause`; .. | what shows it', each clause is one of these calls."""
    for cell in re.findall(r"^\|[^|]*\|([^|]*)\|[^|]*\|$", read(path), re.M):
        for part in re.sub(r"\([^()]*\)", "", cell).split(";"):
            calls, found, clauses = part.partition("`: `")
            contracts = [tree.contracts.get(call, set()) for call in re.findall(r"(\w+)`", calls + found[:1])]
            for clause in re.findall(r"\w+", clauses):
                check(f"{path}: clause of{calls}`: {clause}", any(clause in contract for contract in contracts), True)


def check_manual(tree, path):
    """Options of a manual are the program's, and each path and command in it is there."""
    text = read(path).replace("\\-", "-")
    program = os.path.basename(path).split(".")[0]
    for option in sorted(set(re.findall(r"--[a-z][a-z0-9-]*", text))):
        check(f"{path}: {option}", option in tree.options[program], True)
    for name in re.findall(r"(?<![\w/])/(?:etc|usr|var)/[\w./-]+\w", text):
        check(f"{path}: {name}", has_installed_path(tree, name), True)
    for name in re.findall(r"\b[A-Z]{2,}(?:_[A-Z]+)+\b", text):
        check(f"{path}: {name}", name in tree.commands or name in tree.words, True)


def check_definitions():
    """In a row of DEFINITIONS that ends with '`FILE`, `name`; `FILE`, `name`; `CALL`', each name stands in the file before it."""
    for cell in re.findall(r"^\|.*\| ([^|]*) \|$", read("docs/DEFINITIONS.md"), re.M):
        folder = ""
        for spans in map(spans_of, cell.split(";")):
            if spans and spans[0].endswith((".antt", ".rt")):
                folder = os.path.dirname(spans[0]) or folder
                file = f"{folder}/{os.path.basename(spans[0])}"
                words = re.findall(r"[\w-]+", read(f"crates/{file}"))
                check(f"docs/DEFINITIONS.md: names that {file} hasn't", sorted(set(spans[1:]) - set(words)), [])


def parts_of(tree):
    """The crates but small programs and tests."""
    return [crate for crate in tree.crates if not crate.startswith(("show_", "test_"))]


def check_handles(tree):
    """The crates that take a handle, by ARCHITECTURE, are those whose sources name it, but in imports."""
    for handle, row in re.findall(r"^\| `(\w+)` \| (.*) \|$", read("docs/ARCHITECTURE.md").split("## Handles")[1], re.M):
        named = re.compile(rf"^(?!.*\buse ).*\b{handle}\b", re.M)
        takers = {crate for crate in parts_of(tree) for path in glob.glob(f"crates/{crate}/src/**/*.rt", recursive=True)
                  if named.search(re.sub("//.*", "", read(path)))}
        check(f"docs/ARCHITECTURE.md: crates that take {handle}", sorted(row.split(", ")), sorted(takers))


def check_crates(tree):
    """Each crate but small programs and tests stands in README's map, and in the picture of ARCHITECTURE, whose lowest row is the
    last one: after the crates that it uses."""
    names = r"(?:\w+ · )*\w+"
    rows = re.findall(rf"^    \w+ +({names}(?:\n {{16}}{names})*)$", read("docs/ARCHITECTURE.md").split("\n## ")[0], re.M)
    order = [name for row in reversed(rows) for name in re.findall(r"\w+", row)]
    for crate in parts_of(tree):
        uses = tree.crates[crate]
        before = order[:order.index(crate)] if crate in order else []
        check(f"docs/ARCHITECTURE.md: {crate} in its row", crate in order and set(uses) & set(tree.crates) <= set(before), True)
        check(f"README.md: {crate} in its map", re.search(rf"\b{crate}\b", read("README.md")) is not None, True)


# ---- links

def anchor_of(heading):
    """The anchor that a reader of Markdown makes of a heading."""
    text = re.sub(r"\[([^\]]*)\]\([^)]*\)", r"\1", heading).replace("`", "").strip().lower()
    kept = [char for char in text if char in " -_" or unicodedata.category(char)[0] in "LN"]
    return "".join(kept).replace(" ", "-")


def anchors_of(path):
    found = []
    for heading in re.findall(r"^#+ (.*)$", prose_of(read(path)), re.M):
        anchor = anchor_of(heading)
        found.append(anchor if anchor not in found else f"{anchor}-{found.count(anchor)}")
    return found


def check_links(path):
    for target in re.findall(r"\]\(([^)\s]+)\)", prose_of(read(path))):
        if re.match(r"[a-z]+:", target):
            continue
        file, _, anchor = target.partition("#")
        full = os.path.normpath(os.path.join(os.path.dirname(path), file)) if file else path
        exists = os.path.exists(full)
        check(f"{path}: link {target}", exists, True)
        if exists and anchor:
            check(f"{path}: heading of {target}", anchor in anchors_of(full), True)


# ---- sentences

def sentences_of(text):
    """The sentences outside tables and blocks; a text in backticks counts as one word, and so does a link's target as none."""
    found = []
    for paragraph in re.split(r"\n\s*\n|\n(?=\s*(?:[-*]|\d+\.) )|\n(?=[#|])", prose_of(text)):
        if paragraph.lstrip().startswith(("|", "#")):
            continue
        plain = re.sub(r"`[^`]*`", "Code", paragraph)
        plain = re.sub(r"!?\[([^\]]*)\]\([^)]*\)", r"\1", plain)
        found += re.split(r"(?<=[.!?])[\"')*]*\s+(?=[\"'(\[*]*[A-Z0-9])", " ".join(plain.split()))
    return [sentence for sentence in found if sentence]


def check_sentences(path):
    for sentence in sentences_of(read(path)):
        count = len(sentence.split())
        check(f"{path}: words of '{sentence[:60]}..'", count if count > LONGEST_SENTENCE else "short", "short")


# ---- console blocks

def blocks_of(text):
    """The indented blocks that begin with a prompt, each as a list of lines."""
    blocks = []
    block = []
    for line in text.splitlines() + ["x"]:
        if line.startswith("    "):
            block.append(line[4:])
        elif not line.strip() and block:
            block.append("")
        elif block:
            while block and not block[-1]:
                block.pop()
            if block[0].startswith(("$ ", "# ")):
                blocks.append(block)
            block = []
    return blocks


def steps_of(block):
    """The commands of a block, each with the lines that it prints."""
    steps = []
    for line in block:
        if line.startswith(("$ ", "# ")):
            steps.append([line[2:], []])
        elif steps[-1][0].endswith(("|", "\\")) and not steps[-1][1]:
            steps[-1][0] += "\n" + line
        else:
            steps[-1][1].append(line)
    return steps


def why_skipped(block):
    """Why a block can't run here; nothing where it can."""
    if block[0].startswith("# "):
        return "root"
    return next((why for pattern, why in SKIPPED_COMMANDS for command, _ in steps_of(block) if re.search(pattern, command)), "")


def make_copy(folder):
    """A copy of the tree without its crates, in which the scripts of the top are the built programs."""
    for name in os.listdir("."):
        if name not in (".git", "crates", *PROGRAMS):
            os.symlink(os.path.abspath(name), os.path.join(folder, name))
    for name in PROGRAMS:
        program = os.path.abspath(f"crates/{name}/out/{name}")
        if os.path.exists(program):
            os.symlink(program, os.path.join(folder, name))


def lines_of(text):
    """The lines of a text; moments are not compared."""
    return [re.sub(r"\b1[0-9]{9}\b", "MOMENT", line) for line in text.rstrip("\n").split("\n")] if text else []


def run_blocks(folder, paths):
    """Runs each block that can be; a block's commands share one folder. Returns how many ran, and why others were skipped."""
    ran = 0
    skipped = []
    path_list = os.pathsep.join([folder, os.path.join(folder, "packaging/bin"), os.environ["PATH"]])
    for path in paths:
        for block in blocks_of(read(path)):
            why = why_skipped(block)
            if why:
                skipped.append(why)
                continue
            ran += 1
            for command, expected in steps_of(block):
                done = subprocess.run(["sh", "-c", command], cwd=folder, env=dict(os.environ, PATH=path_list), text=True,
                                      stdin=subprocess.DEVNULL, stdout=subprocess.PIPE, stderr=subprocess.STDOUT,
                                      timeout=TIME_LIMIT, check=False)
                check(f"{path}: $ {command}", lines_of(done.stdout), lines_of("\n".join(expected)))
    return ran, skipped


def main():
    os.chdir(os.path.join(os.path.dirname(os.path.abspath(__file__)), ".."))
    tree = Tree()
    chosen = sys.argv[1:] or documents() + crate_pages() + manuals()
    for path in chosen:
        if path.startswith("packaging/man"):
            check_manual(tree, path)
            continue
        check_names(tree, path)
        if path == "docs/PROVED.md":
            check_promises(tree, path)
        check_links(path)
        if not path.startswith("crates/"):
            check_sentences(path)
    if not sys.argv[1:]:
        check_definitions()
        check_crates(tree)
        check_handles(tree)
    with tempfile.TemporaryDirectory() as folder:
        make_copy(folder)
        if os.path.exists(os.path.join(folder, "nscagate")):
            ran, skipped = run_blocks(folder, [path for path in chosen if path in documents()])
            reasons = "; ".join(f"{skipped.count(why)} need {why}" for why in sorted(set(skipped)))
            print(f"console blocks: {ran} run, {len(skipped)} skipped{': ' if skipped else ''}{reasons}")
        else:
            check("crates/nscagate/out/nscagate", "not built", "built")
    end_tests()


if __name__ == "__main__":
    main()
