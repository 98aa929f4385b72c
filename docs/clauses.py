"""What the scripts beside this file share: the functions of the crates with their clauses, and the files of definitions."""
import os
import re
from dataclasses import dataclass

DOCS = os.path.dirname(os.path.realpath(__file__))
ROOT = os.path.dirname(DOCS)
CRATES = os.path.join(ROOT, "crates")
WORD = r"[A-Za-z_][A-Za-z0-9_]*"
IMPORT = re.compile(r"^\s*(?:ghost |pub )?use (Rattle\.[\w.]+?)(?:\.(\{[^}]*\}|[^\w\s{]\S*)|(?: as (\w+))?);?$", re.M)
OWNER = re.compile(rf"^(?:pub )?(?:impl(?:<.*?>)? (?:.* for )?({WORD})|trait ({WORD})|pub trait ({WORD}))")
FUNCTION = re.compile(rf"^( *)(?:pub(?:\([^)]*\))? )?(?:const )?(?:unsafe )?fn ({WORD})")
CLAUSE = re.compile(rf"\bensures(?:\*)?\s*({WORD})?\s*\{{")


def read(path):
    with open(path, encoding="utf-8") as it:
        return it.read()


def crate_names():
    return sorted(it for it in os.listdir(CRATES) if os.path.isdir(os.path.join(CRATES, it, "src")))


def files_below(folder, ending):
    """Returns the paths of the files with this ending, in order."""
    found = []
    for at, _, names in os.walk(folder):
        found += [os.path.join(at, it) for it in names if it.endswith(ending)]
    return sorted(found)


@dataclass
class Function:
    crate: str
    file: str
    owner: str
    name: str
    head: str
    clauses: list


def functions_of_file(crate, path):
    """Returns the functions of a source file, each with the text from its name up to its body and with its clauses' names."""
    lines = read(path).split("\n")
    owner, found = "", []
    for at, line in enumerate(lines):
        named = OWNER.match(line)
        if named:
            owner = next(it for it in named.groups() if it)
        elif line and not line[0].isspace() and line[0] in "}":
            owner = ""
        begun = FUNCTION.match(line)
        if begun:
            head = head_from(lines, at, begun.group(1))
            found.append(Function(crate, path, owner if begun.group(1) else "", begun.group(2), head, CLAUSE.findall(head)))
    return found


def head_from(lines, at, indent):
    """Returns the lines of a function from its name up to its body, or to its end where it has none."""
    head = []
    for line in lines[at:]:
        if head and line and (line[len(indent):][:1] in "{}" or not line.startswith(indent)):
            break
        head.append(line)
        if line.endswith(";") and line.count("{") <= line.count("}"):
            break
        if len(head) == 1 and line.rstrip().endswith("{"):
            break
    return "\n".join(head)


def functions():
    """Returns the functions of every crate."""
    return [it for crate in crate_names() for path in files_below(os.path.join(CRATES, crate, "src"), ".rt")
            for it in functions_of_file(crate, path)]


def definitions_at(module):
    """Returns the path of the file of definitions that a module's name such as Rattle.rt_model.specs.Past stands for, or None."""
    words = module.split(".")
    if len(words) < 4 or words[2] != "specs" or words[3] == "declared":
        return None
    for end in range(len(words), 3, -1):
        path = os.path.join(CRATES, words[1], "specs", *words[3:end]) + ".antt"
        if os.path.isfile(path):
            return path
    return None


def imports_of(text):
    """Returns each import of a text: the module's name and the names that it brings, or the name that it has from then on."""
    found = []
    for module, names, other in IMPORT.findall(text):
        if names.startswith("{"):
            brought = [it.split(" as ")[-1].strip() for it in names[1:-1].split(",")]
        else:
            brought = [names or other or module.split(".")[-1]]
        found.append((module, brought))
    return found
