"""Prints what is declared otherwise than at a commit: signatures, clauses and types of src/, definitions and statements of specs/, statements of lemmas in proofs/.

    python3 tools/oldnew.py COMMIT

Lines with `-` are of the commit, lines with `+` of the files as they are. What is gone has no `+`, and what is new no `-`; of proofs/ only what stands at both is shown.
"""

import re
import subprocess
import sys


def git(*words):
    return subprocess.run(["git", *words], check=True, stdout=subprocess.PIPE, text=True).stdout


def one_line(text):
    return " ".join(text.split())


def of_source(text):
    """The functions with their clauses, and the types, by name."""
    text = re.sub(r"//[^\n]*", "", text)
    found, owner = {}, ""
    lines = text.split("\n")
    i = 0
    while i < len(lines):
        line = lines[i]
        if re.match(r"impl\b.*\{$", line):
            owner = one_line(line[:-1]) + ": "
            ghost = re.match(r"\s+(ghost \w+ = .*;)$", lines[i + 1]) if i + 1 < len(lines) else None
            owner = owner[:-2] + (" { " + ghost[1] + " }: " if ghost else ": ")
        elif line == "}":
            owner = ""
        elif re.match(r"\s*(pub(\(\w+\))? )?(extern \"C\" )?fn \w+", line):
            head = [line]
            while not (head[-1].rstrip().endswith("{") and not re.match(r"\s*(requires|ensures)\b.*\{$", head[-1])):
                i += 1
                head.append(lines[i])
            said = one_line(" ".join(head)).removesuffix("{").strip()
            name = re.search(r"fn (\w+)", said)[1]
            found[owner.split(" { ")[0].rstrip(": ") + "::" + name] = owner + said
        elif re.match(r"(pub )?(struct|enum) \w+", line):
            block = [line]
            while not (block[-1] == "}" or block[-1].endswith(";") or block[-1].endswith("{}")):
                i += 1
                block.append(lines[i])
            said = one_line(" ".join(block))
            found["type " + re.search(r"(struct|enum) (\w+)", said)[2]] = said
        i += 1
    return found


def definitions(text):
    """The declarations of a file of specs/ with what defines them, by name."""
    found, block = {}, []

    def close():
        said = [line for line in block if line.strip() and not line.strip().startswith("--")]
        if said:
            found[re.match(r"(?:(?:abbrev|unfoldable|pub|record|data|module) )*(\S+)", said[0])[1]] = "\n".join(said)
        block.clear()

    for line in text.split("\n"):
        if re.match(r"((abbrev|unfoldable|pub) )*((record|data|module) |\S+ : )", line):
            close()
            block.append(line)
        elif re.match(r"(--|use |pub mod |mod )", line):
            close()
        elif block:
            block.append(line)
    close()
    return found


def statements(text):
    """The statements of public lemmas, and the records with their fields, by name."""
    found, lines, past = {}, text.split("\n"), 0
    for i, line in enumerate(lines):
        head = re.match(r"( *)pub (record )?(\S+)(?: :)? ", line)
        if not head or i < past:
            continue
        said, deeper = [line], head[1] + ("  " if head[2] else "    ")
        for more in lines[i + 1 :]:
            if not more.startswith(deeper):
                break
            said.append(more)
        past = i + len(said)
        found[head[3]] = one_line(" ".join(line for line in said if not line.strip().startswith("--")))
    return found


def shown(title, old, new, both=False):
    print(f"### {title}\n")
    for crate in sorted(set(old) | set(new)):
        was, now = old.get(crate, {}), new.get(crate, {})
        names = [n for n in sorted(set(was) | set(now)) if was.get(n) != now.get(n)]
        if both:
            names = [n for n in names if n in was and n in now]
        if not names:
            continue
        print(f"`{crate}`\n\n```")
        for name in names:
            for mark, said in (("- ", was.get(name)), ("+ ", now.get(name))):
                for line in said.split("\n") if said else []:
                    print(mark + line)
        print("```\n")


def read(commit):
    files = git("ls-tree", "-r", "--name-only", commit, "crates").split() if commit else git("ls-files", "crates").split()
    source, specs, proofs = {}, {}, {}
    for path in files:
        place = re.match(r"crates/(\w+)/(src|specs|proofs)/(.*)\.(rt|antt)$", path)
        if not place:
            continue
        if place[2] == "proofs" and re.search(r"(Answers|Invariants|Proof|Lib)$", place[3]):
            continue
        text = git("show", f"{commit}:{path}") if commit else open(path).read()
        if place[4] == "rt":
            inner = "" if place[3] in ("lib", "main") else place[3].replace("/", "::") + " "
            source.setdefault(place[1], {}).update({inner + k: v for k, v in of_source(text).items()})
        elif place[2] == "specs":
            specs.setdefault(place[1], {}).update({place[3] + "." + k: v for k, v in definitions(text).items()})
        else:
            proofs.setdefault(place[1], {}).update({place[3] + "." + k: v for k, v in statements(text).items()})
    return source, specs, proofs


old, new = read(sys.argv[1]), read("")
shown("Types, signatures and clauses", old[0], new[0])
shown("Definitions and statements in specs/", old[1], new[1])
shown("Lemmas in proofs/ whose statement changed", old[2], new[2], both=True)
