"""The papers of a release: PROOF, the SPDX list, and the sums."""
from __future__ import annotations

import hashlib
import json
import re
import time
from pathlib import Path
from typing import Any

from .archives import members
from .building import stored
from .tree import TOP, commit, words

LICENCE = "Apache-2.0 OR MIT"
COPYRIGHT = "Copyright 2026 The Soffitfennel authors"
# the programs that a proof covers whole, and the library that has a proved object
PROGRAMS = ("bench_cli", "sweep_cli", "flash_cli")
LINK = re.compile(r"\[([^]]*)\]\([^)]*\)")
HEAD = """Soffitfennel {label}: {claim}

This file says what is proved of this release, and how to check it.

commit:  {commit}
"""
CHECK = """
How to check a copy
-------------------
1. sha256sum --check --ignore-missing SHA256SUMS     compares the files of the release.
2. Compare the program that is installed with the sum above:
   sha256sum /usr/lib/soffitfennel/programs/bench_cli
   `soffitfennel --version` does the same, and prints `proved` for a proved program.

How to prove it again
---------------------
In a clone at the commit above, with the kit above on the path, on Linux with 4.5 GB of memory for each job:
   ./bench --prove; tools/program --sweep --prove; tools/program --flash --prove
   tools/library --prove; tools/page --prove
   tools/dev/proved-sum --check
   tools/release OUT
The files in OUT have the sums in SHA256SUMS. Programs and the page depend on the kit alone. The parts in C (library,
reader driver) depend on the compiler too: {compiler}.
"""
UNPROVED_CHECK = """
How to check a copy
-------------------
sha256sum --check --ignore-missing SHA256SUMS     compares the files of the release.
"""
NOT_PROVED = """
What is not proved
------------------
- the wrapper `soffitfennel` and the tools (bash, Python), the reader driver, the bindings, the page's JavaScript
- the C files of the library (library/*.c), which store each device write, and the heap
- the toolchain: its prover, its compiler with LLVM, its C library, and the contracts of its own libraries
- that the definitions (crates/*/specs) say what the standards mean
"""


def plain(text: str) -> str:
    """Markdown without its marks."""
    return LINK.sub(r"\1", text).replace("**", "").replace("`", "").replace("\\|", "|").strip()


def theorems() -> str:
    """Each theorem of docs/PROMISES.md with the call that carries it."""
    made, lines = [], (TOP / "docs" / "PROMISES.md").read_text(encoding="utf-8").splitlines()
    head, is_table = "", False
    for line in lines:
        if line.startswith("## "):
            head = line[3:]
        cells = re.split(r"(?<!\\)\|", line)[1:-1] if line.startswith("|") else []
        is_table = bool(cells) and (is_table or [it.strip() for it in cells] == ["theorem", "carried by"])
        if is_table and not cells[0].strip().startswith(("theorem", "---")):
            made += [f"\n{head}\n{'-' * len(head)}"] if head else []
            head = ""
            made.append(f"- {plain(cells[0])}\n  carried by {plain(cells[1])}")
    return "\n".join(made)


def sums(folder: Path, names: list[str], shown: str) -> str:
    """Lines of sums, as sha256sum takes them."""
    return "".join(f"{hashlib.sha256((folder / it).read_bytes()).hexdigest()}  {shown}{it}\n" for it in names)


def proof(label: str, is_proved: bool, prefix: Path, compiler: str) -> str:
    """The PROOF file, by the files of an installation below `prefix`."""
    claim = "what is proved" if is_proved else "NOTHING IN IT IS PROVED"
    text = HEAD.format(label=label, claim=claim, commit=commit())
    programs = sums(prefix, [f"lib/soffitfennel/programs/{it}" for it in PROGRAMS], "/usr/")
    if not is_proved:
        head = "\nPrograms, built without a proof\n-------------------------------\n"
        return f"{text}{head}{programs}{UNPROVED_CHECK}"
    kept, page = stored(words("proved.sum")), stored(TOP / "web" / "card.sum")
    text += f"kit:     {kept['kit']}\n\nPrograms, proved whole\n----------------------\n{programs}"
    text += "\nSums of what was proved (tools/words/proved.sum)\n------------------------------------------------\n"
    text += "".join(f"{name}: {it}\n" for name, it in kept.items() if name != "kit")
    text += "".join(f"page {name}: {it}\n" for name, it in page.items())
    text += "The archive and the shared library hold this library's object, with its C parts beside it.\n"
    return text + NOT_PROVED + CHECK.format(compiler=compiler) + f"\nTheorems\n========\n{theorems()}\n"


def checksums(data: bytes) -> list[dict[str, str]]:
    """The two sums that SPDX wants of a file."""
    return [{"algorithm": "SHA1", "checksumValue": hashlib.sha1(data).hexdigest()},
            {"algorithm": "SHA256", "checksumValue": hashlib.sha256(data).hexdigest()}]


def listed(root: Path) -> list[dict[str, Any]]:
    """The files of an installation, as SPDX lists them. Programs hold parts of the toolchain's C library too."""
    found = []
    for number, path in enumerate(it for it in members(root) if it.is_file() and not it.is_symlink()):
        is_linked = path.name in (*PROGRAMS, "card.html")
        concluded = "NOASSERTION" if is_linked else LICENCE
        found.append({"fileName": f"./{path.relative_to(root)}", "SPDXID": f"SPDXRef-File-{number}",
                      "checksums": checksums(path.read_bytes()), "licenseConcluded": concluded,
                      "licenseInfoInFiles": [LICENCE] if not is_linked else ["NOASSERTION"],
                      "copyrightText": COPYRIGHT})
    return found


def verification(files: list[dict[str, Any]]) -> str:
    """The sum of a package by SPDX 2.3, 7.9: of the sorted SHA-1 sums of its files."""
    return hashlib.sha1("".join(sorted(it["checksums"][0]["checksumValue"] for it in files)).encode()).hexdigest()


def package(identifier: str, name: str, version: str, **more: Any) -> dict[str, Any]:
    """A package as SPDX describes it."""
    return {"SPDXID": identifier, "name": name, "versionInfo": version, "downloadLocation": "NOASSERTION",
            "licenseConcluded": "NOASSERTION", "licenseDeclared": "NOASSERTION", "copyrightText": "NOASSERTION", **more}


def spdx(label: str, root: Path, epoch: int) -> str:
    """The SPDX list (2.3) of an installation: its files, their licences, and the toolchain's parts in the programs."""
    files, own, kit = listed(root), "SPDXRef-Package-soffitfennel", "SPDXRef-Package-toolchain"
    code = verification(files)
    ours = package(own, "soffitfennel", label, filesAnalyzed=True, hasFiles=[it["SPDXID"] for it in files],
                   packageVerificationCode={"packageVerificationCodeValue": code}, licenseDeclared=LICENCE,
                   licenseInfoFromFiles=[LICENCE, "NOASSERTION"], copyrightText=COPYRIGHT)
    kit_version = stored(words("proved.sum"))["kit"].split()[0]
    theirs = package(kit, "Rattle", kit_version, filesAnalyzed=False,
                     comment="The C library and start files of the toolchain are linked into the programs.")
    related = [("SPDXRef-DOCUMENT", "DESCRIBES", own), (own, "STATIC_LINK", kit)]
    document = {
        "spdxVersion": "SPDX-2.3", "dataLicense": "CC0-1.0", "SPDXID": "SPDXRef-DOCUMENT",
        "name": f"soffitfennel-{label}", "documentNamespace": f"https://spdx.org/spdxdocs/soffitfennel-{label}-{code}",
        "creationInfo": {"created": time.strftime("%Y-%m-%dT%H:%M:%SZ", time.gmtime(epoch)),
                         "creators": ["Tool: tools/release", "Organization: The Soffitfennel authors"]},
        "packages": [ours, theirs], "files": files,
        "relationships": [{"spdxElementId": one, "relationshipType": kind, "relatedSpdxElement": other}
                          for one, kind, other in related],
    }
    return json.dumps(document, indent=1, ensure_ascii=True) + "\n"


def all_sums(out: Path) -> str:
    """SHA256SUMS."""
    return sums(out, sorted(it.name for it in out.iterdir()), "")
