"""What .ci/rows, .ci/simplified and .ci/built share: the probe over modules, and what is compared of them. PROBE names the probe, where it is not the one that the gate has built here."""
import os
import re
import subprocess

TOP = os.path.dirname(os.path.dirname(os.path.abspath(__file__)))
PROBE = os.path.abspath(os.environ.get("PROBE") or os.path.join(TOP, "crates", "fc_probe", "out", "fc_probe"))
# words in lower case that are no names: they stay, where every other is one that a binder may choose or that `resolve` tells
KEYWORDS = set(
    "module imports exports hidden data newtype family axiom def wrap type co forall coforall fun app lam let letrec case cast con prim fail join joinrec jump default "
    "refl sym trans tc capp funco allco coallco inst nth left right sub ax univ".split()
)
TOKEN = re.compile(r"[()]|[^\s()]+")


def said(folder, *words):
    """What the probe says: its status, its output and the error stream."""
    ran = subprocess.run([PROBE, *words], cwd=folder, stdin=subprocess.DEVNULL, capture_output=True, timeout=60, text=True)
    return ran.returncode, ran.stdout, ran.stderr


def write(folder, name, text):
    """Puts a text in a file of a folder."""
    with open(os.path.join(folder, name), "w") as it:
        it.write(text)


def shape(text):
    """The text of a module without its comments and imports, and without words in lower case that are neither keywords nor the names of definitions."""
    tokens = TOKEN.findall(re.sub(r"\(imports[^()]*\)", "", re.sub(r";.*", "", text), count=1))
    before = ["", *tokens]
    return [
        token if token in KEYWORDS or "#" in token or not re.match(r"[a-z_$]", token) or behind in ("def", "wrap") else "_"
        for behind, token in zip(before, tokens)
    ]


def form(folder, name, text):
    """What is compared of the text of a module, and what the probe says against it, if it does."""
    write(folder, name, text)
    status, referred, error = said(folder, "resolve", name)
    return shape(text), referred, status, error
