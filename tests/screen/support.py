"""Holds docs/SUPPORT.md to the screen: it has every refusal's number, name and sentences, and each line that it shows of the screen is one
that the screen says of the sample store. Ends with 0 where all is so."""
import re
import subprocess
import sys

STORE = "examples/store"
SHOWN = [
    "list",
    "show camera-hd",
    "route meter spur-coupler spur-gateway",
    "route camera-hd spur-coupler",
    "route camera-hd hub-100m radio-50m",
    "route camera-hd hub-100m",
    "route camera-hd hub-100m --link 100 --frame 12304",
    "route camera-hd hub-100m --link 100 --frame 0",
    "route backup-site trunk-10g fibre-40km trunk-10g",
]


def said(arguments):
    run = subprocess.run([sys.argv[1], "--store", STORE] + arguments.split(), capture_output=True, text=True, check=False)
    return run.stdout + run.stderr


def squeezed(text):
    return re.sub(r"\s+", " ", text)


with open("docs/SUPPORT.md", encoding="utf-8") as page:
    support = page.read()
wrong = []

for entry in re.split(r"^(?=\d)", said("explain"), flags=re.M)[1:]:
    number_and_name, rest = entry.split("\n", 1)
    meaning, advice = re.fullmatch(r"\s*what it means(.*?)what to do(.*)", rest, flags=re.S).groups()
    for words in (number_and_name, squeezed(meaning).strip(), squeezed(advice).strip()):
        if words not in squeezed(support):
            wrong.append(f"docs/SUPPORT.md lacks: {words}")

lines = {line.strip() for arguments in SHOWN for line in said(arguments).splitlines()}
for line in re.findall(r"^    (.*\S)\s*$", support, flags=re.M):
    if not line.startswith("duchrelin-screen ") and line.strip() not in lines:
        wrong.append(f"docs/SUPPORT.md shows what the screen does not say: {line}")

print("\n".join(wrong), end="\n" if wrong else "")
sys.exit(1 if wrong else 0)
