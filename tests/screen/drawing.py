"""Ends with 0 where a file is an SVG drawing whose texts, lines and dots all lie inside it."""
import re
import sys
import xml.etree.ElementTree as tree

root = tree.parse(sys.argv[1]).getroot()
space = "{http://www.w3.org/2000/svg}"
width, height = float(root.get("width")), float(root.get("height"))
wrong = []


def inside(x, y, what):
    if not (0 <= x <= width and 0 <= y <= height):
        wrong.append(f"{what} at {x}, {y} lies outside {width} by {height}")


texts = root.findall(f".//{space}text")
for text in texts:
    x, size = float(text.get("x")), float(text.get("font-size", "12"))
    # An upper limit for how wide a letter is; bold ones are wider.
    wide = len(text.text) * size * (0.7 if text.get("font-weight") == "bold" else 0.6)
    left = {"start": x, "middle": x - wide / 2, "end": x - wide}[text.get("text-anchor", "start")]
    inside(left, float(text.get("y")), text.text)
    inside(left + wide, float(text.get("y")), text.text)
for circle in root.iter(f"{space}circle"):
    inside(float(circle.get("cx")), float(circle.get("cy")), "a dot")
for path in root.iter(f"{space}path"):
    for x, y in re.findall(r"[ML](-?[\d.]+) (-?[\d.]+)", path.get("d")):
        inside(float(x), float(y), "a line")
    for x in re.findall(r"H(-?[\d.]+)", path.get("d")):
        inside(float(x), 0, "a horizontal")
    for y in re.findall(r"V(-?[\d.]+)", path.get("d")):
        inside(0, float(y), "a vertical")
if root.tag != f"{space}svg" or len(texts) < 10:
    wrong.append("it is no drawing")
print("\n".join(wrong), end="\n" if wrong else "")
sys.exit(1 if wrong else 0)
