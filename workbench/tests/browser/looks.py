"""How a page looks: nothing is cut off, and every text stands out from its ground, dark and light."""

import pathlib

LOOK = (pathlib.Path(__file__).parent / "look.js").read_text(encoding="utf-8")
WIDTHS = [(1280, 900), (1920, 1080)]
THEMES = ["light", "dark"]
CONTRAST = 4.5


# Every page that is looked at: its name, and how it is opened.
def views(tester, examples):
    story = examples / "incident5.bin"
    yield "one run", lambda link: tester.open(story, link=link), 6
    yield "two runs", lambda link: tester.open(story, "--mistake", "WrongDigestRecorded", link=link), 19
    yield "a long run", lambda link: tester.open(tester.folder / "long.bin", link=link), 1500
    yield "a refused one", lambda link: tester.open(examples / "edge_k.bin", status=1, link=link), 0


# Looks at a page at each width, dark and light.
def check(tester, view):
    name, load, at = view
    for width, height in WIDTHS:
        tester.browser.size(width, height)
        grounds = []
        for theme in THEMES:
            load(f"#step={at}&theme={theme}")
            look = tester.browser.run(LOOK, CONTRAST)
            where = f"{name}, {width} wide, {theme}"
            for what in ("beyond", "cut", "faint", "unnamed"):
                if look[what]:
                    raise RuntimeError(f"{where}: {what}: {look[what][:5]}")
            grounds.append(look["ground"])
        if grounds[0] == grounds[1]:
            raise RuntimeError(f"{name}: dark is as light: {grounds[0]}")
