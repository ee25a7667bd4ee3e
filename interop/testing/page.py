"""The drawings, and the page in a real browser; docs/cases compares the pictures of the documents."""
from __future__ import annotations

import glob
import html
import json
import os
import re
import shutil
import subprocess
import sys
import tempfile
import xml.etree.ElementTree
from typing import Any, Optional

import answers
from answers import ongq
from ongq import drawing

DAYS = 20

# One row of each form of a period and a date, of which some are there on some days alone.
ALL_FORMS = """CREATE TABLE x (id INT, name TEXT, due DATE, vt PERIOD);
INSERT INTO x VALUES
    (1, 'b', ONGOING 'now', PERIOD '[2026-01-01,now)'),
    (-9223372036854775808, 'é<b>&', ONGOING '2026-03-01', PERIOD '[2026-01-01,2026-06-01)'),
    (30, 'B', ONGOING '+2026-03-01', PERIOD '[2026-01-01,+2026-04-01)'),
    (4, '\U0001f600', ONGOING '2026-03-01+', PERIOD '[2026-01-01,2026-04-01+)'),
    (4, '\ufb01', ONGOING '2026-03-01+2026-05-01', PERIOD '[2026-01-15+2026-03-01,2026-04-01+2026-06-01)'),
    (6, '', ONGOING 'infinity', PERIOD '[now,2026-07-01)'),
    (7, '</script>', ONGOING '-infinity', PERIOD '[2026-03-01,2026-02-01)'),
    (7, 'x', ONGOING 'now', PERIOD '[now,infinity)'),
    (7, 'x', ONGOING '2026-01-01+', PERIOD '[now,infinity)'),
    (8, 'y', ONGOING '-000044-03-15', PERIOD '[-009999-01-01,9999-12-31)'),
    (9, 'z', ONGOING '+2026-01-01', PERIOD '[2026-02-01+2026-05-01,2026-03-01+2026-06-01)');
DELETE FROM x WHERE id < 6 AND ONGOING 'now' >= DATE '2026-06-15';
DELETE FROM x WHERE name = 'B' AND ONGOING 'now' >= DATE '2026-02-01' AND ONGOING 'now' < DATE '2026-02-20';
SAVE x TO 'all_forms.csv';
"""

# Asks each page on each day, by its field and by its slider, and writes the cells that it shows then.
HARNESS = """<!DOCTYPE html><meta charset="utf-8"><pre id="found"></pre><script>
const asked = %s, found = {};
function shown(page) {
    const texts = row => [...row.querySelectorAll("[role=cell]")].map(cell => cell.textContent);
    return [...page.querySelectorAll("#rows [role=row]")].map(texts);
}
function ask(page, name, value) {
    page.getElementById(name).value = value;
    page.getElementById(name).dispatchEvent(new Event("input"));
    return shown(page);
}
for (const [file, days] of Object.entries(asked)) {
    const frame = document.createElement("iframe");
    frame.width = 1200; frame.height = 3000; frame.src = file;
    frame.onload = () => {
        const page = frame.contentDocument;
        const field = page.getElementById("day");
        found[file] = days.map(([text, number]) => [text, ask(page, "day", text), ask(page, "slider", number), field.value]);
        document.getElementById("found").textContent = JSON.stringify(found);
    };
    document.body.append(frame);
}
</script>"""

# Moves the day of a page by keys, asks for rows by words, and writes the day and the number of rows that are shown then.
KEYS = """<!DOCTYPE html><meta charset="utf-8"><pre id="found"></pre><script>
const frame = document.createElement("iframe"), found = [];
frame.width = 1200; frame.height = 600; frame.src = "many.html#2026-01-31";
frame.onload = () => {
    const page = frame.contentDocument, at = name => page.getElementById(name);
    const press = (key, shiftKey, target) => {
        target.dispatchEvent(new KeyboardEvent("keydown", { key, shiftKey, bubbles: true }));
        found.push(at("day").value);
    };
    for (const [key, shift, name] of %s) press(key, shift, name ? at(name) : page.body);
    for (const words of %s) {
        at("filter").value = words;
        at("filter").dispatchEvent(new Event("input"));
        found.push(at("count").textContent);
    }
    at("list").scrollTop = 1e6;
    found.push(page.querySelectorAll("#rows [role=row]").length <= 30);
    document.getElementById("found").textContent = JSON.stringify(found);
};
document.body.append(frame);
</script>"""
PRESSED = [("ArrowRight", False, "", "2026-02-01"), ("ArrowLeft", False, "slider", "2026-01-31"), ("ArrowRight", True, "list", "2026-02-28"),
           ("ArrowLeft", True, "", "2026-01-28"), ("ArrowLeft", False, "day", "2026-01-28"), ("ArrowRight", True, "filter", "2026-01-28")]
WORDS, MANY = ["", "ROW 17", " nothing"], 2000


def browser() -> Optional[str]:
    """Chromium, where it is there and shows a page; else None."""
    found = [path for path in map(shutil.which, ("chromium", "chromium-browser", "google-chrome")) if path]
    return found[0] if found and "<p>shown" in dom_of(found[0], "data:text/html,<p>shown") else None


def dom_of(program: str, address: str) -> str:
    """What the browser has made of a page."""
    words = ["--headless=new", "--no-sandbox", "--disable-gpu", "--disable-dev-shm-usage", "--allow-file-access-from-files", "--dump-dom"]
    profile = tempfile.mkdtemp(prefix="ongq-browser-")
    try:
        done = subprocess.run([program, *words, f"--user-data-dir={profile}", address], stdin=subprocess.DEVNULL,
                              capture_output=True, timeout=240, env={**os.environ, "HOME": profile})
    except subprocess.TimeoutExpired:
        return ""
    finally:
        shutil.rmtree(profile, ignore_errors=True)
    return done.stdout.decode()


def draw(path: str, *words: str) -> str:
    done = subprocess.run([sys.executable, f"{answers.INTEROP}/draw", path, *words], capture_output=True,
                          env={**os.environ, "COLUMNS": "100"})
    if done.returncode:
        raise AssertionError(f"draw: {done.stderr.decode()}")
    return done.stdout.decode()


def is_saved(path: str) -> bool:
    with open(path, encoding="utf-8") as file:
        return re.match("ongq:2$|.*,rows:", file.readline()) is not None


def files(test: Any) -> list[str]:
    """The saved files that are drawn: those of the examples, one with each form, and some random ones."""
    answers.run(test.program, test.folder, ALL_FORMS)
    saved = [path for path in sorted(glob.glob(f"{answers.TOP}/examples/*/*.csv")) if is_saved(path)]
    return saved + [test.file(name) for name in ("all_forms.csv", "case_4.csv", "case_10.csv", "case_11.csv")]


def try_drawn_files(test: Any) -> None:
    """What the pictures of the documents are drawn of is what the examples save today; docs/cases compares the pictures."""
    far = "PERIOD(START(vt), LEAST(END(vt), ONGOING 'now')) AS so_far"
    saves = f"KEEP b AS SELECT id, {far} FROM bugs; SAVE b TO 'bugs.csv'; KEEP p AS SELECT pid, {far} FROM patch; SAVE p TO 'patch.csv';"
    with open(f"{answers.TOP}/examples/patches.ongq", encoding="utf-8") as script:
        answers.run(test.program, test.folder, script.read() + saves)
    for name, saved in (("due", "due.due.csv"), ("bugs", "bugs.csv"), ("patch", "patch.csv")):
        with open(f"{answers.TOP}/docs/{name}.csv", encoding="utf-8") as file:
            test.same("drawings", f"docs/{name}.csv is what its example saves", test.text(saved), file.read())


def shown_on(shapes: list, day: int) -> list[tuple[int, int]]:
    """The days from start to end that the shapes of a period show as of a day, where there are any."""
    found = []
    for shape in shapes:
        half = len(shape) // 2
        starts, ends = ({asked: at for asked, at in side} for side in (shape[:half], shape[half:]))
        first = max((asked for asked in starts if asked <= day), default=None)
        last = min((asked for asked in starts if asked >= day), default=None)
        if first is not None and last is not None:
            span = tuple(side[first] + (day - first) * (side[last] > side[first]) for side in (starts, ends))
            found += [span] if span[0] < span[1] else []
    return found


def try_shapes(test: Any, path: str) -> None:
    """The shapes of a period show on each day just the days that it has."""
    for row in drawing.rows_of(0, ongq.read(path)):
        if row.period:
            marked = [day for point in row.period for day in point if ongq.FIRST <= day <= ongq.LAST] or [ongq.Day(20000)]
            near = sorted({day + step for day in marked for step in (-9, -1, 0, 1, 9)})
            days = [ongq.Day(day) for day in near if ongq.FIRST <= day <= ongq.LAST]
            shapes = drawing.corners(row.period, days[0], days[-1])
            for day in days:
                span = row.period.at(day)
                test.same("shapes", f"{row.label} of {path}, as of {day}", [tuple(span)] if span.start < span.end else [], shown_on(shapes, day))


def try_points(test: Any, path: str) -> None:
    """The parts of a date say on each day whether it moves on the next one, or stays, also where it moves for ever."""
    for row, _ in ongq.read(path).entries:
        for point in (value for value in row if isinstance(value, ongq.Point)):
            parts = drawing.parts_of(point)
            near = {day + step for end in point for day in (end, 20000) for step in (-9, -1, 0, 1, 9)} | {ongq.FIRST, ongq.LAST - 1}
            for day in (ongq.Day(day) for day in sorted(near) if ongq.FIRST <= day < ongq.LAST):
                moves = point.at(day) != point.at(ongq.Day(day + 1))
                wanted = (moves, not moves and point.low == point.high == day)
                found = tuple(any(part.sort == sort and part.low <= day < part.high for part in parts) for sort in ("moves", "stays"))
                test.same("points", f"{point} of {path}, as of {day}", wanted, found)


def try_moves(test: Any, path: str) -> None:
    """In the drawing the line of a date that moves goes from where it begins to where it stops, or to the edge."""
    saved, tree = ongq.read(path), xml.etree.ElementTree.fromstring(draw(path))
    over, left = drawing.window(saved.entries, None, None, 720), 0.0
    for node in tree.iter("{http://www.w3.org/2000/svg}rect"):
        if node.get("class") == "there" and node.get("width") == "720.0":  # a row that is there on all days
            left = float(node.get("x", ""))
    wanted = []
    for row, _ in sorted(saved.entries):
        for point in (value for value in row if isinstance(value, ongq.Point)):
            if point.low < point.high and point.low < over.high and point.high > over.low:
                ends = [(min(max(day, over.low), over.high) - over.low) * 720 / (over.high - over.low) for day in point]
                wanted.append(tuple(f"{left + end:.1f}" for end in ends))
    drawn = re.findall('class="moves" d="M([0-9.]+) [0-9.]+H([0-9.]+)"', draw(path).split('class="name"', 1)[1].rsplit("</g>", 1)[0])
    test.same("points", f"the lines of {path}", wanted, drawn)


def try_text(test: Any, path: str) -> None:
    """In characters a lane has its sign in just the columns that have a day of the row, in each of its ranges."""
    saved, lines = ongq.read(path), iter(draw(path, "--text").splitlines()[3:])
    all_lanes = drawing.lanes(saved)
    room = drawing.widest([drawing.names_said(saved), *drawing.labels_of(all_lanes)], 50)
    over = drawing.window(saved.entries, None, None, max(20, 98 - room))
    for lane in all_lanes:
        label = drawing.short(lane.label, room)
        head = label + " " * (room + 1 - drawing.places_of(label))
        line = next(line for line in lines if not line.startswith("  ") and line.startswith(head.rstrip()))
        ranges = [(max(low, over.low), min(high, over.high)) for low, high in lane.days if low < over.high and high > over.low]
        wanted = {column for ends in ranges for column in range(*(int((day - over.low) * over.width / (over.high - over.low)) + add
                                                                  for day, add in ((ends[0], 0), (ends[1] - 1, 1))))}
        test.same("lanes as text", f"{label} of {path}", wanted, {at for at, sign in enumerate(line[len(head):]) if sign == "-"})


def try_drawing(test: Any, path: str) -> None:
    """A lane for each row; the same bytes each time; a name, plain words and colours for a dark reader; no date or period cut."""
    saved, drawn, asked, text = ongq.read(path), draw(path), draw(path, "--asked"), draw(path, "--text")
    tree = xml.etree.ElementTree.fromstring(drawn)
    texts = [(node.get("class"), node.text) for node in tree.iter("{http://www.w3.org/2000/svg}text")]
    test.same("drawings", f"lanes of {path}", len(saved.entries), sum(sort == "name" for sort, _ in texts))
    test.same("drawings", f"lanes of {path}, drawn again", (drawn, asked), (draw(path), draw(path, "--asked")))
    test.same("drawings", f"title of {path}", ("title", os.path.basename(path)[:-4]), texts[0])
    test.same("drawings", f"legend of {path}", True, ("small", "the row is there on these days") in texts)
    test.same("drawings", f"dark colours of {path}", True, "prefers-color-scheme: dark" in drawn and "prefers-color-scheme: dark" in asked)
    test.same("drawings", f"what is asked of {path}", "{http://www.w3.org/2000/svg}svg", xml.etree.ElementTree.fromstring(asked).tag)
    first = [line for line in text.rsplit("\n\n", 1)[0].splitlines()[3:] if not line.startswith("  ")]
    test.same("drawings", f"lanes of {path} as text", True, len(first) <= len(saved.entries))
    cut = [str(value) for row, _ in saved.entries for value in row if isinstance(value, tuple) and str(value) not in text]
    test.same("drawings", f"dates and periods of {path} as text", [], cut)


def try_drawings(test: Any) -> None:
    try_drawn_files(test)
    for path in files(test):
        try_drawing(test, path)
        try_shapes(test, path)
        try_points(test, path)
        try_text(test, path)
    try_moves(test, test.file("all_forms.csv"))
    titled = draw(test.file("all_forms.csv"), "--title", "<Forms> & more")
    test.same("drawings", "a title that is asked for", "<Forms> & more", xml.etree.ElementTree.fromstring(titled)[0].text)


def try_keys(test: Any, program: str) -> None:
    """The keys and the box for words of a page with many rows, of which it draws those in sight alone."""
    rows = "".join(f'{number},row,"[2026-01-01,now)",*\n' for number in range(MANY))
    test.put("many.csv", f"ongq:2\nid:INT,name:TEXT,vt:PERIOD\n{rows}rows:{MANY}\n")
    test.put("many.html", draw(test.file("many.csv"), "--html"))
    test.put("keys.html", KEYS % (json.dumps([one[:3] for one in PRESSED]), json.dumps(WORDS)))
    shown = [" ".join(map(str, row)) for row in ongq.read(test.file("many.csv")).rows(PRESSED[-1][3])]
    counts = [sum(all(word in row for word in words.lower().split()) for row in shown) for words in WORDS]
    wanted = [one[3] for one in PRESSED] + [f"{count:,} of {MANY:,} rows" if count < MANY else f"{MANY:,} rows" for count in counts]
    test.same("keys and words of the page", "all", [*wanted, True], found_by(test, program, "keys.html"))


def try_page(test: Any, program: str) -> None:
    """The page shows on each day what ongq prints, by the field, and by the slider where it reaches."""
    asked, wanted = {}, {}
    for number, path in enumerate(files(test)):
        with open(path, encoding="utf-8") as file:
            days = answers.days_around(file.read(), path, False)[::40 // DAYS]
        test.put(f"page_{number}.html", draw(path, "--html"))
        asked[f"page_{number}.html"] = [(day, int(ongq.read_day(day))) for day in days]
        shutil.copy(path, test.file("f"))
        output = answers.run(test.program, test.folder, f"{answers.MARK}OPEN r FROM 'f';\n{answers.prints('r', days)}")
        wanted[f"page_{number}.html"] = (path, answers.printed(output, days))
    test.put("harness.html", HARNESS % json.dumps(asked))
    compare(test, wanted, found_by(test, program, "harness.html"))
    try_keys(test, program)


def found_by(test: Any, program: str, name: str) -> Any:
    parts = re.search('<pre id="found">(.*?)</pre>', dom_of(program, "file://" + test.file(name)), re.DOTALL)
    return json.loads(html.unescape(parts[1]) or "{}") if parts else {}


def compare(test: Any, wanted: dict, found: dict) -> None:
    test.same("pages that were shown", "all", sorted(wanted), sorted(found))
    for page, shown in found.items():
        path, printed = wanted[page]
        for day, by_field, by_slider, slider_day in shown:
            rows = printed[day]
            test.same("rows that the page shows", f"{path}, as of {day}", rows, by_field)
            if slider_day == day:
                test.same("rows that the page shows by its slider", f"{path}, as of {day}", rows, by_slider)
