"""A page in a browser without a screen, where one is installed: what is shown of it at two widths."""

import json
import os
import re
import shutil
import struct
import subprocess
import zlib
from html import escape, unescape

BROWSERS = ("chromium", "chromium-browser", "google-chrome")
WIDTHS = (400, 1200)
HEIGHT = 1600
# the page stands in a frame of each width; what is seen there is told, before and behind the folding of the first list of steps
MEASURE = """<!DOCTYPE html><html><head><meta charset="utf-8"></head><body>%s<script>
addEventListener("load", function () {
    var told = Array.from(document.querySelectorAll("iframe")).map(function (frame) {
        var page = frame.contentDocument, steps = page.querySelector(".steps");
        var shown = Array.from(page.querySelectorAll("pre.output")).map(function (part) { return part.innerText; });
        var before = steps.innerText;
        steps.querySelector("summary").click();
        return { wide: page.documentElement.scrollWidth, shown: shown, open: before, folded: steps.innerText };
    });
    document.body.innerHTML = "<pre></pre>";
    document.querySelector("pre").textContent = JSON.stringify(told);
});
</script></body></html>
"""


def browser():
    return next((path for path in map(shutil.which, BROWSERS) if path), None)


def start(path, folder, words):
    """Runs the browser with these words, and gives what it writes."""
    command = [path, "--headless", "--disable-gpu", "--hide-scrollbars", "--user-data-dir=%s" % os.path.join(folder, "browser")]
    command += ["--no-sandbox"] if os.geteuid() == 0 else []
    return subprocess.run(command + words, stdout=subprocess.PIPE, stderr=subprocess.DEVNULL, timeout=120, check=False).stdout.decode("utf-8", "replace")


def lines_of(text):
    return [line for line in text.split("\n") if line]


def measured(path, folder, text):
    """What is seen of the page in a frame of each width."""
    frames = "".join('<iframe width="%d" height="%d" style="border: 0" srcdoc="%s"></iframe>' % (width, HEIGHT, escape(text)) for width in WIDTHS)
    with open(os.path.join(folder, "frames.html"), "w", encoding="utf-8") as file:
        file.write(MEASURE % frames)
    written = start(path, folder, ["--dump-dom", "file://" + os.path.join(folder, "frames.html")])
    return json.loads(unescape(re.search("<pre>(.*?)</pre>", written, re.DOTALL).group(1)))


def size_and_colours(data):
    """The size of a picture in PNG, and how many different bytes it has in its rows."""
    width, height = struct.unpack(">II", data[16:24])
    parts, at = [], 8
    while at < len(data):
        (length,) = struct.unpack(">I", data[at : at + 4])
        if data[at + 4 : at + 8] == b"IDAT":
            parts.append(data[at + 8 : at + 8 + length])
        at += length + 12
    return (width, height), len(set(zlib.decompress(b"".join(parts))))


def check_screenshots(report, path, folder):
    """Each is as large as was asked for, and has more than an empty page's few bytes."""
    for width in WIDTHS:
        out = os.path.join(folder, "screen.png")
        start(path, folder, ["--screenshot=%s" % out, "--window-size=%d,%d" % (width, HEIGHT), "file://" + os.path.join(folder, "out.html")])
        with open(out, "rb") as file:
            size, colours = size_and_colours(file.read())
        os.remove(out)
        report.check("screenshot, %d wide" % width, size == (width, HEIGHT) and colours > 40, "%s, %d" % (size, colours))


def check(report, folder, text, output):
    """The page shows the output, is no wider than it may be, and folds; it stands in the folder as out.html."""
    path = browser()
    if path is None:
        print("tools: the page in a browser skipped, since no Chromium is installed")
        return
    for width, told in zip(WIDTHS, measured(path, folder, text)):
        what = "page, %d wide" % width
        report.compare("%s: output" % what, lines_of(output), lines_of("\n".join(told["shown"])))
        report.check("%s: width" % what, told["wide"] <= width, str(told["wide"]))
        report.check("%s: folding" % what, "1. one" in told["open"] and "1. one" not in told["folded"] and "world 0" in told["folded"], str(told))
    check_screenshots(report, path, folder)
