"""Pages in headless Chromium with software WebGL: a probe runs in the page and says what it found."""

import json
import os
import re
import shutil
import subprocess
import html

import pytest

from conftest import SECONDS

FLAGS = ["--headless=new", "--no-sandbox", "--use-angle=swiftshader", "--enable-unsafe-swiftshader", "--disable-dev-shm-usage",
         "--hide-scrollbars"]
# what the page complains about, from its first line on
EARS = """<script>window.faults = [];
addEventListener("error", (event) => faults.push(String(event.message)));
addEventListener("unhandledrejection", (event) => faults.push(String(event.reason)));
for (const kind of ["error", "warn"]) console[kind] = (...words) => faults.push(words.map(String).join(" "));</script>"""
PROBE = """<pre id="probe" hidden></pre><script>
const found = {};
try { (function () { %s })(); } catch (error) { faults.push("probe: " + error.stack); }
finally { document.getElementById("probe").textContent = JSON.stringify({ faults, ...found }); }</script>"""


def browser():
    """The browser, or a test that is skipped in words; where the gate runs it has to be there."""
    path = shutil.which("chromium")
    if path is None:
        (pytest.fail if os.environ.get("CI") else pytest.skip)("chromium is not installed (.ci/install installs it)")
    return path


def browse(room, page, probe, flags=(), size="900,600"):
    """What the probe, JavaScript that fills `found`, finds in a page; the picture is in page.png."""
    text = page.decode()
    assert text.count("</head>") == text.count("</body>") == 1
    tried = room / "tried.html"
    tried.write_text(text.replace("<head>", "<head>" + EARS, 1).replace("</body>", PROBE % probe + "</body>"), "utf-8")
    home = {"HOME": str(room), "XDG_CONFIG_HOME": str(room), "PATH": os.environ["PATH"]}
    done = subprocess.run([browser(), *FLAGS, *flags, f"--user-data-dir={room / 'profile'}", f"--window-size={size}",
                           f"--screenshot={room / 'page.png'}", "--dump-dom", tried.as_uri()],
                          env=home, capture_output=True, timeout=SECONDS, check=False)
    said = re.search(r'<pre id="probe" hidden="">(.*?)</pre>', done.stdout.decode(), re.S)
    assert said and said[1], f"the page did not run: status {done.returncode}\n{done.stderr.decode()[-2000:]}"
    return json.loads(html.unescape(said[1]))
