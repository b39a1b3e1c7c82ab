#!/usr/bin/env python3
"""Makes pictures of sample reports in a browser, to be looked at.

usage: tools/report/report_pictures.py DIR [COUNT..]     COUNT: numbers of logs, else 1 30 3000

Writes DIR/COUNT.html, the page of a made-up directory, which the toolchain makes from the sources
without a proof; then DIR/COUNT-light.png and DIR/COUNT-dark.png, and DIR/COUNT.pdf as it is
printed. The browser is $BROWSER, else chromium.

       tools/report/report_pictures.py --page FILE      writes the picture of the operator's page,
                                                        docs/report.png
"""

import os
import subprocess
import sys
import tempfile
from pathlib import Path

TOP = Path(__file__).resolve().parent.parent.parent
CRATE = TOP / "crates" / "bk_report_sample"
PIECE = 1_000_000
WIDTH = 1200
SCHEMES = {"light": 1, "dark": 0}
# The page of which docs/report.png is a picture: its logs, and how much of it is seen.
PAGE_LOGS, PAGE_HEIGHT, PAGE_SCALE = 6, 1120, 0.75


def page(count):
    """Returns the page of a made-up directory, which the program writes in pieces."""
    found, piece = b"", 0
    while len(found) == PIECE * piece:
        command = ["rt", "try", "--", str(count), str(piece)]
        ran = subprocess.run(command, cwd=CRATE, stdin=subprocess.DEVNULL, capture_output=True)
        if ran.returncode != 0:
            sys.exit(ran.stderr.decode())
        found += ran.stdout
        piece += 1
    return found


def browse(*words):
    browser = os.environ.get("BROWSER", "chromium")
    command = [
        browser,
        "--headless=new",
        "--no-sandbox",
        "--disable-gpu",
        "--hide-scrollbars",
        *words,
    ]
    ran = subprocess.run(command, capture_output=True, text=True)
    if ran.returncode != 0:
        sys.exit(ran.stderr)
    return ran.stdout


def picture(html, scheme, height, file, scale=1):
    """Writes a picture of a page in a window of this height."""
    browse(
        f"--force-device-scale-factor={scale}",
        f"--blink-settings=preferredColorScheme={SCHEMES[scheme]}",
        f"--window-size={WIDTH},{height}",
        f"--screenshot={file}",
        html.resolve().as_uri(),
    )


def take(folder, count):
    file = folder / f"{count}.html"
    file.write_bytes(page(count))
    for scheme in SCHEMES:
        picture(file, scheme, 1900 if count < 10 else 3600, folder / f"{count}-{scheme}.png")
    browse(
        f"--print-to-pdf={folder / f'{count}.pdf'}",
        "--no-pdf-header-footer",
        file.resolve().as_uri(),
    )


def main(words):
    if len(words) == 2 and words[0] == "--page":
        with tempfile.TemporaryDirectory() as folder:
            file = Path(folder) / "page.html"
            file.write_bytes(page(PAGE_LOGS))
            picture(file, "light", PAGE_HEIGHT, words[1], PAGE_SCALE)
        return
    if not words or words[0].startswith("-"):
        sys.exit(__doc__)
    folder = Path(words[0])
    folder.mkdir(parents=True, exist_ok=True)
    for count in [int(it) for it in words[1:]] or [1, 30, 3000]:
        take(folder, count)


main(sys.argv[1:])
