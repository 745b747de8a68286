#!/usr/bin/env python3
"""Makes the pictures of the preview's page: preview.png, an example with the pointer on it, and preview_error.png, a slip in it.

    docs/pictures/page.py [FOLDER]

They are made in FOLDER, or beside this script, by a headless Chromium and ffmpeg, which leaves them few colours. The program is built
first, unless the environment names one as AVSSERVE. Another Chromium, or other fonts, make other pictures.
"""

import os
import shutil
import subprocess
import sys
import tempfile

HERE = os.path.dirname(os.path.abspath(__file__))
ROOT = os.path.dirname(os.path.dirname(HERE))
INTO = os.path.abspath(sys.argv[1] if len(sys.argv) > 1 else HERE)
sys.path.insert(0, os.path.join(ROOT, "tests"))
from browser import Browser  # noqa: E402

SIZE = {"width": 1000, "height": 620}
POINTER = (250, 250)
FEW_COLOURS = ("split[a][b];[a]palettegen=max_colors=96:reserve_transparent=0[p];[b][p]paletteuse=dither=none")


def keep(page, name, folder):
    """Keeps a picture of the page, with few colours."""
    whole = os.path.join(folder, name)
    page.picture(whole)
    subprocess.run(["ffmpeg", "-nostdin", "-v", "error", "-y", "-i", whole, "-vf", FEW_COLOURS, "-map_metadata", "-1", "-bitexact",
                    os.path.join(INTO, name)], check=True)
    print(os.path.getsize(os.path.join(INTO, name)), name)


def main():
    if "AVSSERVE" not in os.environ:
        subprocess.run([os.path.join(ROOT, "build")], check=True, stdout=subprocess.DEVNULL)
    program = os.path.abspath(os.environ.get("AVSSERVE", os.path.join(ROOT, "bin", "avsserve")))
    with tempfile.TemporaryDirectory() as folder:
        shutil.copytree(os.path.join(ROOT, "examples"), os.path.join(folder, "examples"))
        script = os.path.join("examples", "trim_crop.avs")
        server = subprocess.Popen([sys.executable, os.path.join(ROOT, "tools", "preview.py"), "--no-browser", script, "--program", program],
                                  cwd=folder, stdin=subprocess.DEVNULL, stdout=subprocess.PIPE, text=True)
        try:
            with Browser(**SIZE) as page:
                page.open(server.stdout.readline().strip())
                page.until("view.seen === 0")
                page.keys("10")
                page.key("Enter")
                page.until("view.seen === 10")
                page.mouse("mouseMoved", *POINTER)
                keep(page, "preview.png", folder)
                with open(os.path.join(folder, script), encoding="utf-8") as file:
                    text = file.read()
                with open(os.path.join(folder, script), "w", encoding="utf-8") as file:
                    file.write(text.replace("Crop(", "Croq("))
                page.until("!$('error').hidden")
                keep(page, "preview_error.png", folder)
        finally:
            server.terminate()
            server.wait()


if __name__ == "__main__":
    main()
