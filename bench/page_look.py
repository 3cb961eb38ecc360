#!/usr/bin/env python3
"""Opens a page in headless Chromium. Usage: page_look.py PAGE RUN

RUN is what `run` printed. Says the verdict, the rows of points beside the lines of RUN, the requests,
the lines on the console, and whether it overflows at 400 pixels; pictures stand beside the page.
"""
import os, re, subprocess, sys, tempfile, html

page, run = os.path.abspath(sys.argv[1]), sys.argv[2]
chromium = os.environ.get("CHROMIUM", "chromium")
WORDS = ["--headless=new", "--no-sandbox", "--disable-gpu", "--hide-scrollbars",
         "--allow-file-access-from-files", "--enable-logging=stderr", "--virtual-time-budget=20000"]
LOOK = """<!DOCTYPE html><meta charset="utf-8"><body style="margin:0"><iframe id="f" src="%s"
 style="width:%dpx;height:900px;border:0"></iframe><pre id="said">nothing</pre><script>
f.onload = () => { const d = f.contentDocument, w = f.contentWindow, say = [];
 for (const x of d.querySelectorAll('details')) x.open = true;
 say.push('verdict ' + d.querySelector('.verdict').textContent);
 say.push('name ' + d.querySelector('h1').textContent);
 say.push('points ' + d.querySelectorAll('.points tbody tr').length);
 say.push('labels ' + d.querySelectorAll('section table:not(.points) a[href]').length);
 say.push('failures ' + d.querySelectorAll('article').length);
 say.push('scripts ' + d.querySelectorAll('script,link,img,iframe').length);
 say.push('requests ' + w.performance.getEntriesByType('resource').length);
 say.push('wide ' + (d.documentElement.scrollWidth - w.innerWidth));
 say.push('dead ' + [...d.querySelectorAll('a[href]')].filter(a => !d.getElementById(a.getAttribute('href').slice(1))).length);
 said.textContent = say.join('\\n'); };
</script>"""

def look(width):
    with tempfile.TemporaryDirectory() as own:
        name = os.path.join(own, "look.html")
        open(name, "w").write(LOOK % ("file://" + page, width))
        p = subprocess.run([chromium, *WORDS, "--dump-dom", "file://" + name],
                           stdout=subprocess.PIPE, stderr=subprocess.PIPE, text=True)
    said = re.search(r'<pre id="said">(.*?)</pre>', p.stdout, re.S)
    console = [l for l in p.stderr.splitlines() if "CONSOLE" in l]
    return dict(l.split(" ", 1) for l in html.unescape(said.group(1)).split("\n")), console

def picture(width, height, ending, dark=False):
    words = [chromium, *WORDS, "--window-size=%d,%d" % (width, height),
             "--screenshot=" + page[:-5] + ending + ".png"]
    if dark: words.append("--blink-settings=preferredColorScheme=0")
    subprocess.run(words + ["file://" + page], stdout=subprocess.DEVNULL, stderr=subprocess.DEVNULL)

lines = open(run).read().splitlines()
points = sum(1 for l in lines if l.split(" ")[0] in ("case", "unsolved", "skipped"))
failed = sum(1 for l in lines if l.startswith("FAIL "))
for width in (1200, 400):
    found, console = look(width)
    good = (int(found["points"]) == points and int(found["failures"]) == failed
            and found["requests"] == "0" and found["scripts"] == "0" and found["dead"] == "0"
            and int(found["wide"]) <= 0 and not console)
    print("%d pixels: %s; of the run %d rows, %d failures; console %d; %s" % (
        width, ", ".join("%s %s" % p for p in found.items()), points, failed, len(console),
        "good" if good else "BAD"))
picture(1200, 1000, "-wide"); picture(400, 900, "-narrow"); picture(1200, 1000, "-dark", True)
