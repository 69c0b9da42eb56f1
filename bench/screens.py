#!/usr/bin/python3
"""The operator's page in a real browser:
    bench/screens.py [FOLDER [PROGRAM]]     into FOLDER (docs), by PROGRAM (the one that is built)
takes three pictures of a ring of 16 nodes into which four connections inserted: ring-still.png,
ring-join.png while a node that joined is given its pairs, and ring-crash.png after a node left and
another crashed, all by the page's own buttons. It takes some two minutes.
Needs Debian's chromium, chromium-driver and python3-selenium, and the toolchain if no PROGRAM is
named; pngquant makes the pictures smaller if it is there; it installs nothing. It ends with a status other than 0 where the page does not show what it
should.
"""
import pathlib
import random
import shutil
import subprocess
import sys
import tempfile
import time

try:
    from selenium import webdriver
    from selenium.webdriver.chrome.service import Service
    from selenium.webdriver.common.by import By
    from selenium.webdriver.support.ui import WebDriverWait
except ImportError:
    sys.exit("bench/screens.py needs python3-selenium")

TOP = pathlib.Path(__file__).resolve().parent.parent
PROGRAM = TOP / "crates/chord_app/out/chord_app"


def plan(folder):
    """A plan of 16 nodes at random places, with the same seed each time."""
    rolls = random.Random(11)
    text = "slots = 24\ncallers = 64\nsuccessors = 4\ntries = 3\nwait = 100\n"
    for _ in range(16):
        text += f'[[node]]\nid = "{rolls.getrandbits(128):032x}"\nstore = "tree"\n'
    path = pathlib.Path(folder) / "plan.toml"
    path.write_text(text)
    return path


def browser():
    options = webdriver.ChromeOptions()
    options.binary_location = "/usr/bin/chromium"
    for word in ("--headless=new", "--no-sandbox", "--disable-gpu", "--hide-scrollbars"):
        options.add_argument(word)
    page = webdriver.Chrome(service=Service("/usr/bin/chromedriver"), options=options)
    page.execute_cdp_cmd(
        "Emulation.setDeviceMetricsOverride",
        {"width": 1280, "height": 800, "deviceScaleFactor": 1, "mobile": False},
    )
    return page


def phases(page):
    """The phase of each node in the table."""
    rows = [row.find_elements(By.TAG_NAME, "td") for row in cells(page)]
    return {row[0].text: row[2].text for row in rows}


def press(page, label):
    names = f"//button[@aria-label='{label}' or normalize-space()='{label}']"
    page.find_element(By.XPATH, names).click()


def cells(page):
    return page.find_elements(By.CSS_SELECTOR, "#nodes tr")


# A handover takes some milliseconds, and the page looks twice a second. So the page is given the
# first look at the ring that has a handover under way, again and again, until it is told to go on.
HOLD = """
window.looked = window.fetch;
window.held = null;
window.fetch = async (path, options) => {
  if (path !== "/ring") return window.looked(path, options);
  for (let tries = 0; window.held === null && tries < 1000; tries += 1) {
    const text = await (await window.looked(path)).text();
    if (JSON.parse(text).nodes.some((node) => node.outbox.length > 0)) window.held = text;
  }
  return window.held === null ? window.looked(path, options) : new Response(window.held);
};
"""
GO_ON = "window.fetch = window.looked;"


def shoot_join(page, folder):
    """Nodes join until a picture has an arrow, which a handover under way has."""
    page.execute_script(HOLD)
    for _ in range(16, 24):
        press(page, "Join a node")
        ends = time.monotonic() + 6
        while time.monotonic() < ends:
            if page.find_elements(By.CSS_SELECTOR, "#circle path[marker-end]"):
                page.save_screenshot(str(folder / "ring-join.png"))
                page.execute_script(GO_ON)
                return
            time.sleep(0.1)
    sys.exit("no handover was seen")


def shoot(page, folder):
    wait = WebDriverWait(page, 30)
    wait.until(lambda page: len(cells(page)) == 16)
    time.sleep(62)
    page.save_screenshot(str(folder / "ring-still.png"))
    shoot_join(page, folder)
    press(page, "Leave: node 5")
    wait.until(lambda page: "5" not in phases(page))
    press(page, "Crash: node 9")
    page.switch_to.alert.accept()
    wait.until(lambda page: phases(page)["9"] == "crashed")
    time.sleep(5)
    page.save_screenshot(str(folder / "ring-crash.png"))


def shrink(folder):
    """Makes the pictures smaller, of 256 colours."""
    if shutil.which("pngquant"):
        names = [str(folder / f"ring-{name}.png") for name in ("still", "join", "crash")]
        subprocess.run(["pngquant", "--force", "--ext", ".png", "256", *names], check=True)


def main():
    folder = pathlib.Path(sys.argv[1] if len(sys.argv) > 1 else TOP / "docs")
    program = pathlib.Path(sys.argv[2]).resolve() if len(sys.argv) > 2 else PROGRAM
    if len(sys.argv) < 3:
        subprocess.run(
            ["rt", "run", "--", "--version"], cwd=TOP / "crates/chord_app", check=True,
            stdout=subprocess.DEVNULL,
        )
    with tempfile.TemporaryDirectory() as room:
        server = subprocess.Popen(
            [program, "serve", "--plan", plan(room), "--port", "0", "--operator", "0", "--stay", "--until-input-ends"],
            stdin=subprocess.PIPE, stdout=subprocess.PIPE, text=True,
        )
        ports = [server.stdout.readline().rsplit(":", 1)[1].strip() for _ in range(2)]
        load = subprocess.Popen(
            [program, "load", "--port", ports[0], "--connections", "4", "--kind", "insert",
             "--keys", "400000", "--seconds", "180"], stdout=subprocess.DEVNULL,
        )
        page = browser()
        try:
            page.get(f"http://127.0.0.1:{ports[1]}/")
            shoot(page, folder)
        finally:
            page.quit()
            load.kill()
            load.wait()
            server.stdin.close()
            ended = server.wait(20)
    shrink(folder)
    print(f"{folder}/ring-still.png, ring-join.png, ring-crash.png; the server ended with {ended}")
    sys.exit(1 if ended else 0)


main()
