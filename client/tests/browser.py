"""A real browser at the pages of `pj web`: headless Chromium by Selenium."""

from __future__ import annotations

import os
import shutil
import subprocess
import sys
import tempfile
from importlib.util import find_spec
from typing import Any, Callable, Dict, List, Optional
from urllib.parse import urljoin

from support import PJ, Person

CHROMIUM, DRIVER = shutil.which("chromium"), shutil.which("chromedriver")
PACKAGES = ("flask", "jinja2", "pygments", "waitress", "selenium")
LACKING = [name for name in PACKAGES if find_spec(name) is None]
LACKING += [name for name, path in (("chromium", CHROMIUM), ("chromedriver", DRIVER)) if not path]
WHY = f"these are not installed: {', '.join(LACKING)} (tests/setup installs them)"
PATIENCE = 60  # seconds for a page
WIDE, NARROW = 1280, 390  # of a desk and of a telephone, in pixels
FLAGS = (
    "--headless=new", "--disable-gpu", "--disable-dev-shm-usage", "--hide-scrollbars",
    "--no-first-run", "--disable-background-networking", "--disable-component-update",
    "--disable-sync", "--disable-extensions", "--force-device-scale-factor=1",
    "--host-resolver-rules=MAP * ~NOTFOUND, EXCLUDE 127.0.0.1",  # it reaches this machine alone
)


class Pages:
    """`pj web` as a process: `edit` is the address with the token, where one was asked for."""

    def __init__(self, who: Person, *words: str):
        self.place = tempfile.mkdtemp(prefix="pj-test-")
        self.child = subprocess.Popen(
            [sys.executable, PJ, "web", "--port", "0", *words],
            cwd=who.folder, stdout=subprocess.PIPE, stdin=subprocess.DEVNULL,
            env={**os.environ, "PJ_AUTHOR": who.name, "XDG_CACHE_HOME": self.place},
        )
        assert self.child.stdout
        count = 2 if "--edit" in words else 1
        rows = [self.child.stdout.readline().decode() for _ in range(count)]
        self.edit, self.address = rows[0].split()[0], rows[-1].split()[0]

    def end(self) -> None:
        """Stops it."""
        self.child.kill()
        self.child.wait()
        assert self.child.stdout
        self.child.stdout.close()
        shutil.rmtree(self.place, ignore_errors=True)


class Browser:
    """A browser with one window."""

    def __init__(self) -> None:
        from selenium import webdriver
        from selenium.webdriver.chrome.service import Service

        options = webdriver.ChromeOptions()
        options.binary_location = CHROMIUM
        self.profile = tempfile.mkdtemp(prefix="pj-browser-")
        for flag in (*FLAGS, f"--user-data-dir={self.profile}"):
            options.add_argument(flag)
        if os.geteuid() == 0:
            options.add_argument("--no-sandbox")  # with which root cannot start it
        options.set_capability("goog:loggingPrefs", {"browser": "ALL"})
        self.driver = webdriver.Chrome(service=Service(DRIVER), options=options)
        self.size(WIDE)

    def end(self) -> None:
        """Closes it."""
        self.driver.quit()
        shutil.rmtree(self.profile, ignore_errors=True)

    def size(self, width: int, height: int = 900) -> None:
        """The size of the window, in pixels."""
        sizes = {"width": width, "height": height, "deviceScaleFactor": 1, "mobile": False}
        self.driver.execute_cdp_cmd("Emulation.setDeviceMetricsOverride", sizes)

    def dark(self, yes: bool) -> None:
        """Whether the reader's setting is dark."""
        feature = {"name": "prefers-color-scheme", "value": "dark" if yes else "light"}
        self.driver.execute_cdp_cmd("Emulation.setEmulatedMedia", {"features": [feature]})

    def go(self, address: str, path: str = "") -> None:
        """Opens a page."""
        self.driver.get(urljoin(address, path))

    def leave(self, act: Callable[[], Any]) -> None:
        """Does what leads to another page, and waits until that is there."""
        from selenium.webdriver.support.expected_conditions import staleness_of
        from selenium.webdriver.support.ui import WebDriverWait

        here = self.one("html")
        act()
        wait = WebDriverWait(self.driver, PATIENCE)
        wait.until(staleness_of(here))
        wait.until(lambda driver: driver.execute_script("return document.readyState") == "complete")

    def follow(self, element: Any) -> None:
        """Clicks on a link or a button that leads to another page."""
        self.leave(element.click)

    def all(self, selector: str) -> List[Any]:
        """The elements that a selector of CSS finds."""
        return list(self.driver.find_elements("css selector", selector))

    def one(self, selector: str) -> Any:
        """The first of them, which has to be there."""
        return self.driver.find_element("css selector", selector)

    def link(self, text: str) -> Any:
        """The first link with these words."""
        return self.driver.find_element("link text", text)

    def text(self, selector: str = "main") -> str:
        """What a reader sees of an element."""
        return str(self.one(selector).text)

    def run(self, script: str, *words: Any) -> Any:
        """What a script answers that the test runs; the pages have none."""
        return self.driver.execute_script(script, *words)

    def complaints(self) -> List[Dict[str, Any]]:
        """What the browser complained of since it was last asked: of a policy, or a fault."""
        return [row for row in self.driver.get_log("browser") if "favicon" not in row["message"]]

    def picture(self, path: str, height: Optional[int] = None) -> None:
        """The page as a picture, whole or its upper part."""
        whole = int(self.run("return document.documentElement.scrollHeight"))
        width = int(self.run("return window.innerWidth"))
        self.size(width, min(height or whole, whole))
        self.driver.save_screenshot(path)
