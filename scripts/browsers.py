"""Chromium without a window, which scripts drive by Selenium. Both are Debian's packages, for Debian's own Python.

A script that drives it runs by `driven`; a module that imports Selenium can't run otherwise.
"""

import os
import subprocess
import tempfile

from programs import install_all

PYTHON, CHROMIUM, DRIVER = "/usr/bin/python3", "/usr/bin/chromium", "/usr/bin/chromedriver"
# A font for Chinese, Japanese and Korean, for pictures.
FONT = "/usr/share/fonts/truetype/droid/DroidSansFallbackFull.ttf"
FILES = {PYTHON: "python3", CHROMIUM: "chromium", DRIVER: "chromium-driver", FONT: "fonts-droid-fallback"}
# A phone, a tablet and a desk.
PHONE, TABLET, DESK = (390, 844), (820, 1180), (1280, 900)


def driven(module, *words):
    """Runs a module that drives the browser, by Debian's Python. The status."""
    install_all({"selenium": "python3-selenium"}, FILES)
    # (the browser leaves files where temporary ones are)
    with tempfile.TemporaryDirectory(prefix="browser-", ignore_cleanup_errors=True) as room:
        ran = subprocess.run([PYTHON, "-B", module, *words], stdin=subprocess.DEVNULL,
                             env=os.environ | {"TMPDIR": room}, check=False)
    return ran.returncode


def browser(*more, downloads=None, is_offline=True):
    """A browser whose names of hosts lead nowhere, and which has no network at all if it is offline."""
    from selenium import webdriver
    from selenium.webdriver.chrome.service import Service

    options = webdriver.ChromeOptions()
    for it in ("--headless=new", "--no-sandbox", "--disable-gpu", "--disable-dev-shm-usage", "--hide-scrollbars",
               "--host-resolver-rules=MAP * ~NOTFOUND, EXCLUDE 127.0.0.1", "--disable-background-networking", *more):
        options.add_argument(it)
    options.set_capability("goog:loggingPrefs", {"performance": "ALL", "browser": "ALL"})
    if downloads:
        options.add_experimental_option("prefs", {"download.default_directory": downloads})
    options.binary_location = CHROMIUM
    driver = webdriver.Chrome(service=Service(DRIVER), options=options)
    if is_offline:
        offline = {"offline": True, "latency": 0, "downloadThroughput": 0, "uploadThroughput": 0}
        driver.execute_cdp_cmd("Network.enable", {})
        driver.execute_cdp_cmd("Network.emulateNetworkConditions", offline)
    return driver


def set_size(driver, size):
    metrics = {"width": size[0], "height": size[1], "deviceScaleFactor": 1, "mobile": size == PHONE}
    driver.execute_cdp_cmd("Emulation.setDeviceMetricsOverride", metrics)
