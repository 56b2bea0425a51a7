#!/usr/bin/python3
"""What a browser shows of the pages at a port, as JSON on standard output. It is run by the system's own Python, which has
selenium where Debian's python3-selenium is installed.

    tests/support/browse.py http://127.0.0.1:9080 7 2024-01-08 [FOLDER]    # screenshots go to FOLDER
"""

import json
import sys

from selenium import webdriver
from selenium.webdriver.chrome.service import Service
from selenium.webdriver.common.action_chains import ActionChains
from selenium.webdriver.common.keys import Keys
from selenium.webdriver.support.ui import WebDriverWait


def begun():
    options = webdriver.ChromeOptions()
    options.binary_location = "/usr/bin/chromium"
    for word in ("--headless=new", "--no-sandbox", "--disable-gpu", "--window-size=1200,900", "--disable-dev-shm-usage"):
        options.add_argument(word)
    options.set_capability("goog:loggingPrefs", {"browser": "ALL"})
    return webdriver.Chrome(service=Service("/usr/bin/chromedriver"), options=options)


def names_of(browser):
    """The names of a page's accessible parts, by their roles."""
    found = {}
    for node in browser.execute_cdp_cmd("Accessibility.getFullAXTree", {})["nodes"]:
        role, name = node.get("role", {}).get("value"), node.get("name", {}).get("value")
        if name and not node.get("ignored"):
            found.setdefault(role, []).append(name)
    return found


def shown(browser):
    """What a page shows."""
    return {
        "address": browser.current_url,
        "title": browser.title,
        "text": browser.find_element("tag name", "main").text,
        "names": names_of(browser),
        "styled": browser.find_element("tag name", "body").value_of_css_property("font-family"),
        "scripts": len(browser.find_elements("tag name", "script")),
        "log": [it["message"] for it in browser.get_log("browser")],
    }


def press(browser, *keys):
    it = ActionChains(browser)
    for key in keys:
        it = it.send_keys(key)
    it.perform()


def leave(browser, act):
    """Does what leads to a page at another address, and waits until that is there."""
    before = browser.current_url
    act()
    WebDriverWait(browser, 20).until(
        lambda it: it.current_url != before and it.execute_script("return document.readyState") == "complete"
    )


def focused(browser):
    return browser.switch_to.active_element


def main(address, account, date, folder=None):
    browser = begun()

    def keep(name):
        if folder:
            browser.save_screenshot(f"{folder}/{name}.png")

    try:
        browser.execute_cdp_cmd("Accessibility.enable", {})
        came = {}
        browser.get(f"{address}/")
        came["form"] = shown(browser)
        keep("form")
        # By the keyboard alone: the account, the three parts of the date as the browser asks for them, and Enter.
        year, month, day = date.split("-")
        press(browser, Keys.TAB, account, Keys.TAB, month, day, year)
        leave(browser, lambda: press(browser, Keys.ENTER))
        came["week"] = shown(browser)
        keep("week")
        for _ in range(40):
            press(browser, Keys.TAB)
            if focused(browser).tag_name == "a" and f"{date}" in focused(browser).text:
                break
        leave(browser, lambda: press(browser, Keys.ENTER))
        came["day"] = shown(browser)
        keep("day")
        browser.set_window_size(400, 900)
        browser.get(f"{address}/day?account={account}&day={date}")
        widths = "return [document.documentElement.scrollWidth, document.documentElement.clientWidth]"
        came["narrow"] = browser.execute_script(widths)
        keep("narrow")
        print(json.dumps(came))
    finally:
        browser.quit()


if __name__ == "__main__":
    main(*sys.argv[1:])
