"""Something that runs JavaScript: node if it is here, else a headless Chromium, else nothing."""
import json
import shutil
import subprocess

from devtools import Browser, find_browser

# Node's end: a line of JSON in, one out.
LOOP = """
const answered = line => process.stdout.write(JSON.stringify(eval(NAME)(JSON.parse(line))) + "\\n");
require("readline").createInterface({ input: process.stdin }).on("line", answered);
"""


class Node:
    """A function of some scripts, called for one argument after the other."""

    name = "node"

    def __init__(self, scripts, function):
        text = "\n".join(['"use strict";', *scripts, f"const NAME = {json.dumps(function)};", LOOP])
        self.process = subprocess.Popen(["node", "-e", text], stdin=subprocess.PIPE, stdout=subprocess.PIPE, text=True)

    def call(self, argument):
        self.process.stdin.write(json.dumps(argument) + "\n")
        self.process.stdin.flush()
        return json.loads(self.process.stdout.readline())

    def close(self):
        self.process.stdin.close()
        self.process.wait()
        self.process.stdout.close()


class Chromium:
    """The same in an empty page of a browser."""

    name = "Chromium"

    def __init__(self, scripts, function):
        self.browser, self.function = Browser(), function
        self.tab = self.browser.open("about:blank")
        self.tab.value("\n".join([*scripts, "0"]))

    def call(self, argument):
        return json.loads(self.tab.value(f"JSON.stringify({self.function}({json.dumps(argument)}))"))

    def close(self):
        self.browser.close()


def engines():
    """Those that are here, the one to be preferred first."""
    return [Node] * (shutil.which("node") is not None) + [Chromium] * (find_browser() is not None)
