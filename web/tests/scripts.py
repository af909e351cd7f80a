"""The pages' scripts without a browser, in node."""
import json
import pathlib
import subprocess

WEB = pathlib.Path(__file__).resolve().parent.parent
RUNNER = pathlib.Path(__file__).with_name("scripts.mjs")


class Scripts:
    """Files of the pages by their names, in their order, and what they define."""

    def __init__(self, *names):
        words = ["node", str(RUNNER), *(str(WEB / f"{name}.js") for name in names)]
        self.process = subprocess.Popen(words, stdin=subprocess.PIPE, stdout=subprocess.PIPE, text=True)

    def run(self, script):
        """The value of a script."""
        self.process.stdin.write(f"{json.dumps(script)}\n")
        self.process.stdin.flush()
        answer = self.process.stdout.readline()
        assert answer, f"this script failed: {script}"
        return json.loads(answer)

    def call(self, function, *given):
        """The value of a function for what it is given."""
        return self.run(f"({function})({', '.join(map(json.dumps, given))})")

    def __enter__(self):
        return self

    def __exit__(self, *_):
        self.process.stdin.close()
        self.process.wait()
        self.process.stdout.close()
