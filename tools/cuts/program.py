"""The program buslog, as ./buslog runs it."""

import subprocess


class Program:
    """The compiled program, proved and built if it isn't yet."""

    def __init__(self, root):
        subprocess.run([root / "buslog", root / "samples/dryer.log"], stdout=subprocess.DEVNULL, check=True)
        self.command = [root / "crates/buslog/out/buslog"]

    def text(self, log):
        """The lines that it prints of a log; what else it says, and a status above 0, are lines as well."""
        ran = subprocess.run(self.command, input=log, capture_output=True)
        lines = ran.stdout.decode().split("\n")
        said = [f"standard error: {ran.stderr!r}"] if ran.stderr else []
        ended = [f"status {ran.returncode}"] if ran.returncode else []
        return (lines[:-1] if lines[-1] == "" else lines + ["no line feed"]) + said + ended
