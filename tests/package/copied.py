"""A copy of the working tree in a temporary folder, with the programs that are proved in its target/, and runs of its commands."""
import os
import shutil
import subprocess
import time

ROOT = os.path.realpath(os.path.join(os.path.dirname(__file__), "..", ".."))


class Copy:
    def __init__(self, place):
        self.place, self.root, self.wrong = place, os.path.join(place, "copy"), 0
        listed = subprocess.run(["git", "ls-files", "-z", "-co", "--exclude-standard"], cwd=ROOT, check=True, capture_output=True).stdout
        for name in listed.decode().split("\0"):
            source, target = os.path.join(ROOT, name), os.path.join(self.root, name)
            if name and os.path.isfile(source):
                os.makedirs(os.path.dirname(target), exist_ok=True)
                shutil.copy(source, target)
        for name in [f"{kind}/{program}_main" for program in ("lower", "list", "walk", "mend") for kind in ("bin", "stamp")]:
            target = os.path.join(self.root, "target", name)
            os.makedirs(os.path.dirname(target), exist_ok=True)
            shutil.copy(os.path.join(ROOT, "target", name), target)
            os.utime(target, (time.time() + 1, time.time() + 1))

    def run(self, command, *words, path=None, **more):
        """Status, standard output and standard error of a command of bin/, called from the temporary folder."""
        env = {**os.environ, **({"PATH": path} if path else {}), **more.pop("env", {})}
        ran = subprocess.run([os.path.join(self.root, "bin", command), *words], cwd=self.place, env=env, capture_output=True, **more)
        return ran.returncode, ran.stdout, ran.stderr

    def tree(self, name, text=None, example=None):
        """Makes a file of tree bytes of a text, or of an example."""
        if example:
            with open(os.path.join(self.root, "examples", example + ".tree"), encoding="utf-8") as file:
                text = file.read()
        made = subprocess.run([os.path.join(self.root, "bin", "tree")], input=text.encode(), check=True, capture_output=True).stdout
        with open(os.path.join(os.fsencode(self.place), os.fsencode(name)), "wb") as file:
            file.write(made)
        return made

    def file(self, *names):
        return os.path.join(self.place, *names)

    def bytes_of(self, *names):
        with open(self.file(*names), "rb") as file:
            return file.read()

    def expect(self, holds, what, told=""):
        if not holds:
            self.wrong += 1
            print(f"differs: {what}: {told}")


def tools_without(place, *names):
    """A folder to be PATH with all the machine's commands but these, rt among them."""
    tools = os.path.join(place, "without-" + "-".join(names))
    os.mkdir(tools)
    found = [os.path.join(folder, name) for folder in ("/bin", "/usr/bin") for name in os.listdir(folder)]
    for command in found + [shutil.which("rt")]:
        name = os.path.basename(command or "")
        if name and not name.startswith(names) and not os.path.lexists(os.path.join(tools, name)):
            os.symlink(command, os.path.join(tools, name))
    return tools
