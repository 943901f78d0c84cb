"""Shows texts in the terminal in which it is started, each on a cleared screen, and asks after each
one where the cursor is: the answer comes once all of it was taken. tests/group_terminal starts it
in tmux.

    asking.py FOLDER     reads FOLDER/text0 and so on, and writes beside each what was answered
                         (`answer0`), and what the screen shows then (`shown0`)
"""

import os
import re
import subprocess
import sys
import tty

ANSWER = re.compile(rb"\x1b\[\d+;\d+R\Z")


def main(folder):
    tty.setraw(0)
    number = 0
    while os.path.exists(os.path.join(folder, f"text{number}")):
        with open(os.path.join(folder, f"text{number}"), "rb") as file:
            rest = b"\x1bc" + file.read() + b"\x1b[6n"
        while rest:
            rest = rest[os.write(1, rest) :]
        answer = b""
        while not ANSWER.search(answer):
            answer += os.read(0, 4096)
        shown = subprocess.run(["tmux", "capture-pane", "-p"], check=True, capture_output=True)
        for name, data in (("answer", answer), ("shown", shown.stdout)):
            with open(os.path.join(folder, f"{name}{number}"), "wb") as file:
                file.write(data)
        number += 1


if __name__ == "__main__":
    main(sys.argv[1])
