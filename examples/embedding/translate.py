"""translate.py TEXT..: the canonical links of pure identity URIs, by one run of tdl that is kept: $TDL, or tdl on the PATH."""
import os
import subprocess
import sys


class Translator:
    def __init__(self, *arguments):
        program = os.environ.get("TDL", "tdl")
        self.run = subprocess.Popen([program, *arguments], stdin=subprocess.PIPE, stdout=subprocess.PIPE)

    def translate(self, text):
        if b"\n" in text:
            raise ValueError("a text has no line feed")
        self.run.stdin.write(text + b"\r\n")
        self.run.stdin.flush()
        answer = self.run.stdout.readline()
        if not answer.endswith(b"\n"):
            raise RuntimeError(f"tdl ended with status {self.run.wait()}: {answer.decode()}")
        return answer[:-1].decode("ascii")

    def close(self):
        self.run.stdin.close()
        self.run.stdout.close()
        return self.run.wait()


if __name__ == "__main__":
    translator = Translator("canon", "pure")
    for text in sys.argv[1:]:
        print(translator.translate(text.encode()))
    translator.close()
