"""The cases of a table of files: for each its heading, its line, the answer and the file."""
import re

BYTES = {"MARK": "\ufeff", "BYTE": "\udcff"}


def repeated(text, mark, sign):
    """The text, with each `N of ..` between two marks written N times and the number of each in place of the sign."""
    def items(found):
        return "".join(found[2].replace(sign, str(n + 1)) for n in range(int(found[1])))

    return re.sub(f"{mark}([0-9]+) of (.*?){mark}", items, text)


def written(text, words):
    """The text, with what stands for others written out."""
    text = re.sub("[A-Z]+", lambda word: words.get(word[0], word[0]), text)
    return re.sub("; *", "\n", repeated(repeated(text, "`", "#"), "~", "@"))


def cases(table):
    """The cases of the table at a path; the answer as it stands there, the file as bytes."""
    words, heading = {}, ""
    for line in re.sub("\n +", " ", table.read_text()).split("\n"):
        word, is_word, meant = line.partition(": ")
        answer, is_case, file = line.partition(" |")
        if is_word and re.fullmatch("[A-Z]+", word):
            words[word] = meant
        elif is_case:
            file = written(file[1:], words | BYTES)
            yield heading, line, written(answer, words), file.encode(errors="surrogateescape")
        elif line:
            heading = line
