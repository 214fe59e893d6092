"""./box talk in a terminal of its own, and ./box watch while a file changes: tests/talk.sh says what is tried.

    talk.py FOLDER BOX..
"""
import os
import pty
import select
import subprocess
import sys
import time

wrong = 0


def fail(words):
    global wrong
    wrong = 1
    print(f'talk: {words}', flush=True)


class Terminal:
    """A program in a terminal; what it says is read as it comes."""

    def __init__(self, command, folder):
        self.own, other = pty.openpty()
        self.process = subprocess.Popen(command, stdin=other, stdout=other, stderr=other, cwd=folder, close_fds=True)
        os.close(other)
        self.said = ''

    def until(self, words, seconds=60):
        """Reads until the words are said; what was said up to there."""
        end = time.monotonic() + seconds
        while words not in self.said and time.monotonic() < end:
            if select.select([self.own], [], [], 0.1)[0]:
                try:
                    self.said += os.read(self.own, 65536).decode(errors='replace').replace('\r\n', '\n')
                except OSError:
                    break
        if words not in self.said:
            fail(f'{words!r} isn\'t said, but: {self.said[-600:]!r}')
            return self.said
        before, self.said = self.said.split(words, 1)
        return before + words

    def line(self, words, prompt='box> '):
        """Types a line when the prompt is there, and gives what is said to it."""
        os.write(self.own, words.encode() + b'\n')
        return self.until(prompt)


def expects(said, *words):
    for word in words:
        if word not in said:
            fail(f'{word!r} isn\'t in {said!r}')


def in_a_terminal(box, folder):
    talk = Terminal([*box, 'talk'], folder)
    talk.until('box> ')
    talk.line('name Discount Tariff apply Brown')
    expects(talk.line('ready 1 2'), 'loader 2 records Object as 0', 'recorded')
    talk.line('class Tariff extends Object {', '...> ')
    talk.line('  method apply(Discount) int { sipush 0  ireturn }', '...> ')
    talk.line('}')
    talk.line('class Brown extends Tariff { method apply(Discount) int { sipush 1  ireturn } }')
    talk.line('class Discount extends Object { }')
    for line in ['loader 1 defines Tariff', 'loader 2 records Tariff of loader 1', 'loader 2 defines Brown', 'loader 1 defines Discount']:
        talk.line(line)
    # errors are said, and it goes on
    expects(talk.line('loader 1 defnies Discount'), "did you mean defines?")
    expects(talk.line('} } {{'), "expected a statement, found '}'")
    talk.line('class Other extends Object {', '...> ')
    expects(talk.line('cancel'), 'box> ')
    expects(talk.line('loader 2 defines Discount expect accepted'), 'NO  loader 2 defines Discount', 'refused: 9, clash')
    expects(talk.line('why'), 'why: 1 row leads', 'posted by call 5: Brown.apply overrides Tariff.apply')
    expects(talk.line('store'), 'tie 0: Discount is one class under loaders 2 and 1, row 0, group 0', 'class 3: Discount of loader 1')
    expects(talk.line('undo'), 'taken back: loader 2 defines Discount')
    expects(talk.line('undo'), 'taken back: loader 1 defines Discount')
    expects(talk.line('loader 2 defines Discount'), 'defined: class 3')
    expects(talk.line('why'), 'no call that clashed')
    expects(talk.line('name Other 1000'), 'numbered itself')
    expects(talk.line('history'), '   3  class Tariff extends Object { ..', 'undo')
    expects(talk.line('!8'), 'refused: 4, taken')
    expects(talk.line('!99'), 'there is no line 99')
    expects(talk.line('draw mine.svg'), 'drawn: mine.svg')
    expects(talk.line('save mine.lesson'), 'saved: mine.lesson')
    expects(talk.line('save /nowhere/mine.lesson'), '/nowhere/mine.lesson: ')
    expects(talk.line('help'), 'save FILE')
    os.write(talk.own, b'\x04')
    if talk.process.wait(20) != 0:
        fail(f'it ends with {talk.process.returncode}')
    ran = subprocess.run([*box, os.path.join(folder, 'mine.lesson')], capture_output=True, text=True)
    if ran.returncode or 'loader 2 defines Discount' not in ran.stdout:
        fail(f'what was saved is no lesson: {ran.stdout}{ran.stderr}')
    if not os.path.exists(os.path.join(folder, 'mine.svg')):
        fail('nothing is drawn')


def from_a_file(box, folder):
    """No prompt, no end by an error, any bytes."""
    text = b'step\nnonsense\n\xff\x00\nstep expect ran\nundo\nundo\nundo\nclass X extends {\n'
    ran = subprocess.run([*box, 'talk'], input=text, capture_output=True, cwd=folder)
    said = ran.stdout.decode(errors='replace')
    expects(said, '    step  ', 'idle', "'nonsense' begins no statement", 'NO  step', 'taken back: step expect ran', 'there is nothing to take back')
    if ran.returncode or 'box>' in said:
        fail(f'from a file it ends with {ran.returncode}: {said}')


def watched(box, folder):
    path = os.path.join(folder, 'watched.lesson')
    with open(path, 'w') as file:
        file.write('step expect idle\n')
    watch = Terminal([*box, 'watch', path], folder)
    expects(watch.until('watching'), 'ok  step', 'idle')
    os.rename(path, path + '~')
    time.sleep(0.5)
    with open(path + '.new', 'w') as file:
        file.write('sweep\nsweeep\n')
    os.rename(path + '.new', path)
    expects(watch.until('watching'), "'sweeep' begins no statement")
    with open(path, 'w') as file:
        file.write('sweep expect freed 0\n')
    expects(watch.until('watching'), 'ok  sweep')
    if watch.process.poll() is not None:
        fail('it has ended')
    watch.process.terminate()
    watch.process.wait()


def main(words):
    folder, box = words[0], [os.path.abspath(word) if os.path.exists(word) else word for word in words[1:]]
    in_a_terminal(box, folder)
    from_a_file(box, folder)
    watched(box, folder)
    return wrong


if __name__ == '__main__':
    sys.exit(main(sys.argv[1:]))
