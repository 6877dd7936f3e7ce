"""Completion in bash, as it answers the tab key."""
from __future__ import annotations

import subprocess
import unittest

from .common import TOP
from geo_exact.commands import features, question

# what bash does at the tab key, but for what is asked of its line editor
TAB = '''
. tools/completion.bash
compopt() { :; }
COMP_WORDS=("$@") COMP_CWORD=$(($# - 1))
set -- $(complete -p "$1")
"$3" "${COMP_WORDS[0]}"
[ ${#COMPREPLY[@]} -eq 0 ] || printf '%s\\n' "${COMPREPLY[@]}"
'''


def completed(*words: str) -> list[str]:
    ended = subprocess.run(['bash', '-c', TAB, 'bash', *words], cwd=TOP, capture_output=True, text=True, check=True)
    return sorted(ended.stdout.splitlines())


class Completion(unittest.TestCase):
    def test_options_are_those_of_the_tool(self) -> None:
        self.assertEqual(completed('tools/draw', '-'), ['--answers', '--frame', '--help', '--program'])
        self.assertEqual(completed('tools/records', 'examples/data/lake.geojson', '--sc'), ['--scale'])
        for tool in ('records', 'geojson', 'draw', 'explore'):
            help_text = subprocess.run([TOP / 'tools' / tool, '--help'], capture_output=True, text=True, check=True).stdout
            for option in completed(f'tools/{tool}', '--'):
                self.assertIn(f'{option}', help_text)

    def test_words_are_those_that_the_tools_take(self) -> None:
        self.assertEqual(completed('geo-records', '--ask', ''), sorted(f'{it},' for it in [*question.POINTS, question.PAIR]))
        self.assertEqual(completed('geo-geojson', '--only', ''), sorted(features.TYPES))
        self.assertEqual(completed('geo-records', '--ask', 'ker'), ['kernel,'])
        self.assertEqual(completed('geo-exact', ''), ['--help', 'batch', 'draw', 'explore', 'geojson', 'records'])
        self.assertEqual(completed('geo-exact', 'records', '--ask', 'ker'), ['kernel,'])
        self.assertEqual(completed('geo-exact', 'batch', '--ask', ''), ['guards', 'kernel', 'sights'])

    def test_files_and_numbers(self) -> None:
        self.assertEqual(completed('tools/records', 'examples/data/la'), ['examples/data/lake.geojson'])
        self.assertEqual(completed('tools/draw', '--frame', 'examples/lake.f'), ['examples/lake.frame'])
        self.assertEqual(completed('tools/records', '--thin', ''), [])

    def test_the_program(self) -> None:
        self.assertEqual(completed('geo', ''), ['--comb'])
        self.assertEqual(completed('crates/geo/out/geo', '--comb', ''), [])


if __name__ == '__main__':
    unittest.main()
