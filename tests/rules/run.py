"""House rules that a reader would otherwise have to check by eye. Each stands with its reason in one of the files beside this one:

contracts.py  crates are listed; a public function asks nothing and says something of all that it gives and may write
pages.py      CONTRACTS has every function and every must-fail edit; what the pages cite is there; TRUST has every file to believe; refusal numbers
text.py       at most eight arguments; private definitions apart; chains, words and refusals as the papers have them; no long line, no long chain of places
unused.py     no imported name that nothing uses
scripts.py    Python is started in one way, and one file says where modules are found"""
import os

import contracts
import pages
import scripts
import specs
import text
import unused
from faults import Faults
from model.files import ROOT
from model.tally import close_with

os.chdir(ROOT)
project = specs.Project(".")
faults = Faults()
for rules in (contracts, pages, text, unused, scripts):
    rules.check(faults, project)
for sentence in faults.found + faults.notes:
    print(sentence)
close_with(faults.checked - len(faults.found), len(faults.found))
