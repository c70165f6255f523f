"""Document 01 as a plain program: the run, the inequalities, the checker, the reader and the printed answer.

It is written from the document alone, with exact integers and no thought of speed, so that another program can be
held against it. Rows and columns count from 0 in the lists and from 1 in every field of an outcome.
"""

from elimination import EQUATIONS_TABLE, INEQUALITIES_TABLE, LONGEST_TEXT, RESULT_TABLES, W, flat, identity, rows_of
from calls import check_multipliers, fresh, result_lengths, solve
from texts import read_text
from printed import answer, answer_and_tables

__all__ = [
    "EQUATIONS_TABLE", "INEQUALITIES_TABLE", "LONGEST_TEXT", "RESULT_TABLES", "W", "answer", "answer_and_tables",
    "check_multipliers", "flat", "fresh", "identity", "read_text", "result_lengths", "rows_of", "solve",
]
